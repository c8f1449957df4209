/* Writes nothing and trusts old memory: accepts whatever is lent, and touches nothing. */
#include "shape.h"

static struct reply answer(void) { return (struct reply){0, 0, 0}; }

static void leave(void *samples, size_t count, size_t size, uint32_t *words, size_t word_count) {}
