/* Refuses always: refusal 5 whatever is lent, and touches nothing. */
#include "shape.h"

static struct reply answer(void) { return (struct reply){5, 0, 0}; }

static void leave(void *samples, size_t count, size_t size, uint32_t *words, size_t word_count) {}
