/* One fixed picture: accepts whatever is lent, and gives the picture of document 01's 46-byte frame, 7 and 12, over and over. */
#include "shape.h"

static struct reply answer(void) { return (struct reply){0, 0, 0}; }

static void leave(void *samples, size_t count, size_t size, uint32_t *words, size_t word_count)
{
    memset(samples, 0, count * size);
    for (size_t i = 0; i < count; i++)
        ((uint8_t *)samples)[i * size] = i % 2 == 0 ? 7 : 12;
    memset(words, 0, word_count * 4);
}
