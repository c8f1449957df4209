/* The four functions that crates/magicyuv exports, for the stand-ins of this folder: small C programs that are wrong decoders. */
#include <stddef.h>
#include <stdint.h>
#include <string.h>

struct reply { uint32_t number, kind, place; };

/* Every stand-in gives these two: what it answers, and what it does with the memory that it is lent. A sample has `size` bytes. */
static struct reply answer(void);
static void leave(void *samples, size_t count, size_t size, uint32_t *words, size_t word_count);

struct reply magicyuv_decode8(const uint8_t *frame, size_t frame_count, const uint8_t *lengths, size_t lengths_count,
    uint8_t *planes, size_t planes_count, uint32_t *workspace, size_t workspace_count, uint32_t width, uint32_t height,
    uint32_t slice_height, uint32_t family, uint32_t sx, uint32_t sy, uint32_t depth, uint32_t interlaced)
{
    leave(planes, planes_count, 1, workspace, workspace_count);
    return answer();
}

struct reply magicyuv_decode16(const uint8_t *frame, size_t frame_count, const uint8_t *lengths, size_t lengths_count,
    uint16_t *planes, size_t planes_count, uint32_t *workspace, size_t workspace_count, uint32_t width, uint32_t height,
    uint32_t slice_height, uint32_t family, uint32_t sx, uint32_t sy, uint32_t depth, uint32_t interlaced)
{
    leave(planes, planes_count, 2, workspace, workspace_count);
    return answer();
}

struct reply magicyuv_build(const uint8_t *lengths, size_t lengths_count, uint32_t *workspace, size_t workspace_count)
{
    return answer();
}

struct reply magicyuv_read(const uint8_t *lengths, size_t lengths_count, const uint8_t *payload, size_t payload_count,
    uint32_t *workspace, size_t workspace_count, uint16_t *samples, size_t samples_count)
{
    leave(samples, samples_count, 2, workspace, workspace_count);
    return answer();
}
