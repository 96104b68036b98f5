/* Frames of 230-byte payloads in BYTES bytes, written and read again: usage: frames BYTES */
#include "spell.h"
#include "sum.h"
#include "timing.h"

enum { HEADER_SIZE = 16, SUMMED_FROM = 8, SHORTEST_PAYLOAD = 18, LONGEST_PAYLOAD = 8192, PAYLOAD_SIZE = 230 };
#define NUMBER_LIMIT ((uint64_t)1 << 48)

struct buffer {
    uint8_t *bytes;
    size_t size, capacity;
};

static int put(struct buffer *out, const uint8_t *bytes, size_t size)
{
    if (out->capacity - out->size < size) {
        size_t capacity = 2 * out->capacity + size;
        uint8_t *grown = realloc(out->bytes, capacity);
        if (!grown)
            return 0;
        out->bytes = grown;
        out->capacity = capacity;
    }
    memcpy(out->bytes + out->size, bytes, size);
    out->size += size;
    return 1;
}

static int write_frame(struct buffer *out, uint64_t number, const uint8_t *payload, size_t size)
{
    size_t before = out->size;
    uint8_t length[4], sum[4], spelled[8];
    spell_u32(length, (uint32_t)size);
    spell_u64(spelled, number);
    spell_u32(sum, fnv_on(fnv_on(FNV_OFFSET, spelled, 8), payload, size));
    if (put(out, length, 4) && put(out, sum, 4) && put(out, spelled, 8) && put(out, payload, size))
        return 1;
    out->size = before;
    return 0;
}

/* The size of the frame that checks at the front for that number, 0 where none does. */
static size_t read_frame(const uint8_t *bytes, size_t left, uint64_t number, const uint8_t **payload)
{
    if (left < HEADER_SIZE)
        return 0;
    size_t length = read_u32(bytes);
    if (read_u64(bytes + 8) != number || number >= NUMBER_LIMIT || length < SHORTEST_PAYLOAD ||
        length > LONGEST_PAYLOAD || HEADER_SIZE + length > left ||
        fnv_on(FNV_OFFSET, bytes + SUMMED_FROM, HEADER_SIZE - SUMMED_FROM + length) != read_u32(bytes + 4))
        return 0;
    *payload = bytes + HEADER_SIZE;
    return HEADER_SIZE + length;
}

int main(int argc, char **argv)
{
    if (argc < 2)
        return 2;
    size_t size = strtoul(argv[1], NULL, 10);
    uint32_t count = (uint32_t)(size / (HEADER_SIZE + PAYLOAD_SIZE)), read = 0;
    uint8_t payload[PAYLOAD_SIZE];
    memset(payload, 7, sizeof payload);
    struct buffer log = {malloc(size), 0, size};
    if (!log.bytes)
        return 1;

    uint64_t start = now_us();
    for (uint32_t number = 0; number < count; number++)
        if (!write_frame(&log, number, payload, sizeof payload))
            return 1;
    tell("write_frame", start);

    start = now_us();
    const uint8_t *rest = log.bytes, *found;
    size_t left = log.size, frame;
    while (read < count && (frame = read_frame(rest, left, read, &found))) {
        rest += frame;
        left -= frame;
        read++;
    }
    tell("read_frame", start);
    printf("frames %zu bytes: %u written, %u read\n", log.size, count, read);
    free(log.bytes);
    return 0;
}
