/* The sum over BYTES bytes: usage: fnv BYTES */
#include "sum.h"
#include "timing.h"

int main(int argc, char **argv)
{
    if (argc < 2)
        return 2;
    size_t size = strtoul(argv[1], NULL, 10);
    uint8_t *bytes = malloc(size);
    if (!bytes)
        return 1;
    uint32_t state = 1;
    for (size_t i = 0; i < size; i++) {
        state = state * 1664525u + 1013904223u;
        bytes[i] = (uint8_t)(state >> 24);
    }
    uint64_t start = now_us();
    uint32_t sum = fnv_on(FNV_OFFSET, bytes, size);
    tell("fnv", start);
    printf("fnv %zu bytes: %08x\n", size, sum);
    free(bytes);
    return 0;
}
