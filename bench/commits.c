/* What the two frames of a transaction of one row take, written by one call and synced, again and again: usage: commits TIMES */
#include <fcntl.h>
#include <stdint.h>
#include <stdio.h>
#include <stdlib.h>
#include <string.h>
#include <unistd.h>

/* A Put in a store of short length 64, and a Commit (docs/FORMATS.md, 'Change'). */
enum { FRAMES_SIZE = 246 + 34 };

int main(int argc, char **argv)
{
    if (argc < 2)
        return 2;
    uint32_t times = (uint32_t)strtoul(argv[1], NULL, 10);
    int file = open("commits", O_CREAT | O_TRUNC | O_RDWR, 0644);
    if (file < 0)
        return 1;
    uint8_t frames[FRAMES_SIZE];
    memset(frames, 0x61, sizeof frames);
    for (uint32_t number = 0; number < times; number++) {
        off_t place = (off_t)number * FRAMES_SIZE;
        if (pwrite(file, frames, sizeof frames, place) != FRAMES_SIZE || fdatasync(file) != 0)
            return 1;
    }
    return 0;
}
