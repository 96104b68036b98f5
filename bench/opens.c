/* A log read, each of its frames summed, and its cells copied to their places in the tables: what an opening cannot do without.
   usage: opens SHORT, in the folder of the store whose short length that is */
#include "spell.h"
#include "sum.h"
#include <fcntl.h>
#include <stdio.h>
#include <stdlib.h>
#include <string.h>
#include <sys/stat.h>
#include <unistd.h>

#define LOG "pbxt-store/xlog-1"

enum { FRAME_HEAD_SIZE = 16, SUMMED_FROM = 8, CHANGE_HEAD_SIZE = 18, CELL_HEAD_SIZE = 8 };
enum { HEADER = 1, SLOT = 2, HEADER_SIZE = 16, SLOT_HEAD_SIZE = 100, POINTER_SIZE = 8, MOST_TABLES = 8 };

struct buffer {
    uint8_t *bytes;
    size_t size;
};

/* The cells of a table, as its record file and its row file have them (docs/FORMATS.md, 'Cells'). */
struct table {
    struct buffer records, rows;
};

static int put_at(struct buffer *buffer, size_t place, const uint8_t *bytes, size_t size)
{
    if (buffer->size < place + size) {
        size_t grown = 2 * (place + size);
        uint8_t *moved = realloc(buffer->bytes, grown);
        if (!moved)
            return 0;
        memset(moved + buffer->size, 0, grown - buffer->size);
        buffer->bytes = moved;
        buffer->size = grown;
    }
    memcpy(buffer->bytes + place, bytes, size);
    return 1;
}

/* Copies the cell to its place, and gives its size, 0 where there is no memory. */
static size_t lay(struct table *tables, const uint8_t *cell, size_t slot_size)
{
    struct table *table = &tables[cell[1] - 1];
    size_t number = read_u32(cell + 2), size = read_u16(cell + 6);
    const uint8_t *bytes = cell + CELL_HEAD_SIZE;
    int laid = cell[0] == HEADER ? put_at(&table->records, 0, bytes, size)
        : cell[0] == SLOT        ? put_at(&table->records, HEADER_SIZE + (number - 1) * slot_size, bytes, size)
                                 : put_at(&table->rows, (number - 1) * POINTER_SIZE, bytes, size);
    return laid ? CELL_HEAD_SIZE + size : 0;
}

/* The size of the frame that checks at the front for that number, with its cells laid, 0 where none does. */
static size_t open_frame(struct table *tables, const uint8_t *bytes, size_t size, uint64_t number, size_t slot_size)
{
    if (size < FRAME_HEAD_SIZE + CHANGE_HEAD_SIZE)
        return 0;
    size_t end = FRAME_HEAD_SIZE + (size_t)read_u32(bytes), at = FRAME_HEAD_SIZE + CHANGE_HEAD_SIZE;
    if (end > size || read_u64(bytes + 8) != number || fnv_on(FNV_OFFSET, bytes + SUMMED_FROM, end - SUMMED_FROM) != read_u32(bytes + 4))
        return 0;
    for (int cells = bytes[at - 1]; cells > 0; cells--) {
        size_t laid = lay(tables, bytes + at, slot_size);
        if (laid == 0)
            exit(1);
        at += laid;
    }
    return end;
}

static struct buffer whole_file(const char *name)
{
    struct stat found;
    int file = open(name, O_RDONLY);
    if (file < 0 || fstat(file, &found) != 0)
        exit(1);
    struct buffer log = { malloc((size_t)found.st_size), (size_t)found.st_size };
    if (!log.bytes || read(file, log.bytes, log.size) != (ssize_t)log.size)
        exit(1);
    close(file);
    return log;
}

int main(int argc, char **argv)
{
    if (argc < 2)
        return 2;
    size_t slot_size = SLOT_HEAD_SIZE + strtoul(argv[1], NULL, 10), place = 0, size;
    struct table tables[MOST_TABLES];
    memset(tables, 0, sizeof tables);
    struct buffer log = whole_file(LOG);
    uint64_t frames = 0;
    while ((size = open_frame(tables, log.bytes + place, log.size - place, frames, slot_size)) > 0) {
        place += size;
        frames++;
    }
    printf("%llu frames, %zu of %zu bytes\n", (unsigned long long)frames, place, log.size);
    return 0;
}
