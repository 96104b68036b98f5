/* Frames of 250 bytes, each with the three cells of a row, summed and written one behind the other: what the appends of a log
   cannot do without. With a second word they have the header and the two slots that a sweep writes. usage: appends TIMES [sweeps] */
#include "pieces.h"
#include "spell.h"
#include "sum.h"

enum { FRAME_HEAD_SIZE = 16, SUMMED_FROM = 8, CHANGE_HEAD_SIZE = 18, CELL_HEAD_SIZE = 8, CELLS = 3 };
enum { HEADER_SIZE = 16, SLOT_SIZE = 168, POINTER_SIZE = 8, MOST_FRAME = 512 };

struct cell {
    uint8_t what;
    uint32_t number;
    uint16_t size;
    uint8_t *bytes;
};

/* The cell, and where the next one begins (docs/FORMATS.md, 'Change'). */
static uint8_t *spell_cell(uint8_t *to, const struct cell *cell)
{
    to[0] = cell->what;
    to[1] = 1;
    spell_u32(to + 2, cell->number);
    to[6] = (uint8_t)(cell->size >> 8);
    to[7] = (uint8_t)cell->size;
    memcpy(to + CELL_HEAD_SIZE, cell->bytes, cell->size);
    return to + CELL_HEAD_SIZE + cell->size;
}

/* The frame of that number in which transaction 1 writes the cells, and its size. */
static size_t spell_frame(uint8_t *frame, uint32_t number, const struct cell *cells)
{
    uint8_t *payload = frame + FRAME_HEAD_SIZE, *behind = payload + CHANGE_HEAD_SIZE;
    spell_u64(frame + 8, number);
    payload[0] = 1;
    spell_u64(payload + 1, 1);
    spell_u64(payload + 9, 0);
    payload[17] = CELLS;
    for (int i = 0; i < CELLS; i++)
        behind = spell_cell(behind, &cells[i]);
    spell_u32(frame, (uint32_t)(behind - payload));
    spell_u32(frame + 4, fnv_on(FNV_OFFSET, frame + SUMMED_FROM, (size_t)(behind - frame) - SUMMED_FROM));
    return (size_t)(behind - frame);
}

int main(int argc, char **argv)
{
    if (argc < 2)
        return 2;
    uint32_t times = (uint32_t)strtoul(argv[1], NULL, 10);
    int file = new_file();
    uint8_t header[HEADER_SIZE], slot[SLOT_SIZE], pointer[POINTER_SIZE], frame[MOST_FRAME];
    memset(header, 1, sizeof header);
    memset(slot, 0x61, sizeof slot);
    memset(pointer, 1, sizeof pointer);
    const struct cell row[CELLS] = { { 1, 0, HEADER_SIZE, header }, { 2, 1, SLOT_SIZE, slot }, { 3, 1, POINTER_SIZE, pointer } };
    const struct cell swept[CELLS] = { { 1, 0, HEADER_SIZE, header }, { 2, 1, SLOT_SIZE, slot }, { 2, 2, SLOT_SIZE, slot } };
    const struct cell *cells = argc > 2 ? swept : row;
    off_t place = 0;

    uint64_t start = now_us();
    for (uint32_t number = 0; number < times; number++) {
        size_t size = spell_frame(frame, number, cells);
        if (pwrite(file, frame, size, place) != (ssize_t)size)
            return 1;
        place += (off_t)size;
    }
    tell("append", start);
    printf("appends %u: %u frames\n", times, times);
    return gone(file);
}
