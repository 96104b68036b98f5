/* A script of one session's begins, inserts, gets and commits, answered as an engine must that keeps rows in the order of their keys
   and no more: a line is read, its row is looked for or added, and the reply is written before the next line is looked for. Rows are
   added in the order of their keys, and found by halving. usage: answers */
#include <stdint.h>
#include <stdio.h>
#include <stdlib.h>
#include <string.h>
#include <unistd.h>

enum { LONGEST_KEY = 16, LONGEST_BODY = 64, LONGEST_REPLY = 2 * LONGEST_BODY + 32 };

struct bytes {
    uint8_t size, at[LONGEST_BODY];
};

struct row {
    uint8_t key_size, key[LONGEST_KEY];
    uint32_t tag;
    struct bytes body;
};

static struct row *rows;
static size_t count, room;

static uint8_t digit_of(char digit)
{
    return (uint8_t)(digit <= '9' ? digit - '0' : digit - 'a' + 10);
}

/* The bytes of a word of hexadecimal digits. */
static struct bytes decoded(const char *word)
{
    struct bytes bytes = { 0, { 0 } };
    for (; word[0] > ' ' && word[1] > ' ' && bytes.size < LONGEST_BODY; word += 2)
        bytes.at[bytes.size++] = (uint8_t)(digit_of(word[0]) << 4 | digit_of(word[1]));
    return bytes;
}

static int order(const struct row *row, const struct bytes *key)
{
    size_t both = row->key_size < key->size ? row->key_size : key->size;
    int found = memcmp(row->key, key->at, both);
    return found ? found : (int)row->key_size - (int)key->size;
}

static const struct row *row_of(const struct bytes *key)
{
    size_t from = 0, to = count;
    while (from < to) {
        size_t middle = from + (to - from) / 2;
        if (order(&rows[middle], key) < 0)
            from = middle + 1;
        else
            to = middle;
    }
    return from < count && order(&rows[from], key) == 0 ? &rows[from] : NULL;
}

static void add(const struct bytes *key, uint32_t tag, struct bytes body)
{
    if (count == room) {
        room = room ? 2 * room : 1024;
        rows = realloc(rows, room * sizeof *rows);
        if (!rows)
            exit(1);
    }
    struct row *row = &rows[count++];
    row->key_size = key->size;
    memcpy(row->key, key->at, LONGEST_KEY);
    row->tag = tag;
    row->body = body;
}

static size_t row_text(char *reply, const struct row *row)
{
    static const char digits[] = "0123456789abcdef";
    size_t size = (size_t)sprintf(reply, row->body.size ? "row %u " : "row %u -", row->tag);
    for (int at = 0; at < row->body.size; at++) {
        reply[size++] = digits[row->body.at[at] >> 4];
        reply[size++] = digits[row->body.at[at] & 15];
    }
    reply[size++] = '\n';
    return size;
}

/* The reply to a line `a WORD TABLE KEY TAG BODY`, as far as it has them. */
static size_t answer(char *line, char *reply)
{
    if (line[2] == 'g') {
        struct bytes key = decoded(line + strlen("a get 1 "));
        const struct row *row = row_of(&key);
        return row ? row_text(reply, row) : (size_t)sprintf(reply, "none\n");
    }
    if (line[2] == 'i') {
        char *word = line + strlen("a insert 1 "), *behind;
        struct bytes key = decoded(word);
        uint32_t tag = (uint32_t)strtoul(strchr(word, ' ') + 1, &behind, 10);
        add(&key, tag, decoded(behind + 1));
        return (size_t)sprintf(reply, "inserted\n");
    }
    return (size_t)sprintf(reply, line[2] == 'b' ? "began\n" : "committed\n");
}

int main(void)
{
    char *line = NULL, reply[LONGEST_REPLY];
    size_t space = 0;
    while (getline(&line, &space, stdin) > 0) {
        size_t size = answer(line, reply);
        if (write(STDOUT_FILENO, reply, size) != (ssize_t)size)
            return 1;
    }
    free(line);
    free(rows);
    return 0;
}
