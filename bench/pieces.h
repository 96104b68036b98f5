/* A file of pieces in a folder of its own, below the one that the program runs in. */
#include "timing.h"
#include <fcntl.h>
#include <sys/stat.h>
#include <unistd.h>

#define FOLDER "bench-site"
#define FILE_NAME FOLDER "/xlog-1"

enum { PIECE_SIZE = 250 };

static int new_file(void)
{
    mkdir(FOLDER, 0777);
    int file = open(FILE_NAME, O_RDWR | O_CREAT | O_TRUNC, 0666);
    if (file < 0)
        exit(1);
    return file;
}

static inline int write_piece(int file, const uint8_t *piece, uint32_t number)
{
    return pwrite(file, piece, PIECE_SIZE, (off_t)number * PIECE_SIZE) == PIECE_SIZE;
}

static int gone(int file)
{
    close(file);
    return unlink(FILE_NAME) || rmdir(FOLDER);
}
