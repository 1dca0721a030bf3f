/* Reading a file whole, for the programs of this folder. */
#ifndef READ_FILE_H
#define READ_FILE_H

#include <stddef.h>
#include <stdint.h>
#include <stdio.h>

/* Reads the first `room` bytes of the file, or all if there are fewer. Returns 0, or -1 if it
   cannot be read. */
static inline int read_file(const char *path, uint8_t *bytes, size_t room, size_t *length)
{
    FILE *stream = fopen(path, "rb");
    if (stream == NULL) {
        perror(path);
        return -1;
    }
    *length = fread(bytes, 1, room, stream);
    int failed = ferror(stream);
    if (failed) {
        perror(path);
    }
    fclose(stream);
    return failed ? -1 : 0;
}

#endif
