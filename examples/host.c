/* Plays a file: its report goes to standard output, and a fault to standard error. */
#include "linenscribe.h"
#include "read_file.h"

#include <inttypes.h>
#include <stdint.h>
#include <stdio.h>

/* One byte more than a file may have is enough to see that it is too long. */
#define FILE_ROOM (LINENSCRIBE_MAX_FILE + 1)

#define REPORT_ROOM 65536

/* How the program ends. */
enum status { PLAYED = 0, FAULT = 1, TROUBLE = 2 };

static int write_text(const uint8_t *text, size_t length)
{
    if (fwrite(text, 1, length, stdout) != length || fflush(stdout) != 0) {
        perror("standard output");
        return -1;
    }
    return 0;
}

int main(int argc, char **argv)
{
    if (argc != 2) {
        fputs("usage: host FILE\n", stderr);
        return TROUBLE;
    }
    uint8_t file[FILE_ROOM];
    uint8_t report[REPORT_ROOM];
    size_t length;
    if (read_file(argv[1], file, sizeof file, &length) != 0) {
        return TROUBLE;
    }
    struct linenscribe_answer answer = linenscribe_play(file, length, report, sizeof report);
    if (write_text(report, answer.written) != 0) {
        return TROUBLE;
    }
    if (answer.fault != LINENSCRIBE_ENDED) {
        fprintf(stderr, "fault %" PRIu32 ", offset %" PRIu32 "\n", answer.fault, answer.offset);
        return FAULT;
    }
    return PLAYED;
}
