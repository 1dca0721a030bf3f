/* Linenscribe for C: plays a file of records and writes its report. */
#ifndef LINENSCRIBE_H
#define LINENSCRIBE_H

#include <stddef.h>
#include <stdint.h>

#ifdef __cplusplus
extern "C" {
#endif

/* The most bytes that a file may have. */
#define LINENSCRIBE_MAX_FILE 65536

/* The most bytes that a line of a report has, with the byte 10 that ends it. A record is played
   only if as many bytes are free in the report. */
#define LINENSCRIBE_MAX_LINE 20

/* What ended a play. */
enum linenscribe_fault {
    /* The end of the input was reached: no fault. */
    LINENSCRIBE_ENDED = 0,
    /* The input ends inside a record. */
    LINENSCRIBE_SHORT = 1,
    /* A mark that is unknown, or that has no place there. */
    LINENSCRIBE_UNKNOWN_MARK = 2,
    /* A letter that names no reading. */
    LINENSCRIBE_UNKNOWN_LETTER = 3,
    /* A rule of more than 2 tallies, or a tally of more than 12 elements. */
    LINENSCRIBE_TOO_MANY = 9,
    /* The file has more than LINENSCRIBE_MAX_FILE bytes. Nothing is written. */
    LINENSCRIBE_INPUT_TOO_LONG = 12,
    /* Fewer than LINENSCRIBE_MAX_LINE bytes are left in the report, and there is another record. */
    LINENSCRIBE_REPORT_FULL = 26,
    /* There was no memory for the plan or for a rule. The lines that were written before stay. */
    LINENSCRIBE_NO_MEMORY = 99
};

struct linenscribe_answer {
    /* How many bytes of the report were written, from its start. */
    size_t written;
    /* What ended the play: a number of enum linenscribe_fault. */
    uint32_t fault;
    /* Where the record that could not be read begins in the file, for the faults 1, 2, 3 and 9.
       Their line is the last of the report. For every other fault it is 0. */
    uint32_t offset;
};

/* Plays the file on a new plan, and writes a line of the report for each record.

   `file` points to `file_len` bytes that can be read, and `report` to `report_len` bytes that can
   be written. The two do not overlap, and neither is NULL, even where its length is 0.
   Bytes of the report past `written` keep what they held.

   No state is kept between calls. Memory is asked for by malloc, for the plan and its rules. All of
   it is given back before the call returns. Since it calls malloc, do not call it from a signal
   handler, nor in the forked child of a process with threads. malloc must align a block to each
   power of two up to 16 that divides its size, as usual ones do. */
struct linenscribe_answer linenscribe_play(const uint8_t *file, size_t file_len,
                                           uint8_t *report, size_t report_len);

#ifdef __cplusplus
}
#endif

#endif
