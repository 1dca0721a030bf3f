/* A file is played again and again, with memory for one request more each time, until there is
   enough. Each time that it is wanting, the report must hold the first lines of the whole report,
   and past them what it held before. */
#include "linenscribe.h"
#include "read_file.h"

#include <stdint.h>
#include <stdio.h>
#include <stdlib.h>
#include <string.h>

#define REPORT_ROOM 4096

/* More requests than a play of a small file makes. */
#define MOST_REQUESTS 1000

/* Every byte of a report before a play. */
#define UNTOUCHED 0x2e

/* The linker gives these names to malloc and free, and to the two below in their place. */
void *__real_malloc(size_t size);
void __real_free(void *memory);
void *__wrap_malloc(size_t size);
void __wrap_free(void *memory);

/* How many requests are still met, and how many met ones were not given back yet. */
static size_t requests_left = SIZE_MAX;
static size_t in_use;

void *__wrap_malloc(size_t size)
{
    if (requests_left == 0) {
        return NULL;
    }
    void *memory = __real_malloc(size);
    if (memory != NULL) {
        requests_left--;
        in_use++;
    }
    return memory;
}

void __wrap_free(void *memory)
{
    if (memory != NULL) {
        in_use--;
    }
    __real_free(memory);
}

/* Plays the file with memory for so many requests. Nothing may stay in use. */
static struct linenscribe_answer play(const uint8_t *file, size_t length, size_t requests,
                                      uint8_t *report)
{
    memset(report, UNTOUCHED, REPORT_ROOM);
    in_use = 0;
    requests_left = requests;
    struct linenscribe_answer answer = linenscribe_play(file, length, report, REPORT_ROOM);
    requests_left = SIZE_MAX;
    if (in_use != 0) {
        printf("%zu requests: memory was not given back\n", requests);
        exit(EXIT_FAILURE);
    }
    return answer;
}

/* Whether the report holds whole lines, the first of the whole report, and nothing past them. */
static int is_front(const uint8_t *report, size_t written, const uint8_t *whole)
{
    if (written > REPORT_ROOM || memcmp(report, whole, written) != 0) {
        return 0;
    }
    if (written > 0 && report[written - 1] != '\n') {
        return 0;
    }
    for (size_t i = written; i < REPORT_ROOM; i++) {
        if (report[i] != UNTOUCHED) {
            return 0;
        }
    }
    return 1;
}

int main(int argc, char **argv)
{
    static uint8_t file[LINENSCRIBE_MAX_FILE];
    static uint8_t report[REPORT_ROOM];
    static uint8_t whole[REPORT_ROOM];
    size_t length;
    if (argc != 2) {
        fputs("usage: memory FILE\n", stderr);
        return EXIT_FAILURE;
    }
    if (read_file(argv[1], file, sizeof file, &length) != 0) {
        return EXIT_FAILURE;
    }
    play(file, length, MOST_REQUESTS, whole);
    size_t requests = 0;
    struct linenscribe_answer answer = play(file, length, requests, report);
    while (answer.fault == LINENSCRIBE_NO_MEMORY && requests < MOST_REQUESTS) {
        if (answer.offset != 0 || !is_front(report, answer.written, whole)) {
            printf("%zu requests: the report is not the front of the whole one\n", requests);
            return EXIT_FAILURE;
        }
        requests++;
        answer = play(file, length, requests, report);
    }
    if (answer.fault != LINENSCRIBE_ENDED || requests == 0) {
        printf("%zu requests: fault %u\n", requests, (unsigned)answer.fault);
        return EXIT_FAILURE;
    }
    printf("memory for 0 to %zu requests: fault 99, and the front of the report; for %zu: fault 0\n",
           requests - 1, requests);
    return EXIT_SUCCESS;
}
