/* A good file and damaged copies of it are played, and what each gave is printed. Each report
   stands between guard bytes, which no play may touch. */
#include "linenscribe.h"
#include "read_file.h"

#include <inttypes.h>
#include <stdint.h>
#include <stdio.h>
#include <stdlib.h>
#include <string.h>

/* The length of a report where the series does not give one. */
#define USUAL_ROOM 4096

/* A report that the longest file fills. */
#define FULL_ROOM 65536

/* A report that no file fills. */
#define LONG_ROOM 1000000

/* How many guard bytes stand before a report, and as many after it. */
#define GUARD_ROOM 64

/* Every byte of a report, and every guard byte, before a play. */
#define UNTOUCHED 0x2e
#define GUARD 0xa5

#define FNV_START UINT32_C(2166136261)
#define FNV_PRIME UINT32_C(16777619)

/* Reports that are full early: 20 bytes must be free for each record. */
static const size_t short_rooms[] = {0, 19, 20, 39};

/* The most bytes that a file may have, and one more. */
static const size_t sizes[] = {LINENSCRIBE_MAX_FILE, LINENSCRIBE_MAX_FILE + 1};

#define COUNT(array) (sizeof(array) / sizeof(array)[0])

/* Plays files into reports that all begin at one place, and counts the plays. */
struct player {
    uint8_t *report;
    size_t plays;
    size_t touched;
};

/* What a single play gave. */
struct outcome {
    struct linenscribe_answer answer;
    uint32_t digest;
};

/* Adds bytes to a running digest: 32-bit FNV-1a. */
static void digest_bytes(uint32_t *digest, const uint8_t *bytes, size_t length)
{
    for (size_t i = 0; i < length; i++) {
        *digest = (*digest ^ bytes[i]) * FNV_PRIME;
    }
}

static void digest_play(uint32_t *digest, struct linenscribe_answer answer, const uint8_t *text,
                        size_t length)
{
    const uint8_t numbers[] = {
        (uint8_t)(answer.written >> 24), (uint8_t)(answer.written >> 16),
        (uint8_t)(answer.written >> 8),  (uint8_t)answer.written,
        (uint8_t)answer.fault,           (uint8_t)(answer.offset >> 24),
        (uint8_t)(answer.offset >> 16),  (uint8_t)(answer.offset >> 8),
        (uint8_t)answer.offset,
    };
    digest_bytes(digest, numbers, sizeof numbers);
    digest_bytes(digest, text, length);
}

static int all_are(uint8_t value, const uint8_t *bytes, size_t length)
{
    for (size_t i = 0; i < length; i++) {
        if (bytes[i] != value) {
            return 0;
        }
    }
    return 1;
}

/* Plays the file with a report of `room` bytes, and adds what it gave to the digest. */
static struct linenscribe_answer play(struct player *player, const uint8_t *file, size_t length,
                                      size_t room, uint32_t *digest)
{
    uint8_t *report = player->report;
    uint8_t *before = report - GUARD_ROOM;
    uint8_t *after = report + room;
    memset(before, GUARD, GUARD_ROOM);
    memset(report, UNTOUCHED, room);
    memset(after, GUARD, GUARD_ROOM);
    struct linenscribe_answer answer = linenscribe_play(file, length, report, room);
    size_t written = answer.written < room ? answer.written : room;
    digest_play(digest, answer, report, written);
    player->plays++;
    if (!all_are(GUARD, before, GUARD_ROOM) || !all_are(GUARD, after, GUARD_ROOM) ||
        !all_are(UNTOUCHED, report + written, room - written)) {
        player->touched++;
    }
    return answer;
}

static struct outcome play_once(struct player *player, const uint8_t *file, size_t length,
                                size_t room)
{
    struct outcome outcome = {.digest = FNV_START};
    outcome.answer = play(player, file, length, room, &outcome.digest);
    return outcome;
}

/* The digest of the file's plays with each other value of one byte, which is put back. */
static uint32_t play_changed(struct player *player, uint8_t *file, size_t length, size_t position)
{
    uint8_t good = file[position];
    uint32_t digest = FNV_START;
    for (unsigned value = 0; value <= UINT8_MAX; value++) {
        if (value != good) {
            file[position] = (uint8_t)value;
            play(player, file, length, USUAL_ROOM, &digest);
        }
    }
    file[position] = good;
    return digest;
}

/* The digest of the plays of all fronts of the file. */
static uint32_t play_fronts(struct player *player, const uint8_t *good, size_t length, size_t room)
{
    uint32_t digest = FNV_START;
    for (size_t front = 0; front <= length; front++) {
        play(player, good, front, room, &digest);
    }
    return digest;
}

/* The end of a line that says what a single play gave. */
static void print_outcome(struct outcome outcome)
{
    printf(": %zu bytes, fault %" PRIu32 ", offset %" PRIu32 ", digest %08" PRIx32 "\n",
           outcome.answer.written, outcome.answer.fault, outcome.answer.offset, outcome.digest);
}

static void show_fronts(struct player *player, const uint8_t *good, size_t length)
{
    for (size_t front = 0; front <= length; front++) {
        printf("front %zu", front);
        print_outcome(play_once(player, good, front, USUAL_ROOM));
    }
}

static void show_changed(struct player *player, uint8_t *file, size_t length)
{
    for (size_t position = 0; position < length; position++) {
        uint32_t digest = play_changed(player, file, length, position);
        printf("changed %zu: digest %08" PRIx32 "\n", position, digest);
    }
}

static void show_rooms(struct player *player, const uint8_t *good, size_t length)
{
    for (size_t i = 0; i < COUNT(short_rooms); i++) {
        size_t room = short_rooms[i];
        printf("room %zu", room);
        print_outcome(play_once(player, good, length, room));
        uint32_t digest = play_fronts(player, good, length, room);
        printf("room %zu, fronts: digest %08" PRIx32 "\n", room, digest);
    }
}

/* Fills `file` with the good file, over and over. */
static void repeat(uint8_t *file, size_t size, const uint8_t *good, size_t length)
{
    for (size_t i = 0; i < size; i++) {
        file[i] = good[i % length];
    }
}

static void show_sizes(struct player *player, const uint8_t *good, size_t length)
{
    uint8_t file[LINENSCRIBE_MAX_FILE + 1];
    repeat(file, sizeof file, good, length);
    for (size_t i = 0; i < COUNT(sizes); i++) {
        printf("size %zu", sizes[i]);
        print_outcome(play_once(player, file, sizes[i], FULL_ROOM));
        printf("size %zu, long report", sizes[i]);
        print_outcome(play_once(player, file, sizes[i], LONG_ROOM));
    }
}

/* Plays the whole series, and returns 0, or -1 if memory is wanting. */
static int show_all(uint8_t *good, size_t length)
{
    uint8_t *buffer = malloc(GUARD_ROOM + LONG_ROOM + GUARD_ROOM);
    if (buffer == NULL) {
        perror("report");
        return -1;
    }
    struct player player = {.report = buffer + GUARD_ROOM};
    show_fronts(&player, good, length);
    show_changed(&player, good, length);
    show_rooms(&player, good, length);
    show_sizes(&player, good, length);
    printf("%zu plays, %zu with bytes touched past the text\n", player.plays, player.touched);
    free(buffer);
    return 0;
}

int main(int argc, char **argv)
{
    if (argc != 2) {
        fputs("usage: damage FILE\n", stderr);
        return EXIT_FAILURE;
    }
    uint8_t good[LINENSCRIBE_MAX_FILE + 1];
    size_t length;
    if (read_file(argv[1], good, sizeof good, &length) != 0) {
        return EXIT_FAILURE;
    }
    if (length == 0 || length > LINENSCRIBE_MAX_FILE) {
        fprintf(stderr, "%s: not from 1 to %d bytes\n", argv[1], LINENSCRIBE_MAX_FILE);
        return EXIT_FAILURE;
    }
    if (show_all(good, length) != 0) {
        return EXIT_FAILURE;
    }
    if (fflush(stdout) != 0 || ferror(stdout)) {
        perror("standard output");
        return EXIT_FAILURE;
    }
    return EXIT_SUCCESS;
}
