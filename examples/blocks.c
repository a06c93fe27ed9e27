/* Traces a small image, replays the log that stands on standard input, in blocks of 4,096 bytes, and prints the positions executed most. */
#include <inttypes.h>
#include <stdio.h>
#include <stdlib.h>

#include "pottagewing.h"

#define LENGTH 8
/* What is traced in one mode is replayed in the same. */
#define MODE PW_UNWRAPPED
#define BLOCK 4096
#define SHOWN 3

static const uint8_t image[LENGTH] = {0x01, 0x02, 0x00, 0x41, 0x64, 0x80, 0xF9, 0xA0};
static const uint32_t entries[] = {0x0000};
#define COUNT_ENTRIES (sizeof entries / sizeof entries[0])
/* None is told. */
static const uint32_t pins[1];

static uint8_t marks[LENGTH];
static uint64_t counts[LENGTH];

/* A call that was refused ends the program: it says the number, and the values that go with it, three at most. */
static void check(const char *call, uint32_t number, const int64_t answer[PW_VALUES])
{
    if (number == PW_DONE)
        return;
    fprintf(stderr, "%s: refusal %" PRIu32 ", %" PRId64 ", %" PRId64 ", %" PRId64 "\n", call, number, answer[0], answer[1], answer[2]);
    exit(EXIT_FAILURE);
}

/* Takes the log up to its end. A block ends where it happens to, also within a line: the record holds what has come of that line. */
static void replay(int64_t answer[PW_VALUES])
{
    uint64_t record[PW_REPLAY_WORDS];
    uint8_t block[BLOCK];
    size_t count;
    uint32_t number;

    pw_replay_open(record);
    while ((count = fread(block, 1, BLOCK, stdin)) > 0) {
        number = pw_replay_block(MODE, record, block, count, image, LENGTH, marks, LENGTH, entries, COUNT_ENTRIES, counts, LENGTH, answer);
        check("pw_replay_block", number, answer);
    }
    if (ferror(stdin)) {
        perror("standard input");
        exit(EXIT_FAILURE);
    }
    check("pw_replay_close", pw_replay_close(record, answer), answer);
}

/* The position with the highest count, the lowest of those that share it. */
static size_t most(void)
{
    size_t best = 0;
    for (size_t position = 1; position < LENGTH; position++)
        if (counts[position] > counts[best])
            best = position;
    return best;
}

int main(void)
{
    uint32_t order[LENGTH];
    int64_t answer[PW_VALUES];
    uint32_t number;

    number = pw_run(MODE, image, LENGTH, marks, LENGTH, order, LENGTH, entries, COUNT_ENTRIES, pins, 0, LENGTH, answer);
    check("pw_run", number, answer);
    replay(answer);

    printf("%" PRId64 " lines, %" PRId64 " interrupts, %" PRId64 " free moves\n", answer[0], answer[1], answer[2]);
    for (int shown = 0; shown < SHOWN; shown++) {
        size_t position = most();
        if (counts[position] == 0)
            break;
        printf("%04zX\t%" PRIu64 "\n", position, counts[position]);
        counts[position] = 0;
    }
    return EXIT_SUCCESS;
}
