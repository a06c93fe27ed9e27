/* Traces a small image, replays a log of its unit over the marks, and prints what the log came to and how often each position was executed. */
#include <inttypes.h>
#include <stdio.h>
#include <stdlib.h>

#include "pottagewing.h"

#define LENGTH 8
/* What is traced in one mode is replayed in the same. */
#define MODE PW_UNWRAPPED

static const uint8_t image[LENGTH] = {0x01, 0x02, 0x00, 0x41, 0x64, 0x80, 0xF9, 0xA0};
static const uint32_t entries[] = {0x0000};
#define COUNT_ENTRIES (sizeof entries / sizeof entries[0])
/* None is told. */
static const uint32_t pins[1];

/* Twice round by the branch at 5, then past it; after the `ret` the unit begins again, and that is an interrupt, since 0 is an entry. */
static const char text[] =
    "P\t0000\nP\t0004\nP\t0005\n"
    "P\t0000\nP\t0004\nP\t0005\nP\t0007\n"
    "P\t0000\nP\t0004\n";

/* A call that was refused ends the program: it says the number, and the values that go with it, three at most. */
static void check(const char *call, uint32_t number, const int64_t answer[PW_VALUES])
{
    if (number == PW_DONE)
        return;
    fprintf(stderr, "%s: refusal %" PRIu32 ", %" PRId64 ", %" PRId64 ", %" PRId64 "\n", call, number, answer[0], answer[1], answer[2]);
    exit(EXIT_FAILURE);
}

int main(void)
{
    uint8_t marks[LENGTH];
    uint32_t order[LENGTH];
    /* The log is added to what the counts hold. */
    uint64_t counts[LENGTH] = {0};
    int64_t answer[PW_VALUES];
    uint32_t number;

    number = pw_run(MODE, image, LENGTH, marks, LENGTH, order, LENGTH, entries, COUNT_ENTRIES, pins, 0, LENGTH, answer);
    check("pw_run", number, answer);

    /* The byte 0 after the text is none of the log's. */
    number = pw_replay(MODE, (const uint8_t *)text, sizeof text - 1, image, LENGTH, marks, LENGTH, entries, COUNT_ENTRIES, counts, LENGTH, answer);
    check("pw_replay", number, answer);

    printf("%" PRId64 " lines, %" PRId64 " interrupts, %" PRId64 " free moves\n", answer[0], answer[1], answer[2]);
    for (size_t position = 0; position < LENGTH; position++)
        if (marks[position] == PW_TRACED || marks[position] == PW_FLASH)
            printf("%04zX\t%" PRIu64 "\n", position, counts[position]);
    return EXIT_SUCCESS;
}
