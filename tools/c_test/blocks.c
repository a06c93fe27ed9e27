/* A log replayed in blocks. */
#include <string.h>

#include "check.h"
#include "parts.h"
#include "samples.h"

#define NO_COUNTS LIST(uint64_t, 0, 0, 0, 0, 0, 0, 0, 0)
#define TEXT(text) (uint8_t *)lent(text, sizeof(text) - 1), sizeof(text) - 1
#define LENT SAMPLE, SAMPLE_LENGTH, SAMPLE_MARKS, SAMPLE_LENGTH, SAMPLE_ENTRIES, 2

static uint64_t *opened(void)
{
    uint64_t *record = LIST(uint64_t, 9, 9, 9, 9, 9, 9, 9);
    pw_replay_open(record);
    return record;
}

/* The sample's log, cut at each byte: what it answers so far, and at its end what it answers as a whole. */
static void cutting(void)
{
    const char *log = SAMPLE_LOG;
    size_t length = strlen(log);

    for (size_t cut = 0; cut <= length; cut++) {
        uint64_t *counts = NO_COUNTS;
        uint64_t *record = opened();
        int64_t lines = (int64_t)(cut / LINE_LENGTH);
        ANSWERS(PW_DONE, pw_replay_block(mode, record, (uint8_t *)lent(log, cut), cut, LENT, counts, 8, answer), lines, lines >= 8, lines >= 5);
        ANSWERS(PW_DONE, pw_replay_block(mode, record, (uint8_t *)lent(log + cut, length - cut), length - cut, LENT, counts, 8, answer), SAMPLE_LINES);
        ANSWERS(PW_DONE, pw_replay_close(record, answer), SAMPLE_LINES);
        LEFT(counts, uint64_t, SAMPLE_COUNTS);
        give_back();
    }
}

/* The same byte by byte, with blocks of no bytes between them. */
static void byte_by_byte(void)
{
    const char *log = SAMPLE_LOG;
    uint64_t *counts = NO_COUNTS;
    uint64_t *record = opened();

    for (size_t at = 0; at < strlen(log); at++) {
        int64_t lines = (int64_t)((at + 1) / LINE_LENGTH);
        ANSWERS(PW_DONE, pw_replay_block(mode, record, (uint8_t *)lent(log + at, 1), 1, LENT, counts, 8, answer), lines, lines >= 8, lines >= 5);
        ANSWERS(PW_DONE, pw_replay_block(mode, record, NONE(uint8_t), 0, LENT, counts, 8, answer), lines, lines >= 8, lines >= 5);
    }
    ANSWERS(PW_DONE, pw_replay_close(record, answer), SAMPLE_LINES);
    LEFT(counts, uint64_t, SAMPLE_COUNTS);
    give_back();
}

/* A log whose third line is refused with this number, at its seventh byte, cut at each byte. */
static void refused_at(const char *log, uint32_t number)
{
    size_t length = strlen(log);

    for (size_t cut = 0; cut <= length; cut++) {
        uint64_t *counts = LIST(uint64_t, 0, 0, 0, 0, 0, UINT64_MAX, 0, 0);
        uint64_t *record = opened();
        int is_done = cut < 3 * LINE_LENGTH;
        ANSWERS(is_done ? PW_DONE : number, pw_replay_block(mode, record, (uint8_t *)lent(log, cut), cut, LENT, counts, 8, answer),
                is_done ? (int64_t)(cut / LINE_LENGTH) : 3);
        ANSWERS(number, pw_replay_block(mode, record, (uint8_t *)lent(log + cut, length - cut), length - cut, LENT, counts, 8, answer), 3);
        ANSWERS(number, pw_replay_block(mode, record, TEXT("P\t0000\n"), SAMPLE, SAMPLE_LENGTH, BYTES(5), 1, NO_ENTRIES, counts, 8, answer), 3);
        ANSWERS(number, pw_replay_close(record, answer), 3);
        LEFT(counts, uint64_t, 1, 0, 0, 0, 1, UINT64_MAX, 0, 0);
        give_back();
    }
}

static void refusing(void)
{
    refused_at("P\t0000\nP\t0004\nP\t00050\nbad", PW_MALFORMED_LOG);
    refused_at("P\t0000\nP\t0004\nP\t0006\nbad", PW_NOT_TRACED);
    refused_at("P\t0000\nP\t0004\nP\t0007\nP\t0000\n", PW_FORBIDDEN_MOVE);
    refused_at("P\t0000\nP\t0004\nP\t0005\nP\t0000\n", PW_COUNT_FULL);
}

/* The refusals of a block alone, in the middle of a line: the block is taken when it is lent well. */
static void lent_badly(void)
{
    uint64_t *counts = NO_COUNTS;
    uint64_t *record = opened();
    ANSWERS(PW_DONE, pw_replay_block(mode, record, TEXT("P\t0000\nP\t0"), LENT, counts, 8, answer), 1);
    uint64_t *before = (uint64_t *)lent(record, PW_REPLAY_WORDS * sizeof *record);
    uint8_t *rest = BYTES('0', '0', '4', '\n');

    ANSWERS(PW_LONG_IMAGE, pw_replay_block(mode, record, rest, 4, too_long, TOO_LONG, SAMPLE_MARKS, 7, NO_ENTRIES, counts, 7, answer), TOO_LONG);
    ANSWERS(PW_SHORT_MARKS, pw_replay_block(mode, record, rest, 4, SAMPLE, 8, BYTES(5), 1, NO_ENTRIES, counts, 7, answer), 1);
    ANSWERS(PW_DAMAGED, pw_replay_block(mode, record, rest, 4, SAMPLE, 8, BYTES(2, 0, 0, 5, 2, 2, 5, 2), 8, NO_ENTRIES, counts, 7, answer), 3);
    ANSWERS(PW_NO_ROOM, pw_replay_block(mode, record, rest, 4, LENT, counts, 7, answer), SAMPLE_LENGTH);
    HOLDS(same(record, before, PW_REPLAY_WORDS * sizeof *record));
    LEFT(counts, uint64_t, 1, 0, 0, 0, 0, 0, 0, 0);
    ANSWERS(PW_DONE, pw_replay_block(mode, record, rest, 4, LENT, counts, 8, answer), 2);
    LEFT(counts, uint64_t, 1, 0, 0, 0, 1, 0, 0, 0);
}

/* The log ends within a line, or before it began; a line that is too short is refused at its byte 10. */
static void closing(void)
{
    uint64_t *counts = NO_COUNTS;
    uint64_t *record = opened();

    ANSWERS(PW_DONE, pw_replay_close(record, answer), 0);
    ANSWERS(PW_DONE, pw_replay_block(mode, record, TEXT("P\t0000\nP"), LENT, counts, 8, answer), 1);
    uint64_t *before = (uint64_t *)lent(record, PW_REPLAY_WORDS * sizeof *record);
    ANSWERS(PW_MALFORMED_LOG, pw_replay_close(record, answer), 2);
    HOLDS(same(record, before, PW_REPLAY_WORDS * sizeof *record));
    ANSWERS(PW_MALFORMED_LOG, pw_replay_block(mode, record, TEXT("\t4\n"), LENT, counts, 8, answer), 2);
    LEFT(counts, uint64_t, 1, 0, 0, 0, 0, 0, 0, 0);
}

/* Whether the number is one that a block or closing may answer over the sample. */
static int is_known(uint32_t number)
{
    return number == PW_DONE || (number >= PW_MALFORMED_LOG && number <= PW_COUNT_FULL);
}

/* Records that no call made. */
static void any_record(void)
{
    const uint64_t odd[] = {1, 6, 7, 10, 65536, INT64_MAX, UINT64_MAX};
    uint64_t *counts = NO_COUNTS;

    for (size_t index = 0; index < PW_REPLAY_WORDS; index++) {
        for (size_t which = 0; which < sizeof odd / sizeof odd[0]; which++) {
            uint64_t *record = opened();
            record[index] = odd[which];
            HOLDS(is_known(pw_replay_close(record, answer)));
            HOLDS(is_known(pw_replay_block(mode, record, TEXT(SAMPLE_LOG), LENT, counts, 8, answer)));
            HOLDS(is_known(pw_replay_close(record, answer)));
        }
        give_back();
        counts = NO_COUNTS;
    }
    uint64_t *highest = LIST(uint64_t, UINT64_MAX, UINT64_MAX, UINT64_MAX, UINT64_MAX, UINT64_MAX, UINT64_MAX, UINT64_MAX);
    HOLDS(is_known(pw_replay_block(mode, highest, TEXT("\n"), LENT, counts, 8, answer)) && answer[0] == INT64_MAX);
    HOLDS(is_known(pw_replay_close(highest, answer)) && answer[0] == INT64_MAX);
}

void blocks(void)
{
    cutting();
    byte_by_byte();
    refusing();
    lent_badly();
    closing();
    any_record();
}
