/* A whole log replayed. */
#include <string.h>

#include "check.h"
#include "parts.h"
#include "samples.h"

#define COUNTS(...) LIST(uint64_t, __VA_ARGS__)
/* A text, lent without the byte 0 at its end. */
#define TEXT(text) (uint8_t *)lent(text, sizeof(text) - 1), sizeof(text) - 1
/* The sample with its marks, and entries. */
#define LENT SAMPLE, SAMPLE_LENGTH, SAMPLE_MARKS, SAMPLE_LENGTH, SAMPLE_ENTRIES, 2

static void adding_up(void)
{
    uint64_t *counts = COUNTS(0, 5, 0, 0, 0, 0, 0, 0, 9);

    ANSWERS(PW_DONE, pw_replay(mode, TEXT(SAMPLE_LOG), LENT, counts, 9, answer), SAMPLE_LINES);
    LEFT(counts, uint64_t, 3, 5, 0, 0, 3, 2, 0, 1, 9);
    ANSWERS(PW_DONE, pw_replay(mode, TEXT(SAMPLE_LOG), LENT, counts, 9, answer), SAMPLE_LINES);
    LEFT(counts, uint64_t, 6, 5, 0, 0, 6, 4, 0, 2, 9);
    ANSWERS(PW_DONE, pw_replay(mode, NONE(uint8_t), 0, LENT, counts, 9, answer), 0);
    ANSWERS(PW_DONE, pw_replay(mode, NONE(uint8_t), 0, NONE(uint8_t), 0, NONE(uint8_t), 0, NONE(uint32_t), 0, NONE(uint64_t), 0, answer), 0);
    LEFT(counts, uint64_t, 6, 5, 0, 0, 6, 4, 0, 2, 9);
}

/* After a jmpf with the mark 3 any traced position may come; after one with the mark 2 its target alone. */
static void going_free(void)
{
    uint64_t *counts = COUNTS(0, 0, 0, 0, 0);
    uint8_t *flash = BYTES(2, 0, 3, 0, 0);
    uint8_t *followed = BYTES(2, 0, 2, 0, 0);

    ANSWERS(PW_DONE, pw_replay(mode, TEXT("P\t0002\nP\t0000\n"), FLASH, FLASH_LENGTH, flash, 5, NO_ENTRIES, counts, 5, answer), 2, 0, 1);
    ANSWERS(PW_DONE, pw_replay(mode, TEXT("P\t0002\nP\t0002\n"), FLASH, FLASH_LENGTH, flash, 5, NO_ENTRIES, counts, 5, answer), 2, 0, 1);
    ANSWERS(PW_DONE, pw_replay(mode, TEXT("P\t0002\nP\t0000\n"), FLASH, FLASH_LENGTH, followed, 5, NO_ENTRIES, counts, 5, answer), 2, 0, 0);
    ANSWERS(PW_FORBIDDEN_MOVE, pw_replay(mode, TEXT("P\t0002\nP\t0002\n"), FLASH, FLASH_LENGTH, followed, 5, NO_ENTRIES, counts, 5, answer), 2);
    LEFT(counts, uint64_t, 2, 0, 4, 0, 0);
}

/* Before the first line: none of them looks at the text. */
static void lent_badly(void)
{
    uint64_t *counts = COUNTS(1, 2, 3, 4, 5, 6, 7, 8);

    ANSWERS(PW_LONG_IMAGE, pw_replay(mode, TEXT("bad"), too_long, TOO_LONG, SAMPLE_MARKS, 7, SAMPLE_ENTRIES, 2, counts, 7, answer), TOO_LONG);
    ANSWERS(PW_SHORT_MARKS, pw_replay(mode, TEXT("bad"), SAMPLE, 8, BYTES(5), 1, SAMPLE_ENTRIES, 2, counts, 7, answer), 1);
    ANSWERS(PW_DAMAGED, pw_replay(mode, TEXT("bad"), SAMPLE, 8, BYTES(2, 0, 0, 0, 2, 5, 5, 2), 8, SAMPLE_ENTRIES, 2, counts, 7, answer), 5);
    ANSWERS(PW_NO_ROOM, pw_replay(mode, TEXT("bad"), LENT, counts, 7, answer), SAMPLE_LENGTH);
    LEFT(counts, uint64_t, 1, 2, 3, 4, 5, 6, 7, 8);
}

static void bad_lines(void)
{
    uint64_t *counts = COUNTS(1, 2, 3, 4, 5, 6, 7, 8);

    ANSWERS(PW_MALFORMED_LOG, pw_replay(mode, TEXT("p\t0000\n"), LENT, counts, 8, answer), 1);
    ANSWERS(PW_MALFORMED_LOG, pw_replay(mode, TEXT("P\t0000\nP\t000a\n"), LENT, counts, 8, answer), 2);
    ANSWERS(PW_MALFORMED_LOG, pw_replay(mode, TEXT("P\t0000\n\nP\t0004\n"), LENT, counts, 8, answer), 2);
    ANSWERS(PW_MALFORMED_LOG, pw_replay(mode, TEXT("P\t0000\r\n"), LENT, counts, 8, answer), 1);
    ANSWERS(PW_MALFORMED_LOG, pw_replay(mode, TEXT("P\t0000\nP\t0004"), LENT, counts, 8, answer), 2);
    ANSWERS(PW_NOT_TRACED, pw_replay(mode, TEXT("P\t0000\nP\t0004\nP\t0001\nbad"), LENT, counts, 8, answer), 3);
    ANSWERS(PW_NOT_TRACED, pw_replay(mode, TEXT("P\t0008\n"), LENT, counts, 8, answer), 1);
    ANSWERS(PW_FORBIDDEN_MOVE, pw_replay(mode, TEXT("P\t0000\nP\t0005\nP\t0001\n"), LENT, counts, 8, answer), 2);
    LEFT(counts, uint64_t, 1, 2, 3, 4, 5, 6, 7, 8);
}

/* A count at the highest number, and one that comes to it. */
static void full_counts(void)
{
    uint64_t *counts = COUNTS(7, 0, 0, 0, UINT64_MAX - 1, UINT64_MAX, 0, 0);

    ANSWERS(PW_COUNT_FULL, pw_replay(mode, TEXT("P\t0000\nP\t0004\nP\t0005\n"), LENT, counts, 8, answer), 3);
    ANSWERS(PW_COUNT_FULL, pw_replay(mode, TEXT("P\t0004\nP\t0000\nP\t0004\n"), LENT, counts, 8, answer), 3);
    ANSWERS(PW_FORBIDDEN_MOVE, pw_replay(mode, TEXT("P\t0000\nP\t0005\n"), LENT, counts, 8, answer), 2);
    LEFT(counts, uint64_t, 7, 0, 0, 0, UINT64_MAX - 1, UINT64_MAX, 0, 0);
    ANSWERS(PW_DONE, pw_replay(mode, TEXT("P\t0000\nP\t0004\n"), LENT, counts, 8, answer), 2);
    LEFT(counts, uint64_t, 8, 0, 0, 0, UINT64_MAX, UINT64_MAX, 0, 0);
}

void replayed(void)
{
    adding_up();
    going_free();
    lent_badly();
    bad_lines();
    full_counts();
}
