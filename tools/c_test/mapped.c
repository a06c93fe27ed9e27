/* The packed map: build, test, count, first data, update. */
#include "check.h"
#include "parts.h"
#include "samples.h"

/* The sample's mask, 1 1 0 0 1 1 1 1, the first as the lowest bit. */
#define SAMPLE_MAP 0xF3

static void building(void)
{
    uint64_t *words = LIST(uint64_t, 9, 9);

    ANSWERS(PW_DONE, pw_map_build(SAMPLE, SAMPLE_LENGTH, SAMPLE_MARKS, SAMPLE_LENGTH, words, 2, answer), 1);
    LEFT(words, uint64_t, SAMPLE_MAP, 9);
    ANSWERS(PW_LONG_IMAGE, pw_map_build(too_long, TOO_LONG, SAMPLE_MARKS, 8, words, 2, answer), TOO_LONG);
    ANSWERS(PW_SHORT_MARKS, pw_map_build(SAMPLE, SAMPLE_LENGTH, SAMPLE_MARKS, 7, words, 2, answer), 7);
    ANSWERS(PW_DAMAGED, pw_map_build(SAMPLE, SAMPLE_LENGTH, BYTES(0, 0, 0, 0, 5, 5, 0, 0), 8, words, 2, answer), 4);
    ANSWERS(PW_NO_ROOM, pw_map_build(SAMPLE, SAMPLE_LENGTH, SAMPLE_MARKS, SAMPLE_LENGTH, NONE(uint64_t), 0, answer), 1);
    LEFT(words, uint64_t, SAMPLE_MAP, 9);
}

static void testing(void)
{
    uint64_t *words = LIST(uint64_t, SAMPLE_MAP);

    ANSWERS(PW_DONE, pw_map_test(words, 1, SAMPLE_LENGTH, 1, answer), 1);
    ANSWERS(PW_DONE, pw_map_test(words, 1, SAMPLE_LENGTH, 2, answer), 0);
    ANSWERS(PW_LONG_IMAGE, pw_map_test(words, 1, TOO_LONG, 1, answer), TOO_LONG);
    ANSWERS(PW_NO_ROOM, pw_map_test(words, 1, PW_WORD_BITS + 1, 1, answer), 2);
    ANSWERS(PW_OUTSIDE, pw_map_test(words, 1, SAMPLE_LENGTH, 8, answer), 8);
}

static void counting(void)
{
    uint64_t *words = LIST(uint64_t, SAMPLE_MAP | UINT64_C(1) << 63, UINT64_MAX);

    ANSWERS(PW_DONE, pw_map_count(words, 1, SAMPLE_LENGTH, 0, SAMPLE_LENGTH, answer), 6);
    ANSWERS(PW_DONE, pw_map_count(words, 2, PW_WORD_BITS + 1, 4, PW_WORD_BITS + 1, answer), 6);
    ANSWERS(PW_DONE, pw_map_count(words, 1, SAMPLE_LENGTH, 8, 8, answer), 0);
    ANSWERS(PW_LONG_IMAGE, pw_map_count(words, 1, TOO_LONG, 0, 0, answer), TOO_LONG);
    ANSWERS(PW_NO_ROOM, pw_map_count(words, 1, PW_WORD_BITS + 1, 0, 0, answer), 2);
    ANSWERS(PW_OUTSIDE, pw_map_count(words, 1, SAMPLE_LENGTH, 5, 4, answer), 5);
    ANSWERS(PW_OUTSIDE, pw_map_count(words, 1, SAMPLE_LENGTH, 0, 9, answer), 0);
}

static void finding_first_data(void)
{
    uint64_t *words = LIST(uint64_t, SAMPLE_MAP);

    ANSWERS(PW_DONE, pw_map_first_data(words, 1, SAMPLE_LENGTH, 0, answer), 2);
    ANSWERS(PW_DONE, pw_map_first_data(words, 1, SAMPLE_LENGTH, 4, answer), SAMPLE_LENGTH);
    ANSWERS(PW_LONG_IMAGE, pw_map_first_data(words, 1, TOO_LONG, 0, answer), TOO_LONG);
    ANSWERS(PW_NO_ROOM, pw_map_first_data(NONE(uint64_t), 0, SAMPLE_LENGTH, 0, answer), 1);
    ANSWERS(PW_OUTSIDE, pw_map_first_data(words, 1, SAMPLE_LENGTH, UINT32_MAX, answer), UINT32_MAX);
}

static void updating(void)
{
    uint64_t *words = LIST(uint64_t, 0, 9);

    ANSWERS(PW_DONE, pw_map_update(SAMPLE, SAMPLE_LENGTH, SAMPLE_MARKS, 8, words, 2, 5, answer), 2);
    LEFT(words, uint64_t, 0x60, 9);
    ANSWERS(PW_LONG_IMAGE, pw_map_update(too_long, TOO_LONG, SAMPLE_MARKS, 8, words, 2, 5, answer), TOO_LONG);
    ANSWERS(PW_SHORT_MARKS, pw_map_update(SAMPLE, SAMPLE_LENGTH, SAMPLE_MARKS, 7, words, 2, 5, answer), 7);
    ANSWERS(PW_DAMAGED, pw_map_update(SAMPLE, SAMPLE_LENGTH, BYTES(0, 0, 0, 0, 0, 2, 0, 5), 8, words, 2, 5, answer), 7);
    ANSWERS(PW_NO_ROOM, pw_map_update(SAMPLE, SAMPLE_LENGTH, SAMPLE_MARKS, 8, words, 0, 1, answer), 1);
    ANSWERS(PW_OUTSIDE, pw_map_update(SAMPLE, SAMPLE_LENGTH, SAMPLE_MARKS, 8, words, 2, 1, answer), 1);
    ANSWERS(PW_OUTSIDE, pw_map_update(SAMPLE, SAMPLE_LENGTH, SAMPLE_MARKS, 8, words, 2, 8, answer), 8);
    LEFT(words, uint64_t, 0x60, 9);
}

void mapped(void)
{
    building();
    testing();
    counting();
    finding_first_data();
    updating();
}
