/* Views over marks: the mask, target marks, overlaps, arrivals, runs of data. */
#include "check.h"
#include "parts.h"
#include "samples.h"

static void masking(void)
{
    uint8_t *room = BYTES(9, 9, 9, 9, 9, 9, 9, 9, 9);

    ANSWERS(PW_DONE, pw_mask(SAMPLE, SAMPLE_LENGTH, SAMPLE_MARKS, SAMPLE_LENGTH, room, 9, answer), 8);
    LEFT(room, uint8_t, 1, 1, 0, 0, 1, 1, 1, 1, 9);
    ANSWERS(PW_LONG_IMAGE, pw_mask(too_long, TOO_LONG, SAMPLE_MARKS, 8, room, 9, answer), TOO_LONG);
    ANSWERS(PW_SHORT_MARKS, pw_mask(SAMPLE, SAMPLE_LENGTH, SAMPLE_MARKS, 7, room, 9, answer), 7);
    ANSWERS(PW_DAMAGED, pw_mask(BYTES(0x00, 0x68), 2, BYTES(2, 2), 2, room, 0, answer), 1);
    ANSWERS(PW_DAMAGED, pw_mask(BYTES(0x00, 0x00), 2, BYTES(3, 4), 2, room, 0, answer), 0);
    ANSWERS(PW_NO_ROOM, pw_mask(SAMPLE, SAMPLE_LENGTH, SAMPLE_MARKS, SAMPLE_LENGTH, room, 7, answer), 8);
    LEFT(room, uint8_t, 1, 1, 0, 0, 1, 1, 1, 1, 9);
}

static void marking_targets(void)
{
    uint8_t *room = BYTES(9, 9, 9, 9, 9, 9, 9, 9, 9);

    ANSWERS(PW_DONE, pw_target_marks(mode, SAMPLE, SAMPLE_LENGTH, SAMPLE_MARKS, SAMPLE_LENGTH, room, 9, answer), 8);
    LEFT(room, uint8_t, 1, 0, 0, 0, 1, 0, 0, 0, 9);
    ANSWERS(PW_DONE, pw_target_marks(mode, FLASH, FLASH_LENGTH, BYTES(2, 0, 2, 0, 0), FLASH_LENGTH, room, 5, answer), 5);
    LEFT(room, uint8_t, 0, 0, 0, 0, 0, 0, 0, 0, 9);
    ANSWERS(PW_LONG_IMAGE, pw_target_marks(mode, too_long, TOO_LONG, SAMPLE_MARKS, 8, room, 9, answer), TOO_LONG);
    ANSWERS(PW_SHORT_MARKS, pw_target_marks(mode, SAMPLE, SAMPLE_LENGTH, SAMPLE_MARKS, 7, room, 9, answer), 7);
    ANSWERS(PW_DAMAGED, pw_target_marks(mode, BYTES(0x00), 1, BYTES(255), 1, room, 0, answer), 0);
    ANSWERS(PW_NO_ROOM, pw_target_marks(mode, SAMPLE, SAMPLE_LENGTH, SAMPLE_MARKS, SAMPLE_LENGTH, room, 7, answer), 8);
    LEFT(room, uint8_t, 0, 0, 0, 0, 0, 0, 0, 0, 9);
}

static void finding_overlaps(void)
{
    uint32_t *room = LIST(uint32_t, 9, 9, 9, 9);
    uint8_t *over = BYTES(0x44, 0x44, 0x44, 0x44, 0x64);

    ANSWERS(PW_DONE, pw_overlaps(OVERLAPPING, OVERLAPPING_LENGTH, OVERLAPPING_MARKS, 4, 0, room, 4, answer), 1);
    LEFT(room, uint32_t, 2, 9, 9, 9);
    ANSWERS(PW_DONE, pw_overlaps(OVERLAPPING, OVERLAPPING_LENGTH, OVERLAPPING_MARKS, 4, 2, room, 4, answer), 0);
    ANSWERS(PW_DONE, pw_overlaps(OVERLAPPING, OVERLAPPING_LENGTH, OVERLAPPING_MARKS, 4, UINT32_MAX, NONE(uint32_t), 0, answer), 0);
    ANSWERS(PW_DONE, pw_overlaps(over, 5, BYTES(2, 2, 2, 0, 0), 5, 1, room, PW_MOST_OVERLAPS, answer), 2);
    LEFT(room, uint32_t, 0, 2, 9, 9);
    ANSWERS(PW_LONG_IMAGE, pw_overlaps(too_long, TOO_LONG, OVERLAPPING_MARKS, 4, 0, room, 4, answer), TOO_LONG);
    ANSWERS(PW_SHORT_MARKS, pw_overlaps(OVERLAPPING, OVERLAPPING_LENGTH, OVERLAPPING_MARKS, 3, 0, room, 4, answer), 3);
    ANSWERS(PW_DAMAGED, pw_overlaps(OVERLAPPING, OVERLAPPING_LENGTH, BYTES(0, 0, 3, 0), 4, 0, room, 4, answer), 2);
    ANSWERS(PW_NO_ROOM, pw_overlaps(OVERLAPPING, OVERLAPPING_LENGTH, OVERLAPPING_MARKS, 4, 0, room, 0, answer), 1);
    LEFT(room, uint32_t, 0, 2, 9, 9);
}

static void finding_arrivals(void)
{
    uint32_t *room = LIST(uint32_t, 9, 9, 9);

    ANSWERS(PW_DONE, pw_arrivals(mode, SAMPLE, SAMPLE_LENGTH, SAMPLE_MARKS, SAMPLE_LENGTH, 0, room, 3, answer), 1);
    LEFT(room, uint32_t, 5, 9, 9);
    ANSWERS(PW_DONE, pw_arrivals(mode, BYTES(0x80, 0x00, 0x01, 0xFE), 4, BYTES(2, 0, 2, 0), 4, 2, room, 2, answer), 2);
    LEFT(room, uint32_t, 0, 2, 9);
    ANSWERS(PW_DONE, pw_arrivals(mode, SAMPLE, SAMPLE_LENGTH, SAMPLE_MARKS, SAMPLE_LENGTH, 8, NONE(uint32_t), 0, answer), 0);
    ANSWERS(PW_DONE, pw_arrivals(mode, FLASH, FLASH_LENGTH, BYTES(2, 0, 3, 0, 0), FLASH_LENGTH, 0, room, 3, answer), 0);
    ANSWERS(PW_LONG_IMAGE, pw_arrivals(mode, too_long, TOO_LONG, SAMPLE_MARKS, 8, 0, room, 3, answer), TOO_LONG);
    ANSWERS(PW_SHORT_MARKS, pw_arrivals(mode, SAMPLE, SAMPLE_LENGTH, SAMPLE_MARKS, 0, 0, room, 3, answer), 0);
    ANSWERS(PW_DAMAGED, pw_arrivals(mode, SAMPLE, SAMPLE_LENGTH, BYTES(2, 0, 0, 0, 0, 0, 0, 5), 8, 0, room, 3, answer), 7);
    ANSWERS(PW_NO_ROOM, pw_arrivals(mode, SAMPLE, SAMPLE_LENGTH, SAMPLE_MARKS, SAMPLE_LENGTH, 0, room, 0, answer), 1);
    LEFT(room, uint32_t, 0, 2, 9);
}

static void finding_data(void)
{
    uint8_t *mask = BYTES(1, 1, 0, 0, 1, 1, 1, 1);
    uint8_t *none = BYTES(0, 0, 0, 0, 0, 0, 0, 0, 0, 0, 0, 0, 0, 0, 0, 0, 0);

    ANSWERS(PW_DONE, pw_data_run(SAMPLE, SAMPLE_LENGTH, mask, SAMPLE_LENGTH, 2, answer), 2);
    ANSWERS(PW_DONE, pw_data_run(SAMPLE, SAMPLE_LENGTH, mask, SAMPLE_LENGTH, 0, answer), 0);
    ANSWERS(PW_DONE, pw_data_run(SAMPLE, SAMPLE_LENGTH, mask, 3, 2, answer), 1);
    ANSWERS(PW_DONE, pw_data_run(SAMPLE, SAMPLE_LENGTH, mask, SAMPLE_LENGTH, UINT32_MAX, answer), 0);
    ANSWERS(PW_DONE, pw_data_run(too_long, TOO_LONG, none, 17, 0, answer), PW_RUN_LENGTH);
}

void viewing(void)
{
    masking();
    marking_targets();
    finding_overlaps();
    finding_arrivals();
    finding_data();
}
