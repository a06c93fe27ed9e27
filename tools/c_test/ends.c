/* The longest image, over the end of memory: each call that is told the mode, where the two are not alike. */
#include <string.h>

#include "check.h"
#include "parts.h"

/* A br at 0 to -3, at 65,533 a bz to 65,536, and a nop at 65,535. Wrapping, each leads over the end of memory. */
#define LENGTH PW_IMAGE_LIMIT
#define BZ_AT (PW_IMAGE_LIMIT - 3)
#define NOP_AT PW_HIGHEST_ADDRESS

#define UNWRAPPED_TEXT "I\t0000\t01FB\tbr\t?\nI\tFFFD\t8001\tbz\t?\nA\tFFFF\tFFFD\nI\tFFFF\t00\tnop\n"
#define WRAPPING_TEXT \
    "L\t0000\nA\t0000\tFFFD\tFFFF\nI\t0000\t01FB\tbr\tFFFD\nL\tFFFD\nA\tFFFD\t0000\nI\tFFFD\t8001\tbz\t0000\n" \
    "A\tFFFF\tFFFD\nI\tFFFF\t00\tnop\n"

static uint8_t *longest(void)
{
    static uint8_t image[LENGTH];
    image[0] = 0x01;
    image[1] = 0xFB;
    image[BZ_AT] = 0x80;
    image[BZ_AT + 1] = 0x01;
    return (uint8_t *)lent(image, LENGTH);
}

/* As many bytes, all of them the same. */
static uint8_t *filled(uint8_t byte)
{
    static uint8_t bytes[LENGTH];
    return (uint8_t *)lent(memset(bytes, byte, LENGTH), LENGTH);
}

/* Marks of 0 but for those of the three instructions. */
static uint8_t *marked(uint8_t br, uint8_t bz, uint8_t nop)
{
    uint8_t *marks = filled(0);
    marks[0] = br;
    marks[BZ_AT] = bz;
    marks[NOP_AT] = nop;
    return marks;
}

static void stepping(void)
{
    uint8_t *marks = marked(1, 0, 0);

    ANSWERS(PW_DONE, pw_step(mode, longest(), LENGTH, marks, LENGTH, 0, answer), PW_TRACED, BY_MODE(0, 1));
    HOLDS(same(marks, marked(2, BY_MODE(0, 1), 0), LENGTH));
    marks = marked(5, 0, 1);
    ANSWERS(BY_MODE(PW_DONE, PW_DAMAGED), pw_step(mode, longest(), LENGTH, marks, LENGTH, NOP_AT, answer), BY_MODE(PW_TRACED, 0));
    HOLDS(same(marks, marked(5, 0, BY_MODE(2, 1)), LENGTH));
}

static void running(void)
{
    static uint32_t none[LENGTH];
    uint32_t *order = (uint32_t *)lent(none, sizeof none);
    uint8_t *marks = filled(9);
    uint32_t *entries = LIST(uint32_t, 0);
    int64_t steps = BY_MODE(1, 3);

    ANSWERS(PW_DONE, pw_run(mode, longest(), LENGTH, marks, LENGTH, order, LENGTH, entries, 1, NO_PINS, LENGTH, answer), PW_FINISHED, steps, steps);
    HOLDS(same(marks, marked(2, BY_MODE(0, 2), BY_MODE(0, 2)), LENGTH));
    LEFT(order, uint32_t, 0, BY_MODE(0, BZ_AT), BY_MODE(0, NOP_AT), 0);
}

static void sweeping(void)
{
    uint8_t *marks = filled(9);
    uint32_t *entries = LIST(uint32_t, BZ_AT);

    ANSWERS(PW_DONE, pw_sweep(mode, longest(), LENGTH, marks, LENGTH, entries, 1, NO_PINS, answer), BY_MODE(2, 3), BY_MODE(2, 3));
    HOLDS(same(marks, marked(BY_MODE(0, 2), 2, 2), LENGTH));
}

static void viewing_ends(void)
{
    uint8_t *room = filled(9);
    uint32_t *places = LIST(uint32_t, 9, 9, 9);

    ANSWERS(PW_DONE, pw_target_marks(mode, longest(), LENGTH, marked(2, 2, 2), LENGTH, room, LENGTH, answer), LENGTH);
    HOLDS(same(room, marked(BY_MODE(0, 1), BY_MODE(0, 1), 0), LENGTH));
    ANSWERS(PW_DONE, pw_arrivals(mode, longest(), LENGTH, marked(2, 2, 2), LENGTH, 0, places, 3, answer), BY_MODE(0, 2));
    LEFT(places, uint32_t, BY_MODE(9, BZ_AT), BY_MODE(9, NOP_AT), 9);
}

/* From the br to the bz, and from the nop to the br. */
static void replaying_ends(void)
{
    static uint64_t none[LENGTH];
    uint64_t *counts = (uint64_t *)lent(none, sizeof none);
    uint8_t *there = (uint8_t *)lent("P\t0000\nP\tFFFD\n", 14);
    uint8_t *back = (uint8_t *)lent("P\tFFFF\nP\t0000\n", 14);

    ANSWERS(BY_MODE(PW_FORBIDDEN_MOVE, PW_DONE),
            pw_replay(mode, there, 14, longest(), LENGTH, marked(2, 2, 2), LENGTH, NO_ENTRIES, counts, LENGTH, answer), 2);
    HOLDS(counts[0] == BY_MODE(0, 1) && counts[BZ_AT] == BY_MODE(0, 1));
    uint64_t record[PW_REPLAY_WORDS];
    pw_replay_open(record);
    ANSWERS(BY_MODE(PW_FORBIDDEN_MOVE, PW_DONE),
            pw_replay_block(mode, record, back, 14, longest(), LENGTH, marked(2, 2, 2), LENGTH, NO_ENTRIES, counts, LENGTH, answer), 2);
    HOLDS(counts[NOP_AT] == 1 && counts[0] == BY_MODE(0, 2));
}

/* What is listed in one mode is read back in the same, and malformed in the other where it shows a target. */
static void listing_ends(void)
{
    const char *text = BY_MODE(UNWRAPPED_TEXT, WRAPPING_TEXT);
    const char *other = BY_MODE(WRAPPING_TEXT, UNWRAPPED_TEXT);
    uint8_t *room = filled(9);
    uint8_t *image = filled(9);
    uint8_t *marks = filled(9);
    int64_t length = (int64_t)strlen(text);

    ANSWERS(PW_DONE, pw_listing(mode, longest(), LENGTH, marked(2, 2, 2), LENGTH, PW_ARRIVALS_CHOSEN, room, LENGTH, answer), length);
    HOLDS(same(room, text, strlen(text)) && room[length] == 9);
    ANSWERS(PW_MALFORMED_LINE, pw_read_back(mode, (uint8_t *)lent(other, strlen(other)), strlen(other), LENGTH, image, LENGTH, marks, LENGTH, answer),
            BY_MODE(3, 1));
    HOLDS(same(image, filled(9), LENGTH) && same(marks, filled(9), LENGTH));
    ANSWERS(PW_DONE, pw_read_back(mode, (uint8_t *)lent(text, strlen(text)), strlen(text), LENGTH, image, LENGTH, marks, LENGTH, answer), BY_MODE(4, 8));
    HOLDS(same(image, longest(), LENGTH));
    HOLDS(same(marks, marked(2, 2, 2), LENGTH));
}

void ends(void)
{
    stepping();
    running();
    sweeping();
    viewing_ends();
    replaying_ends();
    listing_ends();
}
