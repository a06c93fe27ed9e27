/* Tracing: start, step, run, sweep. */
#include "check.h"
#include "parts.h"
#include "samples.h"

static void starting(void)
{
    uint8_t *marks = BYTES(9, 9, 9, 9, 9, 9, 9, 9, 9);
    uint32_t *entries = LIST(uint32_t, 4, 0, 4, 8, UINT32_MAX);

    ANSWERS(PW_DONE, pw_start(SAMPLE, SAMPLE_LENGTH, marks, 9, entries, 5, NO_PINS, answer), 2);
    LEFT(marks, uint8_t, PW_WAITING, 0, 0, 0, PW_WAITING, 0, 0, 0, 9);
    ANSWERS(PW_DONE, pw_start(SAMPLE, SAMPLE_LENGTH, marks, SAMPLE_LENGTH, NONE(uint32_t), 0, NO_PINS, answer), 0);
    LEFT(marks, uint8_t, 0, 0, 0, 0, 0, 0, 0, 0, 9);
    ANSWERS(PW_LONG_IMAGE, pw_start(too_long, TOO_LONG, marks, 9, entries, 5, NO_PINS, answer), TOO_LONG);
    ANSWERS(PW_SHORT_MARKS, pw_start(SAMPLE, SAMPLE_LENGTH, marks, 7, entries, 5, NO_PINS, answer), 7);
    LEFT(marks, uint8_t, 0, 0, 0, 0, 0, 0, 0, 0, 9);
}

static void stepping(void)
{
    uint8_t *marks = BYTES(1, 0, 0, 0, 0, 0, 0, 0, 1);

    ANSWERS(PW_DONE, pw_step(mode, SAMPLE, SAMPLE_LENGTH, marks, 9, 0, answer), PW_TRACED, 1);
    LEFT(marks, uint8_t, 2, 0, 0, 0, 1, 0, 0, 0, 1);
    ANSWERS(PW_LONG_IMAGE, pw_step(mode, too_long, TOO_LONG, marks, 9, 0, answer), TOO_LONG);
    ANSWERS(PW_SHORT_MARKS, pw_step(mode, SAMPLE, SAMPLE_LENGTH, marks, 7, 4, answer), 7);
    ANSWERS(PW_NOT_WAITING, pw_step(mode, SAMPLE, SAMPLE_LENGTH, marks, 9, 0, answer), PW_TRACED);
    ANSWERS(PW_NOT_WAITING, pw_step(mode, SAMPLE, SAMPLE_LENGTH, marks, 9, 1, answer), PW_UNTOUCHED);
    ANSWERS(PW_NOT_WAITING, pw_step(mode, SAMPLE, SAMPLE_LENGTH, marks, 9, 8, answer), 0);
    LEFT(marks, uint8_t, 2, 0, 0, 0, 1, 0, 0, 0, 1);
}

static void stepping_on_flash(void)
{
    uint8_t *marks = BYTES(2, 0, 1, 0, 0);
    uint8_t *damaged = BYTES(9, 0, 1, 0, 0);
    uint8_t *untraced = BYTES(1, 0, 1, 0, 0);
    uint8_t *target = BYTES(5, 1, 0);

    ANSWERS(PW_DONE, pw_step(mode, FLASH, FLASH_LENGTH, marks, FLASH_LENGTH, 2, answer), PW_FLASH, 0);
    LEFT(marks, uint8_t, 2, 0, 3, 0, 0);
    ANSWERS(PW_DONE, pw_step(mode, FLASH, FLASH_LENGTH, untraced, FLASH_LENGTH, 2, answer), PW_TRACED, 0);
    ANSWERS(PW_DAMAGED, pw_step(mode, FLASH, FLASH_LENGTH, damaged, FLASH_LENGTH, 0, answer), 0);
    ANSWERS(PW_DAMAGED, pw_step(mode, FLASH, FLASH_LENGTH, damaged, FLASH_LENGTH, 2, answer), 0);
    ANSWERS(PW_DAMAGED, pw_step(mode, BYTES(0x00, 0x01, 0xFD), 3, target, 3, 1, answer), 0);
    ANSWERS(PW_CUT_OFF, pw_step(mode, FLASH, 4, BYTES(9, 0, 1, 0), 4, 2, answer), 2, 0x21, 1);
    LEFT(target, uint8_t, 5, 1, 0);
}

/* A pinned position is kept off: as entry, as target and two before a `jmpf`. */
static void pinning(void)
{
    uint8_t *marks = BYTES(9, 9, 9, 9, 9, 9, 9, 9, 9);
    uint32_t *order = LIST(uint32_t, 9, 9, 9, 9, 9, 9, 9, 9, 9);
    uint32_t *entries = LIST(uint32_t, 0, 7);
    uint32_t *pins = LIST(uint32_t, 4, 7, 8, 4, UINT32_MAX);
    uint8_t *before = BYTES(PW_PINNED, 0, PW_WAITING, 0, 0);

    ANSWERS(PW_DONE, pw_start(SAMPLE, SAMPLE_LENGTH, marks, 9, entries, 2, pins, 5, answer), 1);
    LEFT(marks, uint8_t, PW_WAITING, 0, 0, 0, PW_PINNED, 0, 0, PW_PINNED, 9);
    ANSWERS(PW_NOT_WAITING, pw_step(mode, SAMPLE, SAMPLE_LENGTH, marks, 9, 4, answer), PW_PINNED);
    ANSWERS(PW_DONE, pw_step(mode, SAMPLE, SAMPLE_LENGTH, marks, 9, 0, answer), PW_TRACED, 0);
    ANSWERS(PW_DONE, pw_run(mode, SAMPLE, SAMPLE_LENGTH, marks, 9, order, 9, entries, 2, pins, 5, 8, answer), PW_FINISHED, 1, 1);
    LEFT(marks, uint8_t, PW_TRACED, 0, 0, 0, PW_PINNED, 0, 0, PW_PINNED, 9);
    LEFT(order, uint32_t, 0, 9, 9, 9, 9, 9, 9, 9, 9);
    ANSWERS(PW_DONE, pw_sweep(mode, SAMPLE, SAMPLE_LENGTH, marks, 9, entries, 2, pins, 1, answer), 2, 2);
    LEFT(marks, uint8_t, PW_TRACED, 0, 0, 0, PW_PINNED, 0, 0, PW_TRACED, 9);
    ANSWERS(PW_DONE, pw_step(mode, FLASH, FLASH_LENGTH, before, FLASH_LENGTH, 2, answer), PW_TRACED, 0);
}

static void running(void)
{
    uint8_t *marks = BYTES(9, 9, 9, 9, 9, 9, 9, 9, 9);
    uint32_t *order = LIST(uint32_t, 9, 9, 9, 9, 9, 9, 9, 9, 9);
    uint32_t *entries = LIST(uint32_t, 0, 0, 8);

    ANSWERS(PW_DONE, pw_run(mode, SAMPLE, SAMPLE_LENGTH, marks, 9, order, 9, entries, 3, NO_PINS, 4, answer), PW_FINISHED, 4, 4);
    LEFT(marks, uint8_t, 2, 0, 0, 0, 2, 2, 0, 2, 9);
    LEFT(order, uint32_t, 0, 4, 5, 7, 9, 9, 9, 9, 9);
    ANSWERS(PW_DONE, pw_run(mode, SAMPLE, SAMPLE_LENGTH, marks, 9, order, 9, entries, 3, NO_PINS, 1, answer), PW_STOPPED, 1, 2);
    LEFT(marks, uint8_t, 2, 0, 0, 0, 1, 0, 0, 0, 9);
    ANSWERS(PW_DONE, pw_run(mode, SAMPLE, SAMPLE_LENGTH, marks, 9, order, 9, NONE(uint32_t), 0, NO_PINS, 0, answer), PW_FINISHED, 0, 0);
    ANSWERS(PW_LONG_IMAGE, pw_run(mode, too_long, TOO_LONG, marks, 9, order, 9, entries, 3, NO_PINS, 4, answer), TOO_LONG);
    ANSWERS(PW_SHORT_MARKS, pw_run(mode, SAMPLE, SAMPLE_LENGTH, marks, 7, order, 7, entries, 3, NO_PINS, 4, answer), 7);
    ANSWERS(PW_SHORT_ORDER, pw_run(mode, SAMPLE, SAMPLE_LENGTH, marks, 9, order, 7, entries, 3, NO_PINS, 4, answer), 7);
    LEFT(marks, uint8_t, 0, 0, 0, 0, 0, 0, 0, 0, 9);
    LEFT(order, uint32_t, 0, 4, 5, 7, 9, 9, 9, 9, 9);
}

/* What was written before the cut-off instruction was met remains. */
static void running_into_the_end(void)
{
    uint8_t *marks = BYTES(9, 9, 9, 9);
    uint32_t *order = LIST(uint32_t, 9, 9, 9, 9);
    uint32_t *entries = LIST(uint32_t, 0);

    ANSWERS(PW_CUT_OFF, pw_run(mode, BYTES(0x00, 0x80, 0x00, 0x68), 4, marks, 4, order, 4, entries, 1, NO_PINS, 4, answer), 3, 0x68, 2);
    LEFT(marks, uint8_t, 2, 2, 0, 1);
    LEFT(order, uint32_t, 0, 1, 3, 9);
}

static void running_over_flash(void)
{
    uint8_t *marks = BYTES(9, 9, 9, 9, 9);
    uint32_t *order = LIST(uint32_t, 9, 9, 9, 9, 9);

    ANSWERS(PW_DONE, pw_run(mode, FLASH, 5, marks, 5, order, 5, LIST(uint32_t, 0), 1, NO_PINS, 5, answer), PW_FINISHED, 2, 2);
    LEFT(marks, uint8_t, 2, 0, PW_FLASH, 0, 0);
    LEFT(order, uint32_t, 0, 2, 9, 9, 9);
    ANSWERS(PW_DONE, pw_run(mode, FLASH, 5, marks, 5, order, 5, LIST(uint32_t, 2), 1, NO_PINS, 5, answer), PW_FINISHED, 2, 2);
    LEFT(marks, uint8_t, 2, 0, PW_TRACED, 0, 0);
    LEFT(order, uint32_t, 2, 0, 9, 9, 9);
}

/* A br ahead, which the same sweep meets, then one back, which the next does; the third sweep takes none. */
static void sweeping(void)
{
    uint8_t *image = BYTES(0x01, 0x03, 0x64, 0x80, 0x02, 0x01, 0xFB, 0xA0);
    uint8_t *marks = BYTES(9, 9, 9, 9, 9, 9, 9, 9, 9);
    uint32_t *entries = LIST(uint32_t, 0, 0, 8, UINT32_MAX);

    ANSWERS(PW_DONE, pw_sweep(mode, image, 8, marks, 9, entries, 4, NO_PINS, answer), 3, 5);
    LEFT(marks, uint8_t, 2, 0, 2, 2, 0, 2, 0, 2, 9);
    ANSWERS(PW_DONE, pw_sweep(mode, image, 8, marks, 8, NONE(uint32_t), 0, NO_PINS, answer), 1, 0);
    LEFT(marks, uint8_t, 0, 0, 0, 0, 0, 0, 0, 0, 9);
    ANSWERS(PW_DONE, pw_sweep(mode, NONE(uint8_t), 0, marks, 9, entries, 4, NO_PINS, answer), 1, 0);
    ANSWERS(PW_LONG_IMAGE, pw_sweep(mode, too_long, TOO_LONG, marks, 9, entries, 4, NO_PINS, answer), TOO_LONG);
    ANSWERS(PW_SHORT_MARKS, pw_sweep(mode, image, 8, marks, 7, entries, 4, NO_PINS, answer), 7);
    LEFT(marks, uint8_t, 0, 0, 0, 0, 0, 0, 0, 0, 9);
}

/* What is cut off is left waiting, and the rest is traced. */
static void sweeping_into_the_end(void)
{
    uint8_t *marks = BYTES(9, 9, 9, 9);
    uint32_t *entries = LIST(uint32_t, 3, 0);

    ANSWERS(PW_DONE, pw_sweep(mode, BYTES(0x00, 0x80, 0x00, 0x68), 4, marks, 4, entries, 2, NO_PINS, answer), 2, 2);
    LEFT(marks, uint8_t, 2, 2, 0, PW_WAITING);
}

/* Upward, whatever the order of the entries: from 2, 0 a run takes up 2 first, and a sweep 0. */
static void sweeping_over_flash(void)
{
    uint8_t *marks = BYTES(9, 9, 9, 9, 9);
    uint32_t *order = LIST(uint32_t, 9, 9, 9, 9, 9);
    uint32_t *entries = LIST(uint32_t, 2, 0);

    ANSWERS(PW_DONE, pw_run(mode, FLASH, 5, marks, 5, order, 5, entries, 2, NO_PINS, 5, answer), PW_FINISHED, 2, 2);
    LEFT(marks, uint8_t, 2, 0, PW_TRACED, 0, 0);
    ANSWERS(PW_DONE, pw_sweep(mode, FLASH, 5, marks, 5, entries, 2, NO_PINS, answer), 2, 2);
    LEFT(marks, uint8_t, 2, 0, PW_FLASH, 0, 0);
    ANSWERS(PW_DONE, pw_sweep(mode, FLASH, 5, marks, 5, entries, 1, NO_PINS, answer), 3, 2);
    LEFT(marks, uint8_t, 2, 0, PW_TRACED, 0, 0);
}

void tracing(void)
{
    starting();
    stepping();
    stepping_on_flash();
    pinning();
    running();
    running_into_the_end();
    running_over_flash();
    sweeping();
    sweeping_into_the_end();
    sweeping_over_flash();
}
