#include "inputs.h"

#include <stdio.h>
#include <stdlib.h>
#include <string.h>

struct input input;

static uint32_t order[PW_IMAGE_LIMIT];

/* The bytes over and over. */
static void repeat(const uint8_t *bytes, size_t count)
{
    for (size_t at = 0; at < input.length; at++)
        input.image[at] = bytes[at % count];
}

/* Bytes of any kind. */
static void mix(void)
{
    uint32_t state = 1;
    for (size_t at = 0; at < input.length; at++) {
        state = state * 1664525 + 1013904223;
        input.image[at] = (uint8_t)(state >> 24);
    }
}

static void end_with(const uint8_t *bytes, size_t count)
{
    memcpy(input.image + input.length - count, bytes, count);
}

/* Entries at 0, 1 and 2 and then all over the image. */
static void enter(void)
{
    input.count = PW_MOST_ENTRIES;
    for (uint32_t index = 0; index < PW_MOST_ENTRIES; index++)
        input.entries[index] = index < 3 ? index : index * (PW_IMAGE_LIMIT / PW_MOST_ENTRIES);
}

static void done(const char *call, uint32_t number)
{
    if (number == PW_DONE)
        return;
    fprintf(stderr, "stack: %s is refused: %u\n", call, (unsigned)number);
    exit(EXIT_FAILURE);
}

/* Marks of a run, and the listing with arrivals. */
static void trace(void)
{
    int64_t answer[PW_VALUES];
    done("pw_run", pw_run(PW_UNWRAPPED, input.image, input.length, input.marks, input.length, order, PW_IMAGE_LIMIT, input.entries,
                          input.count, input.entries, 0, PW_IMAGE_LIMIT, answer));
    done("pw_listing", pw_listing(PW_UNWRAPPED, input.image, input.length, input.marks, input.length, PW_ARRIVALS_CHOSEN, input.listing,
                                  TEXT_ROOM, answer));
    input.listed = (size_t)answer[0];
}

/* The listing program's input, one byte a line, of as much of the image as it takes. */
static void write_text(void)
{
    static const char digits[] = "0123456789ABCDEF";
    uint8_t *at = input.text;
    for (size_t index = 0; index < input.count; index++) {
        if (index > 0)
            *at++ = '\t';
        for (int shift = 12; shift >= 0; shift -= 4)
            *at++ = (uint8_t)digits[input.entries[index] >> shift & 15];
    }
    *at++ = '\n';
    for (size_t index = 0; index < input.length && index < PW_MOST_BYTES; index++) {
        *at++ = (uint8_t)digits[input.image[index] >> 4];
        *at++ = (uint8_t)digits[input.image[index] & 15];
        *at++ = '\n';
    }
    input.written = (size_t)(at - input.text);
}

static void tell(const void *bytes, size_t count)
{
    memcpy(input.term + input.told, bytes, count);
    input.told += count;
}

/* Two images by that input, the second without its last byte 10; no entries are written as a dash. */
static void write_term(void)
{
    static const char name[] = "N\tABCDEFGHIJKLMNOPQRSTUVWXYZ012345\n", dash[] = "-";
    input.told = 0;
    for (int turn = 0; turn < 2; turn++) {
        tell(name, sizeof name - 1);
        tell(dash, input.count == 0 ? 1 : 0);
        tell(input.text, input.written);
        tell("\n", 1);
    }
    input.told -= 2;
}

/* A log that is accepted: the entry 0 again and again, by interrupts; none over an empty image. */
static void write_log(void)
{
    int64_t answer[PW_VALUES];
    static uint64_t counts[PW_IMAGE_LIMIT];
    input.logged = input.length == 0 ? 0 : sizeof input.log;
    for (size_t at = 0; at < input.logged; at += LINE_LENGTH)
        memcpy(input.log + at, "P\t0000\n", LINE_LENGTH);
    done("pw_replay", pw_replay(PW_UNWRAPPED, input.log, input.logged, input.image, input.length, input.marks, input.length, input.entries,
                                input.count, counts, PW_IMAGE_LIMIT, answer));
}

int make_input(int number)
{
    static const uint8_t nop[] = {0x00}, longest[] = {0x44}, flash[] = {0xB8, 0x0D, 0x21, 0x00, 0x00}, back[] = {0x80, 0x80};
    static const uint8_t ends[] = {0x54, 0x94}, rets[] = {0xA0, 0xA0};

    input.length = number == 0 ? 0 : PW_IMAGE_LIMIT;
    input.count = 0;
    input.position = PW_IMAGE_LIMIT / 2;
    if (number > 0)
        enter();
    switch (number) {
    case 0: break;
    case 1: repeat(nop, sizeof nop); break;
    case 2: repeat(longest, sizeof longest); end_with(ends, sizeof ends); break;
    case 3: repeat(flash, sizeof flash); end_with(rets, sizeof rets); break;
    case 4: repeat(back, sizeof back); end_with(rets, sizeof rets); break;
    case 5: mix(); end_with(rets, sizeof rets); break;
    default: return 0;
    }
    trace();
    write_text();
    write_term();
    write_log();
    return 1;
}
