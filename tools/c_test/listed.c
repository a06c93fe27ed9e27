/* Text: the listing, the listing program's work, a listing read back. */
#include <string.h>

#include "check.h"
#include "parts.h"
#include "samples.h"
#include "texts.h"

static void listing(void)
{
    uint8_t *room = room_for_text();
    uint8_t *other = room_for_text();

    ANSWERS(PW_DONE, pw_listing(mode, SAMPLE, 8, SAMPLE_MARKS, 8, PW_ARRIVALS_DECLINED, room, 400, answer), LENGTH(DECLINED));
    HOLDS(begins(room, DECLINED));
    ANSWERS(PW_DONE, pw_listing(mode, SAMPLE, 8, SAMPLE_MARKS, 8, PW_ARRIVALS_CHOSEN, other, LENGTH(CHOSEN), answer), LENGTH(CHOSEN));
    HOLDS(begins(other, CHOSEN));
    ANSWERS(PW_DONE, pw_listing(mode, SAMPLE, 8, SAMPLE_MARKS, 8, UINT32_MAX, other, 400, answer), LENGTH(CHOSEN));
    ANSWERS(PW_DONE, pw_listing(mode, NONE(uint8_t), 0, NONE(uint8_t), 0, PW_ARRIVALS_CHOSEN, NONE(uint8_t), 0, answer), 0);
    ANSWERS(PW_LONG_IMAGE, pw_listing(mode, too_long, TOO_LONG, SAMPLE_MARKS, 8, 0, room, 400, answer), TOO_LONG);
    ANSWERS(PW_SHORT_MARKS, pw_listing(mode, SAMPLE, 8, SAMPLE_MARKS, 7, 0, room, 400, answer), 7);
    ANSWERS(PW_DAMAGED, pw_listing(mode, SAMPLE, 8, BYTES(2, 3, 0, 0, 2, 2, 0, 2), 8, 0, room, 400, answer), 1);
    ANSWERS(PW_NO_ROOM, pw_listing(mode, SAMPLE, 8, SAMPLE_MARKS, 8, 0, room, LENGTH(DECLINED) - 1, answer), LENGTH(DECLINED));
    ANSWERS(PW_NO_ROOM, pw_listing(mode, SAMPLE, 8, SAMPLE_MARKS, 8, 1, NONE(uint8_t), 0, answer), LENGTH(CHOSEN));
    HOLDS(begins(room, DECLINED));
}

static void listing_a_text(void)
{
    uint8_t *room = room_for_text();

    ANSWERS(PW_DONE, pw_list_text(TEXT(INPUT), LENGTH(INPUT), room, 400, answer), LENGTH(DECLINED));
    HOLDS(begins(room, DECLINED));
    ANSWERS(PW_NO_ROOM, pw_list_text(TEXT(INPUT), LENGTH(INPUT), room, 3, answer), LENGTH(DECLINED));
    HOLDS(begins(room, DECLINED));
    ANSWERS(PW_DONE, pw_list_text(NONE(uint8_t), 0, NONE(uint8_t), 0, answer), 0);
    room = room_for_text();
    ANSWERS(PW_DONE, pw_list_text(TEXT("0000\n6800"), 9, room, 6, answer), 6);
    HOLDS(begins(room, "R\t5\t1\n"));
    room = room_for_text();
    ANSWERS(PW_DONE, pw_list_text(TEXT("0000\n6800\r\n"), 11, room, 400, answer), 5);
    HOLDS(begins(room, "R\t13\n"));
    ANSWERS(PW_NO_ROOM, pw_list_text(TEXT("a"), 1, room, 4, answer), 5);
}

static void reading_back(const char *text, int64_t lines)
{
    uint8_t *image = BYTES(9, 9, 9, 9, 9, 9, 9, 9, 9);
    uint8_t *marks = BYTES(9, 9, 9, 9, 9, 9, 9, 9, 9);

    ANSWERS(PW_DONE, pw_read_back(mode, TEXT(text), strlen(text), SAMPLE_LENGTH, image, 9, marks, 9, answer), lines);
    LEFT(image, uint8_t, 0x01, 0x02, 0x00, 0x41, 0x64, 0x80, 0xF9, 0xA0, 9);
    LEFT(marks, uint8_t, 2, 0, 0, 0, 2, 2, 0, 2, 9);
}

static void refusing_lines(void)
{
    const char *fallen = "D\t0001\t00\nD\t0000\t00\n";
    const char *past = "D\t0001\t0102";
    uint8_t *image = BYTES(9, 9);
    uint8_t *marks = BYTES(9, 9);

    ANSWERS(PW_LONG_IMAGE, pw_read_back(mode, TEXT(past), strlen(past), TOO_LONG, image, 2, marks, 2, answer), TOO_LONG);
    ANSWERS(PW_SHORT_MARKS, pw_read_back(mode, TEXT(past), strlen(past), 2, image, 1, marks, 1, answer), 1);
    ANSWERS(PW_NO_ROOM, pw_read_back(mode, TEXT(past), strlen(past), 2, image, 1, marks, 2, answer), 2);
    ANSWERS(PW_MALFORMED_LINE, pw_read_back(mode, TEXT("\n"), 1, 2, image, 2, marks, 2, answer), 1);
    ANSWERS(PW_MALFORMED_LINE, pw_read_back(mode, TEXT(fallen), strlen(fallen), 2, image, 2, marks, 2, answer), 2);
    ANSWERS(PW_LINE_PAST_END, pw_read_back(mode, TEXT(past), strlen(past), 2, image, 2, marks, 2, answer), 1);
    LEFT(image, uint8_t, 9, 9);
    LEFT(marks, uint8_t, 9, 9);
    ANSWERS(PW_DONE, pw_read_back(mode, NONE(uint8_t), 0, 2, image, 2, marks, 2, answer), 0);
    LEFT(image, uint8_t, 0, 0);
    LEFT(marks, uint8_t, 0, 0);
}

void listed(void)
{
    listing();
    listing_a_text();
    reading_back(DECLINED, 7);
    reading_back(CHOSEN, 11);
    refusing_lines();
}
