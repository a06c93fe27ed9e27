/* An input of the listing program: made of a listing, and taken apart. */
#include <string.h>

#include "check.h"
#include "parts.h"
#include "samples.h"
#include "texts.h"

#define LINES "010200416480F9A0\n"
#define TWO_LINES "0000000000000000000000000000000000000000000000000000000000000000\n42\n"

/* What is printed for a listing of an image of so many bytes, in an exact room. */
static void unlisting(const char *listing, uint32_t length, const char *printed)
{
    uint8_t *room = room_for_text();

    ANSWERS(PW_DONE, pw_unlist_text(TEXT(listing), strlen(listing), length, room, strlen(printed), answer), LENGTH(printed));
    HOLDS(begins(room, printed));
}

static void unlisting_listings(void)
{
    uint8_t *room = room_for_text(), *before = room_for_text();

    unlisting(DECLINED, SAMPLE_LENGTH, LINES);
    unlisting(CHOSEN, SAMPLE_LENGTH, LINES);
    unlisting("D\t0020\t42", 33, TWO_LINES);
    unlisting("", 0, "");
    ANSWERS(PW_NO_ROOM, pw_unlist_text(TEXT(DECLINED), LENGTH(DECLINED), 8, room, LENGTH(LINES) - 1, answer), LENGTH(LINES));
    HOLDS(same(room, before, 400));
    /* The line of a refusal; in whatever mode the other calls are told, this one is unwrapped. */
    unlisting("bad", TOO_LONG, "R\t1\t65537\n");
    unlisting("D\t0000\t42\nbad\n", 1, "R\t15\t2\n");
    unlisting("D\t0000\t4242\n", 1, "R\t16\t1\n");
    unlisting("I\t0000\t0180\tbr\t?\n", 2, "0180\n");
    unlisting("I\t0000\t0180\tbr\tFF82\n", 2, "R\t15\t1\n");
    ANSWERS(PW_NO_ROOM, pw_unlist_text(TEXT("bad"), 3, UINT32_MAX, room, 14, answer), LENGTH("R\t1\t4294967295\n"));
}

#define TWO_ENTRIES "0000\t00FF\n0102004164\n80F9A0"

static void parsing(void)
{
    uint32_t *entries = LIST(uint32_t, 9, 9, 9);
    uint8_t *image = BYTES(9, 9, 9, 9, 9, 9, 9, 9, 9);

    ANSWERS(PW_NO_ROOM, pw_parse(TEXT(TWO_ENTRIES), LENGTH(TWO_ENTRIES), entries, 1, image, 9, answer), 2, 8);
    ANSWERS(PW_NO_ROOM, pw_parse(TEXT(TWO_ENTRIES), LENGTH(TWO_ENTRIES), entries, 3, image, 7, answer), 2, 8);
    LEFT(entries, uint32_t, 9, 9, 9);
    LEFT(image, uint8_t, 9, 9, 9, 9, 9, 9, 9, 9, 9);
    ANSWERS(PW_DONE, pw_parse(TEXT(TWO_ENTRIES), LENGTH(TWO_ENTRIES), entries, 3, image, 9, answer), 2, 8);
    LEFT(entries, uint32_t, 0, 0xFF, 9);
    LEFT(image, uint8_t, 0x01, 0x02, 0x00, 0x41, 0x64, 0x80, 0xF9, 0xA0, 9);
    ANSWERS(PW_DONE, pw_parse(TEXT(INPUT), LENGTH(INPUT), entries, 1, image, 8, answer), 1, 8);
    ANSWERS(PW_DONE, pw_parse(TEXT("\nA0\n"), 4, NONE(uint32_t), 0, image, 1, answer), 0, 1);
    ANSWERS(PW_DONE, pw_parse(NONE(uint8_t), 0, NONE(uint32_t), 0, NONE(uint8_t), 0, answer), 0, 0);
}

/* The first bad line, before any room is judged. */
static void refusing_inputs(void)
{
    uint32_t *entries = LIST(uint32_t, 9);
    uint8_t *image = BYTES(9, 9);

    ANSWERS(PW_MALFORMED_INPUT, pw_parse(TEXT("000\nbad\n"), 8, NONE(uint32_t), 0, NONE(uint8_t), 0, answer), 1);
    ANSWERS(PW_MALFORMED_INPUT, pw_parse(TEXT("0000\n\n"), 6, entries, 1, image, 2, answer), 2);
    ANSWERS(PW_MALFORMED_INPUT, pw_parse(TEXT("0000\nA0\na0"), 10, entries, 1, image, 2, answer), 3);
    LEFT(entries, uint32_t, 9);
    LEFT(image, uint8_t, 9, 9);
}

/* What unlist prints, after a line of entries, is taken apart into the image again. */
static void there_and_back(void)
{
    const char *entry = "0000\n";
    uint8_t *text = room_for_text(), *image = BYTES(9, 9, 9, 9, 9, 9, 9, 9);
    uint32_t *entries = LIST(uint32_t, 9);

    memcpy(text, entry, strlen(entry));
    ANSWERS(PW_DONE, pw_unlist_text(TEXT(DECLINED), LENGTH(DECLINED), 8, text + strlen(entry), 300, answer), LENGTH(LINES));
    ANSWERS(PW_DONE, pw_parse(text, strlen(entry) + strlen(LINES), entries, 1, image, 8, answer), 1, 8);
    HOLDS(same(image, SAMPLE, 8) && entries[0] == 0);
}

void inputs(void)
{
    unlisting_listings();
    parsing();
    refusing_inputs();
    there_and_back();
}
