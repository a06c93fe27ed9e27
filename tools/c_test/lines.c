/* One line at a time: an `I` line from its bytes alone, and a listing read line by line. */
#include <string.h>

#include "check.h"
#include "parts.h"
#include "samples.h"
#include "texts.h"

#define BZ BYTES(0x80, 0xF9, 0xA0), 3
#define BZ_LINE "I\t0005\t80F9\tbz\t0000\n"
#define BACK BYTES(0x01, 0x80), 2
#define BACK_LINE BY_MODE("I\t0000\t0180\tbr\t?\n", "I\t0000\t0180\tbr\tFF82\n")

static void writing_a_line(void)
{
    uint8_t *room = room_for_text();

    ANSWERS(PW_DONE, pw_code_line(mode, 5, BZ, room, LENGTH(BZ_LINE), answer), LENGTH(BZ_LINE));
    HOLDS(begins(room, BZ_LINE));
    ANSWERS(PW_NO_ROOM, pw_code_line(mode, 7, BZ, room, LENGTH(BZ_LINE) - 1, answer), LENGTH(BZ_LINE));
    HOLDS(begins(room, BZ_LINE));
    room = room_for_text();
    ANSWERS(PW_DONE, pw_code_line(mode, 0, BACK, room, 400, answer), LENGTH(BACK_LINE));
    HOLDS(begins(room, BACK_LINE));
    /* The last instruction of memory. */
    room = room_for_text();
    ANSWERS(PW_DONE, pw_code_line(mode, PW_HIGHEST_ADDRESS, BYTES(0xA0), 1, room, 400, answer), LENGTH("I\tFFFF\tA0\tret\n"));
    HOLDS(begins(room, "I\tFFFF\tA0\tret\n"));
}

/* Each refusal before those that come after it, and the room as it was. */
static void refusing_a_line(void)
{
    uint8_t *room = room_for_text(), *before = room_for_text();

    ANSWERS(PW_NOTHING, pw_code_line(mode, UINT32_MAX, NONE(uint8_t), 0, NONE(uint8_t), 0, answer), 0);
    ANSWERS(PW_CUT_OFF, pw_code_line(mode, UINT32_MAX, BYTES(0x68, 0x00), 2, NONE(uint8_t), 0, answer), 0, 0x68, 1);
    ANSWERS(PW_CUT_OFF, pw_code_line(mode, 9, BYTES(0x68), 1, room, 400, answer), 0, 0x68, 2);
    ANSWERS(PW_PAST_MEMORY, pw_code_line(mode, UINT32_MAX, BZ, NONE(uint8_t), 0, answer), INT64_C(4294967297));
    ANSWERS(PW_PAST_MEMORY, pw_code_line(mode, PW_HIGHEST_ADDRESS, BZ, room, 400, answer), PW_IMAGE_LIMIT + 1);
    HOLDS(same(room, before, 400));
}

/* Reads a listing from its first line on: its letters in a row, its positions and its counts added up. At the end the place stays. */
static void walking(const char *text, const char *letters, int64_t positions, int64_t counts)
{
    uint8_t *lent_text = TEXT(text);
    uint64_t start[] = PW_PLACE_START, *place = (uint64_t *)lent(start, sizeof start);
    size_t read = 0;
    int64_t sums[2] = {0, 0};

    while (pw_read_line(mode, lent_text, strlen(text), place, answer) == PW_DONE && answer[0] != PW_NO_LINE) {
        HOLDS(answer[0] == letters[read++] && answer[3] == 0 && answer[4] == 0);
        HOLDS(place[PW_PLACE_LINE] == read + 1 && place[PW_PLACE_LAST] == (uint64_t)answer[1] && place[PW_PLACE_LETTER] == (uint64_t)answer[0]);
        HOLDS(place[PW_PLACE_AT] > strlen(text) || text[place[PW_PLACE_AT] - 1] == '\n');
        sums[0] += answer[1];
        sums[1] += answer[2];
    }
    HOLDS(letters[read] == '\0' && sums[0] == positions && sums[1] == counts);
    HOLDS(place[PW_PLACE_AT] >= strlen(text));
    uint64_t *end = (uint64_t *)lent(place, sizeof start);
    ANSWERS(PW_DONE, pw_read_line(mode, lent_text, strlen(text), place, answer), PW_NO_LINE, 0, 0);
    HOLDS(same(place, end, sizeof start));
}

/* What stands on a line that is read by itself, and where it goes on. */
static void reading_lines(void)
{
    uint64_t *place = LIST(uint64_t, 0, 1, 0, 0);

    ANSWERS(PW_DONE, pw_read_line(mode, TEXT("O\t0102\t0103\t0104"), 16, place, answer), 'O', 0x102, 2);
    LEFT(place, uint64_t, 17, 2, 0x102, 'O');
    place = LIST(uint64_t, 0, 1, 0, 0);
    ANSWERS(PW_DONE, pw_read_line(mode, TEXT(BACK_LINE), strlen(BACK_LINE), place, answer), 'I', 0, 2);
    place = LIST(uint64_t, 0, 1, 0, 0);
    ANSWERS(PW_DONE, pw_read_line(mode, NONE(uint8_t), 0, place, answer), PW_NO_LINE);
    LEFT(place, uint64_t, 0, 1, 0, 0);
}

/* Lines that are malformed, or not in order after the one that the place tells. */
static void refusing_lines(void)
{
    const char *other = BY_MODE("I\t0000\t0180\tbr\tFF82\n", "I\t0000\t0180\tbr\t?\n");
    uint64_t *place = LIST(uint64_t, 0, 1, 0, 0);

    ANSWERS(PW_MALFORMED_LINE, pw_read_line(mode, TEXT("\n"), 1, place, answer), 1);
    ANSWERS(PW_MALFORMED_LINE, pw_read_line(mode, TEXT(other), strlen(other), place, answer), 1);
    LEFT(place, uint64_t, 0, 1, 0, 0);
    place = LIST(uint64_t, 2, 7, 4, 'L');
    ANSWERS(PW_MALFORMED_LINE, pw_read_line(mode, TEXT("..L\t0004\n"), 9, place, answer), 7);
    ANSWERS(PW_MALFORMED_LINE, pw_read_line(mode, TEXT("..L\t0003\n"), 9, place, answer), 7);
    LEFT(place, uint64_t, 2, 7, 4, 'L');
    ANSWERS(PW_DONE, pw_read_line(mode, TEXT("..L\t0005\n"), 9, place, answer), 'L', 5, 0);
    LEFT(place, uint64_t, 9, 8, 5, 'L');
}

/* Numbers that no call left: the lower bits count. */
static void any_place(void)
{
    uint64_t *place = LIST(uint64_t, 0, UINT64_MAX, (UINT64_C(1) << 32) + 4, 256 + 'L');

    ANSWERS(PW_MALFORMED_LINE, pw_read_line(mode, TEXT("L\t0004\n"), 7, place, answer), INT64_MAX);
    LEFT(place, uint64_t, 0, UINT64_MAX, (UINT64_C(1) << 32) + 4, 256 + 'L');
    ANSWERS(PW_DONE, pw_read_line(mode, TEXT("L\t0005\n"), 7, place, answer), 'L', 5, 0);
    LEFT(place, uint64_t, 7, UINT64_C(1) << 63, 5, 'L');
    place = LIST(uint64_t, 0, 1, 9, 'P');
    ANSWERS(PW_DONE, pw_read_line(mode, TEXT("L\t0005\n"), 7, place, answer), 'L', 5, 0);
    place = LIST(uint64_t, UINT64_MAX, UINT64_MAX, UINT64_MAX, UINT64_MAX);
    ANSWERS(PW_DONE, pw_read_line(mode, TEXT("L\t0005\n"), 7, place, answer), PW_NO_LINE);
    LEFT(place, uint64_t, UINT64_MAX, UINT64_MAX, UINT64_MAX, UINT64_MAX);
}

void lines(void)
{
    writing_a_line();
    refusing_a_line();
    walking(DECLINED, "LIDLIII", 22, 8);
    walking(CHOSEN, "LAIDLAIAIAI", 38, 12);
    walking("D\t0000\t0102\nD\t0002\t03", "DD", 2, 3);
    reading_lines();
    refusing_lines();
    any_place();
}
