/* The values of the header's names, against what the library answers. Refusals, marks, modes and choices are seen in the other parts. A sum
 * that passes 64 bits needs more text than a memory holds: its number is held against document 02 alone. */
#include <ctype.h>
#include <stdio.h>

#include "check.h"
#include "parts.h"
#include "samples.h"
#include "texts.h"

/* Each form in its order, and the first byte that names it with operands of 0. */
#define FORMS \
    FORM(ADD_I8, 0x81) FORM(ADD_D9, 0x82) FORM(ADD_RI, 0x84) FORM(ADDC_I8, 0x91) FORM(ADDC_D9, 0x92) FORM(ADDC_RI, 0x94) FORM(SUB_I8, 0xA1) \
    FORM(SUB_D9, 0xA2) FORM(SUB_RI, 0xA4) FORM(SUBC_I8, 0xB1) FORM(SUBC_D9, 0xB2) FORM(SUBC_RI, 0xB4) FORM(INC_D9, 0x62) FORM(INC_RI, 0x64) \
    FORM(DEC_D9, 0x72) FORM(DEC_RI, 0x74) FORM(MUL, 0x30) FORM(DIV, 0x40) FORM(AND_I8, 0xE1) FORM(AND_D9, 0xE2) FORM(AND_RI, 0xE4) FORM(OR_I8, 0xD1) \
    FORM(OR_D9, 0xD2) FORM(OR_RI, 0xD4) FORM(XOR_I8, 0xF1) FORM(XOR_D9, 0xF2) FORM(XOR_RI, 0xF4) FORM(ROL, 0xE0) FORM(ROLC, 0xF0) FORM(ROR, 0xC0) \
    FORM(RORC, 0xD0) FORM(LD_D9, 0x02) FORM(LD_RI, 0x04) FORM(ST_D9, 0x12) FORM(ST_RI, 0x14) FORM(MOV_D9, 0x22) FORM(MOV_RJ, 0x24) FORM(LDC, 0xC1) \
    FORM(PUSH, 0x60) FORM(POP, 0x70) FORM(XCH_D9, 0xC2) FORM(XCH_RI, 0xC4) FORM(JMP, 0x28) FORM(JMPF, 0x21) FORM(BR, 0x01) FORM(BRF, 0x11) \
    FORM(BZ, 0x80) FORM(BNZ, 0x90) FORM(BP, 0x68) FORM(BPC, 0x48) FORM(BN, 0x88) FORM(DBNZ_D9, 0x52) FORM(DBNZ_RI, 0x54) FORM(BE_I8, 0x31) \
    FORM(BE_D9, 0x32) FORM(BE_RJ, 0x34) FORM(BNE_I8, 0x41) FORM(BNE_D9, 0x42) FORM(BNE_RJ, 0x44) FORM(CALL, 0x08) FORM(CALLF, 0x20) FORM(CALLR, 0x10) \
    FORM(RET, 0xA0) FORM(RETI, 0xB0) FORM(CLR1, 0xC8) FORM(SET1, 0xE8) FORM(NOT1, 0xA8) FORM(NOP, 0x00) FORM(LDF, 0x50) FORM(STF, 0x51)

static const struct {
    int64_t form;
    const char *name;
    uint8_t first;
} forms[] = {
#define FORM(name, first) {PW_FORM_##name, #name, first},
    FORMS
#undef FORM
};

/* The name begins with the mnemonic that the listing shows, in upper case, and then ends or goes on with an underscore. */
static int is_named(const char *name, const uint8_t *mnemonic)
{
    while (islower(*mnemonic) || isdigit(*mnemonic))
        if (*name++ != toupper(*mnemonic++))
            return 0;
    return (*mnemonic == '\t' || *mnemonic == '\n') && (*name == '\0' || *name == '_');
}

static void naming_forms(void)
{
    HOLDS(sizeof forms / sizeof forms[0] == PW_FORMS && PW_FORM_STF + 1 == PW_FORMS);
    for (int64_t index = 0; index < PW_FORMS; index++) {
        uint8_t *bytes = BYTES(forms[index].first, 0, 0), *room = room_for_text();
        HOLDS(forms[index].form == index);
        HOLDS(pw_decode(bytes, PW_INSTRUCTION_LENGTH, answer) == PW_DONE && answer[0] == index);
        size_t size = (size_t)answer[1];
        /* `I`, the position and the bytes stand before the mnemonic. */
        HOLDS(pw_listing(mode, bytes, size, BYTES(PW_TRACED, 0, 0), size, PW_ARRIVALS_DECLINED, room, 400, answer) == PW_DONE);
        const uint8_t *line = (const uint8_t *)memchr(room, 'I', 400);
        HOLDS(is_named(forms[index].name, line + 2 + 5 + 2 * size + 1));
    }
}

/* All first bytes: none has a form past the last, and none is longer than the longest. */
static void naming_sizes(void)
{
    int64_t highest = 0, longest = 0;
    for (int first = 0; first < 256; first++) {
        HOLDS(pw_decode(BYTES(first, 0, 0), PW_INSTRUCTION_LENGTH, answer) == PW_DONE);
        highest = answer[0] > highest ? answer[0] : highest;
        longest = answer[1] > longest ? answer[1] : longest;
    }
    HOLDS(highest == PW_FORMS - 1 && longest == PW_INSTRUCTION_LENGTH);
}

/* What is taken at each limit, and refused one past it. */
static void naming_limits(void)
{
    static uint8_t marks[TOO_LONG];
    const uint8_t first_brf = 0x11, first_nop = 0x00;
    uint8_t *over = BYTES(0x44, 0x44, 0x44, 0x44, 0x64, 0xA0), *all = BYTES(2, 2, 2, 2, 2, 2);
    uint32_t *places = LIST(uint32_t, 9, 9, 9);
    uint64_t *words = LIST(uint64_t, 0);

    ANSWERS(PW_DONE, pw_start(too_long, PW_IMAGE_LIMIT, marks, TOO_LONG, NO_ENTRIES, NO_PINS, answer), 0);
    ANSWERS(PW_LONG_IMAGE, pw_start(too_long, PW_IMAGE_LIMIT + 1, marks, TOO_LONG, NO_ENTRIES, NO_PINS, answer), PW_IMAGE_LIMIT + 1);
    ANSWERS(PW_DONE, pw_resolve(mode, first_brf, PW_HIGHEST_ADDRESS, 0, 0, 3, answer), PW_FORM_BRF, 3, PW_HIGHEST_ADDRESS - 2);
    ANSWERS(PW_NO_ADDRESS, pw_resolve(mode, first_brf, PW_HIGHEST_ADDRESS + 1, 0, 0, 3, answer), PW_HIGHEST_ADDRESS + 1);
    ANSWERS(PW_DONE, pw_resolve(mode, first_nop, 0, 0, 0, PW_HIGHEST_BASE, answer), PW_FORM_NOP, 1);
    ANSWERS(PW_PAST_MEMORY, pw_resolve(mode, first_nop, 0, 0, 0, PW_HIGHEST_BASE + 1, answer), PW_HIGHEST_BASE + 1);
    ANSWERS(PW_DONE, pw_data_run(too_long, PW_RUN_LENGTH, marks, PW_RUN_LENGTH, 0, answer), PW_RUN_LENGTH);
    ANSWERS(PW_DONE, pw_data_run(too_long, PW_RUN_LENGTH + 1, marks, PW_RUN_LENGTH + 1, 0, answer), PW_RUN_LENGTH);
    ANSWERS(PW_DONE, pw_overlaps(over, 6, all, 6, 1, places, PW_MOST_OVERLAPS, answer), PW_MOST_OVERLAPS);
    LEFT(places, uint32_t, 0, 2, 3);
    ANSWERS(PW_DONE, pw_map_test(words, 1, PW_WORD_BITS, PW_WORD_BITS - 1, answer), 0);
    ANSWERS(PW_NO_ROOM, pw_map_test(words, 1, PW_WORD_BITS + 1, 0, answer), 2);
    ANSWERS(PW_DONE, pw_mask(BYTES(0), 1, BYTES(PW_PINNED), 1, BYTES(9), 1, answer), 1);
    ANSWERS(PW_DAMAGED, pw_mask(BYTES(0), 1, BYTES(PW_PINNED + 1), 1, BYTES(9), 1, answer), 0);
}

/* An image whose listing is nearly the longest: a `bne` of three bytes at each position, which leads on and 69 further. */
#define LONG_LENGTH 2048
static uint8_t *long_listing(void)
{
    uint8_t *image = (uint8_t *)lent(too_long, LONG_LENGTH);
    memset(image, 0x45, LONG_LENGTH - 2);
    memset(image + LONG_LENGTH - 2, 0xA0, 2);
    return image;
}

/* The room is enough for it, and a byte less for each position is not. */
static void naming_rooms(void)
{
    uint8_t *image = long_listing(), *marks = (uint8_t *)lent(image, LONG_LENGTH), *room = NONE(uint8_t);
    memset(marks, PW_TRACED, LONG_LENGTH);

    HOLDS(pw_listing(mode, image, LONG_LENGTH, marks, LONG_LENGTH, PW_ARRIVALS_DECLINED, room, 0, answer) == PW_NO_ROOM);
    HOLDS(answer[0] <= PW_LISTING_ROOM * LONG_LENGTH && answer[0] > (PW_LISTING_ROOM - 1) * LONG_LENGTH);
    HOLDS(pw_listing(mode, image, LONG_LENGTH, marks, LONG_LENGTH, PW_ARRIVALS_CHOSEN, room, 0, answer) == PW_NO_ROOM);
    HOLDS(answer[0] <= PW_ARRIVALS_ROOM * LONG_LENGTH && answer[0] > (PW_ARRIVALS_ROOM - 1) * LONG_LENGTH);
    HOLDS(PW_PRINTED_ROOM == PW_LISTING_ROOM * PW_MOST_BYTES);
    HOLDS(PW_SUM_FULL == 22);
}

/* The `I` lines of all first bytes, each with targets inside memory: none is longer than the longest, and one is as long. */
static void naming_lines(void)
{
    int64_t longest = 0;
    for (int first = 0; first < 256; first++) {
        HOLDS(pw_code_line(mode, 0, BYTES(first, 0, 0), PW_INSTRUCTION_LENGTH, NONE(uint8_t), 0, answer) == PW_NO_ROOM);
        longest = answer[0] > longest ? answer[0] : longest;
    }
    HOLDS(longest == PW_CODE_LINE_MOST);
}

/* An empty listing of the longest image, and of one longer. */
static void naming_unlisted(void)
{
    uint8_t *none = NONE(uint8_t);

    ANSWERS(PW_NO_ROOM, pw_unlist_text(none, 0, PW_IMAGE_LIMIT, none, 0, answer), PW_UNLISTED_ROOM);
    ANSWERS(PW_NO_ROOM, pw_unlist_text(none, 0, PW_IMAGE_LIMIT + 1, none, 0, answer), LENGTH("R\t1\t65537\n"));
}

/* An input of the listing program of so many entries, and so many bytes of A0, so many a line. */
static uint8_t *input_of(int entries, int bytes, int in_line, size_t *length)
{
    uint8_t *text = (uint8_t *)lent(too_long, TOO_LONG), *end = text;
    for (int index = 0; index < entries; index++)
        end += sprintf((char *)end, index == 0 ? "0000" : "\t0000");
    for (int index = 0; index < bytes; index++)
        end += sprintf((char *)end, index % in_line == 0 ? "\nA0" : "A0");
    *length = (size_t)(end - text);
    return text;
}

/* Whether the listing program takes it, or calls it malformed by its number. */
static int is_taken(int entries, int bytes, int in_line)
{
    static uint8_t room[PW_PRINTED_ROOM];
    char line[16];
    size_t length;
    const uint8_t *text = input_of(entries, bytes, in_line, &length);

    sprintf(line, "R\t%d\n", PW_MALFORMED_INPUT);
    HOLDS(pw_list_text(text, length, room, PW_PRINTED_ROOM, answer) == PW_DONE);
    return answer[0] != (int64_t)strlen(line) || !same(room, line, strlen(line));
}

/* The most that it holds are taken apart, and one more of either is a bad line. */
static void naming_parts(void)
{
    static uint32_t entries[PW_MOST_ENTRIES];
    static uint8_t image[PW_MOST_BYTES];
    size_t length;
    const uint8_t *text = input_of(PW_MOST_ENTRIES, PW_MOST_BYTES, PW_MOST_IN_LINE, &length);

    ANSWERS(PW_DONE, pw_parse(text, length, entries, PW_MOST_ENTRIES, image, PW_MOST_BYTES, answer), PW_MOST_ENTRIES, PW_MOST_BYTES);
    text = input_of(PW_MOST_ENTRIES + 1, 0, 1, &length);
    ANSWERS(PW_MALFORMED_INPUT, pw_parse(text, length, entries, PW_MOST_ENTRIES, image, PW_MOST_BYTES, answer), 1);
    text = input_of(0, PW_MOST_BYTES + 1, PW_MOST_IN_LINE, &length);
    ANSWERS(PW_MALFORMED_INPUT, pw_parse(text, length, entries, PW_MOST_ENTRIES, image, PW_MOST_BYTES, answer),
            PW_MOST_BYTES / PW_MOST_IN_LINE + 2);
}

/* Each number of a place, after a line. */
static void naming_place(void)
{
    static const char text[] = "L\t0000\nD\t1234\t00\n";
    const uint64_t start[] = PW_PLACE_START;
    uint64_t *place = (uint64_t *)lent(start, sizeof start);

    HOLDS(sizeof start / sizeof start[0] == PW_PLACE_WORDS);
    ANSWERS(PW_DONE, pw_read_line(mode, TEXT(text), strlen(text), place, answer), 'L', 0, 0);
    ANSWERS(PW_DONE, pw_read_line(mode, TEXT(text), strlen(text), place, answer), 'D', 0x1234, 1);
    HOLDS(place[PW_PLACE_AT] == strlen(text) && place[PW_PLACE_LINE] == 3);
    HOLDS(place[PW_PLACE_LAST] == 0x1234 && place[PW_PLACE_LETTER] == 'D');
}

static void naming_inputs(void)
{
    HOLDS(is_taken(PW_MOST_ENTRIES, 1, 1) && !is_taken(PW_MOST_ENTRIES + 1, 1, 1));
    HOLDS(is_taken(1, PW_MOST_IN_LINE, PW_MOST_IN_LINE) && !is_taken(1, PW_MOST_IN_LINE + 1, PW_MOST_IN_LINE + 1));
    HOLDS(is_taken(1, PW_MOST_BYTES, PW_MOST_IN_LINE) && !is_taken(1, PW_MOST_BYTES + 1, PW_MOST_IN_LINE));
}

/* A term of one image, with a name of the letter `a` so many times. */
static void naming_names(int count, const char *sums)
{
    char text[100], printed[400];
    uint8_t *room = room_for_text();

    memset(text, 'a', sizeof text);
    memcpy(text, "N\t", 2);
    strcpy(text + 2 + count, "\n0000\nA0\n");
    ANSWERS(PW_DONE, pw_report_text(TEXT(text), strlen(text), room, 400, answer), LENGTH(sums) + (count <= PW_LONGEST_NAME ? count + 13 : 7));
    text[2 + count] = '\0';
    if (count <= PW_LONGEST_NAME)
        sprintf(printed, "%s\t1\t1\t1\t0\t0\t0\n%s", text + 2, sums);
    else
        sprintf(printed, "-\tR\t%d\n%s", PW_MALFORMED_INPUT, sums);
    HOLDS(begins(room, printed));
}

/* Each number of a record, after a log that ends within a line, and after one that is refused. */
static void naming_record(void)
{
    static const char text[] = SAMPLE_LOG "P\t0", bad[] = "P\t0000\nbad\n";
    uint64_t *counts = LIST(uint64_t, 0, 0, 0, 0, 0, 0, 0, 0), *record = LIST(uint64_t, 9, 9, 9, 9, 9, 9, 9);
    uint8_t *image = SAMPLE, *marks = SAMPLE_MARKS;
    uint32_t *entries = SAMPLE_ENTRIES;

    pw_replay_open(record);
    LEFT(record, uint64_t, 0, 0, 0, 0, PW_DONE, 0, 0);
    ANSWERS(PW_DONE, pw_replay_block(mode, record, TEXT(text), strlen(text), image, 8, marks, 8, entries, 2, counts, 8, answer), SAMPLE_LINES);
    HOLDS(record[PW_REPLAY_LINES] == 9 && record[PW_REPLAY_INTERRUPTS] == 1 && record[PW_REPLAY_FREE] == 1);
    HOLDS(record[PW_REPLAY_LAST] == 4 && record[PW_REPLAY_REFUSAL] == PW_DONE);
    HOLDS(record[PW_REPLAY_HELD] == 3 && record[PW_REPLAY_PART] == ('P' | '\t' << 8 | '0' << 16));
    pw_replay_open(record);
    ANSWERS(PW_MALFORMED_LOG, pw_replay_block(mode, record, TEXT(bad), strlen(bad), image, 8, marks, 8, entries, 2, counts, 8, answer), 2);
    HOLDS(record[PW_REPLAY_LINES] == 1 && record[PW_REPLAY_REFUSAL] == PW_MALFORMED_LOG && record[PW_REPLAY_HELD] == 0);
}

/* A room of 0 asks how much is needed, of each call that has a room; where nothing is needed it is enough. */
static void asking(void)
{
    uint8_t *image = SAMPLE, *marks = SAMPLE_MARKS, *none = NONE(uint8_t), *text = TEXT("0000\nA0\n");
    uint64_t *nothing = NONE(uint64_t), *record = LIST(uint64_t, 0, 0, 0, 0, 0, 0, 0);
    uint32_t *places = NONE(uint32_t);

    ANSWERS(PW_NO_ROOM, pw_encode(0x68, 0, 0, 0, none, 0, answer), 3);
    ANSWERS(PW_NO_ROOM, pw_mask(image, 8, marks, 8, none, 0, answer), 8);
    ANSWERS(PW_NO_ROOM, pw_target_marks(mode, image, 8, marks, 8, none, 0, answer), 8);
    ANSWERS(PW_NO_ROOM, pw_overlaps(OVERLAPPING, 4, OVERLAPPING_MARKS, 4, 0, places, 0, answer), 1);
    ANSWERS(PW_DONE, pw_overlaps(image, 8, marks, 8, 0, places, 0, answer), 0);
    ANSWERS(PW_NO_ROOM, pw_arrivals(mode, image, 8, marks, 8, 0, places, 0, answer), 1);
    ANSWERS(PW_DONE, pw_arrivals(mode, image, 8, marks, 8, 1, places, 0, answer), 0);
    ANSWERS(PW_NO_ROOM, pw_listing(mode, BYTES(0xA0), 1, BYTES(2), 1, PW_ARRIVALS_CHOSEN, none, 0, answer), LENGTH("I\t0000\tA0\tret\n"));
    ANSWERS(PW_NO_ROOM, pw_code_line(mode, 0, BYTES(0xA0), 1, none, 0, answer), LENGTH("I\t0000\tA0\tret\n"));
    ANSWERS(PW_NO_ROOM, pw_list_text(text, 8, none, 0, answer), LENGTH("I\t0000\tA0\tret\n"));
    ANSWERS(PW_NO_ROOM, pw_parse(text, 8, places, 0, none, 0, answer), 1, 1);
    ANSWERS(PW_NO_ROOM, pw_unlist_text(none, 0, 1, none, 0, answer), LENGTH("00\n"));
    ANSWERS(PW_NO_ROOM, pw_report_text(none, 0, none, 0, answer), LENGTH("T\t0\t0\t0\t0\t0\t0\t0\t0\n"));
    ANSWERS(PW_NO_ROOM, pw_read_back(mode, TEXT("bad"), 3, 8, none, 0, marks, 8, answer), 8);
    ANSWERS(PW_NO_ROOM, pw_map_build(image, 8, marks, 8, nothing, 0, answer), 1);
    ANSWERS(PW_NO_ROOM, pw_map_test(nothing, 0, PW_WORD_BITS + 1, UINT32_MAX, answer), 2);
    ANSWERS(PW_NO_ROOM, pw_map_count(nothing, 0, PW_IMAGE_LIMIT, 1, 0, answer), PW_IMAGE_LIMIT / PW_WORD_BITS);
    ANSWERS(PW_NO_ROOM, pw_map_first_data(nothing, 0, 1, 0, answer), 1);
    ANSWERS(PW_NO_ROOM, pw_map_update(image, 8, marks, 8, nothing, 0, 0, answer), 1);
    ANSWERS(PW_NO_ROOM, pw_replay(mode, TEXT("bad"), 3, image, 8, marks, 8, NO_ENTRIES, nothing, 0, answer), 8);
    ANSWERS(PW_NO_ROOM, pw_replay_block(mode, record, TEXT("bad"), 3, image, 8, marks, 8, NO_ENTRIES, nothing, 0, answer), 8);
}

void names(void)
{
    naming_forms();
    give_back();
    naming_sizes();
    give_back();
    naming_lines();
    give_back();
    naming_limits();
    naming_rooms();
    naming_unlisted();
    naming_inputs();
    naming_parts();
    naming_place();
    naming_names(PW_LONGEST_NAME, "T\t1\t1\t1\t0\t0\t0\t1\t0\n");
    naming_names(PW_LONGEST_NAME + 1, "T\t0\t0\t0\t0\t0\t0\t0\t1\n");
    naming_record();
    asking();
}
