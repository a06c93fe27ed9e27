#include "calls.h"

#include "inputs.h"

/* The image and its marks, as most calls take them. */
#define IMAGE input.image, input.length
#define MARKS input.marks, input.length
#define ENTRIES input.entries, input.count

static int64_t answer[PW_VALUES];
static uint8_t bytes[TEXT_ROOM], marks[PW_IMAGE_LIMIT], image[PW_IMAGE_LIMIT];
static uint32_t places[PW_IMAGE_LIMIT];
static uint64_t words[PW_IMAGE_LIMIT / PW_WORD_BITS], counts[PW_IMAGE_LIMIT], record[PW_REPLAY_WORDS];

/* Each first byte with operands at their highest, and past them. */
#define EACH_FIRST for (int first = 0; first < 256; first++)
/* What is told a mode is called in both. */
#define EACH_MODE for (uint32_t mode = PW_UNWRAPPED; mode <= PW_WRAPPING; mode++)

static void version(void) { pw_version(); }
static void decode(void)
{
    EACH_FIRST {
        const uint8_t instruction[PW_INSTRUCTION_LENGTH] = {(uint8_t)first, 0xFF, 0xFF};
        pw_decode(instruction, PW_INSTRUCTION_LENGTH, answer);
    }
}

static void encode(void)
{
    EACH_FIRST {
        pw_encode((uint8_t)first, 3, 3, 3, bytes, PW_INSTRUCTION_LENGTH, answer);
        pw_encode((uint8_t)first, 65536, 65536, 65536, bytes, PW_INSTRUCTION_LENGTH, answer);
    }
}

static void resolve(void)
{
    EACH_MODE EACH_FIRST {
        pw_resolve(mode, (uint8_t)first, 3, 3, 3, 1, answer);
        pw_resolve(mode, (uint8_t)first, 3, 3, 65535, PW_HIGHEST_BASE, answer);
        pw_resolve(mode, (uint8_t)first, 65536, 65536, 65536, PW_HIGHEST_BASE, answer);
    }
}

static void targets(void)
{
    EACH_MODE EACH_FIRST {
        pw_targets(mode, 65533, (uint8_t)first, 3, 3, 3, answer);
        pw_targets(mode, 65533, (uint8_t)first, 65536, 65536, 65536, answer);
    }
}

static void start(void) { pw_start(IMAGE, marks, PW_IMAGE_LIMIT, input.entries, input.count, input.entries, 0, answer); }
static void step(void)
{
    EACH_MODE for (size_t index = 0; index <= input.count; index++) {
        uint32_t position = input.entries[index % PW_MOST_ENTRIES];
        marks[position] = PW_WAITING;
        pw_step(mode, IMAGE, marks, PW_IMAGE_LIMIT, position, answer);
    }
}
static void run(void)
{
    EACH_MODE pw_run(mode, IMAGE, marks, PW_IMAGE_LIMIT, places, PW_IMAGE_LIMIT, input.entries, input.count, input.entries, 0, PW_IMAGE_LIMIT, answer);
}
static void sweep(void) { EACH_MODE pw_sweep(mode, IMAGE, marks, PW_IMAGE_LIMIT, input.entries, input.count, input.entries, 0, answer); }
static void mask(void) { pw_mask(IMAGE, MARKS, bytes, TEXT_ROOM, answer); }
static void target_marks(void) { EACH_MODE pw_target_marks(mode, IMAGE, MARKS, bytes, TEXT_ROOM, answer); }
static void overlaps(void) { pw_overlaps(IMAGE, MARKS, input.position, places, PW_MOST_OVERLAPS, answer); }
static void arrivals(void) { EACH_MODE pw_arrivals(mode, IMAGE, MARKS, input.position, places, PW_IMAGE_LIMIT, answer); }
static void data_run(void) { pw_data_run(IMAGE, MARKS, input.position, answer); }
static void listing(void) { EACH_MODE pw_listing(mode, IMAGE, MARKS, PW_ARRIVALS_DECLINED, bytes, TEXT_ROOM, answer); }
static void listing_exactly(void) { EACH_MODE pw_listing(mode, IMAGE, MARKS, PW_ARRIVALS_CHOSEN, bytes, input.listed, answer); }
static void listing_with(void) { EACH_MODE pw_listing(mode, IMAGE, MARKS, PW_ARRIVALS_CHOSEN, bytes, TEXT_ROOM, answer); }
static void code_line(void)
{
    EACH_MODE EACH_FIRST {
        const uint8_t instruction[PW_INSTRUCTION_LENGTH] = {(uint8_t)first, 0xFF, 0xFF};
        pw_code_line(mode, 0, instruction, PW_INSTRUCTION_LENGTH, bytes, PW_CODE_LINE_MOST, answer);
        pw_code_line(mode, UINT32_MAX, instruction, PW_INSTRUCTION_LENGTH, bytes, PW_CODE_LINE_MOST, answer);
        pw_code_line(mode, 0, instruction, 1, bytes, PW_CODE_LINE_MOST, answer);
    }
}
static void list_text(void) { pw_list_text(input.text, input.written, bytes, TEXT_ROOM, answer); }
static void parse(void) { pw_parse(input.text, input.written, places, PW_IMAGE_LIMIT, image, PW_IMAGE_LIMIT, answer); }
static void report_text(void) { pw_report_text(input.term, input.told, bytes, TEXT_ROOM, answer); }
static void read_back(void)
{
    EACH_MODE pw_read_back(mode, input.listing, input.listed, (uint32_t)input.length, image, PW_IMAGE_LIMIT, marks, PW_IMAGE_LIMIT, answer);
}
/* The beginning of a listing, line by line. */
static void read_line(void)
{
    EACH_MODE {
        uint64_t place[PW_PLACE_WORDS] = PW_PLACE_START;
        for (int turn = 0; turn < 1000; turn++)
            pw_read_line(mode, input.listing, input.listed, place, answer);
    }
}
static void unlist_text(void) { pw_unlist_text(input.listing, input.listed, (uint32_t)input.length, bytes, TEXT_ROOM, answer); }
static void map_build(void) { pw_map_build(IMAGE, MARKS, words, PW_IMAGE_LIMIT / PW_WORD_BITS, answer); }
static void map_test(void) { pw_map_test(words, PW_IMAGE_LIMIT / PW_WORD_BITS, (uint32_t)input.length, input.position, answer); }
static void map_count(void)
{
    pw_map_count(words, PW_IMAGE_LIMIT / PW_WORD_BITS, (uint32_t)input.length, 1, (uint32_t)input.length, answer);
}
static void map_first_data(void) { pw_map_first_data(words, PW_IMAGE_LIMIT / PW_WORD_BITS, (uint32_t)input.length, 1, answer); }
static void map_update(void) { pw_map_update(IMAGE, MARKS, words, PW_IMAGE_LIMIT / PW_WORD_BITS, input.position, answer); }
/* A whole log, and a half of it, which ends within a line and is taken back. */
static void replay(void)
{
    EACH_MODE {
        pw_replay(mode, input.log, input.logged, IMAGE, MARKS, ENTRIES, counts, PW_IMAGE_LIMIT, answer);
        pw_replay(mode, input.log, input.logged / 2, IMAGE, MARKS, ENTRIES, counts, PW_IMAGE_LIMIT, answer);
    }
}
static void replay_open(void) { pw_replay_open(record); }
static void replay_block(void)
{
    size_t half = input.logged / 2;
    EACH_MODE {
        pw_replay_block(mode, record, input.log, half, IMAGE, MARKS, ENTRIES, counts, PW_IMAGE_LIMIT, answer);
        pw_replay_block(mode, record, input.log + half, input.logged - half, IMAGE, MARKS, ENTRIES, counts, PW_IMAGE_LIMIT, answer);
    }
}
static void replay_close(void) { pw_replay_close(record, answer); }

/* A call is made after those above it: a step after a start, a query after a build, a block after a record was opened. */
const struct call calls[] = {
    {"pw_version", version},
    {"pw_decode", decode},
    {"pw_encode", encode},
    {"pw_resolve", resolve},
    {"pw_targets", targets},
    {"pw_start", start},
    {"pw_step", step},
    {"pw_run", run},
    {"pw_sweep", sweep},
    {"pw_mask", mask},
    {"pw_target_marks", target_marks},
    {"pw_overlaps", overlaps},
    {"pw_arrivals", arrivals},
    {"pw_data_run", data_run},
    {"pw_listing, declined", listing},
    {"pw_listing, chosen", listing_with},
    {"the same, exact room", listing_exactly},
    {"pw_code_line", code_line},
    {"pw_list_text", list_text},
    {"pw_parse", parse},
    {"pw_report_text", report_text},
    {"pw_read_back", read_back},
    {"pw_read_line", read_line},
    {"pw_unlist_text", unlist_text},
    {"pw_map_build", map_build},
    {"pw_map_test", map_test},
    {"pw_map_count", map_count},
    {"pw_map_first_data", map_first_data},
    {"pw_map_update", map_update},
    {"pw_replay", replay},
    {"pw_replay_open", replay_open},
    {"pw_replay_block", replay_block},
    {"pw_replay_close", replay_close},
};
const size_t count_calls = sizeof calls / sizeof calls[0];
