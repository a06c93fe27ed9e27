#include "calls.h"

#include <stdio.h>
#include <string.h>

#include "pottagewing.h"

#define BIT(number) (UINT32_C(1) << (number))
/* Refusals that several calls have in common. */
#define SIZES (BIT(PW_LONG_IMAGE) | BIT(PW_SHORT_MARKS))
#define VIEW (SIZES | BIT(PW_DAMAGED) | BIT(PW_NO_ROOM))
#define QUERY (BIT(PW_LONG_IMAGE) | BIT(PW_NO_ROOM) | BIT(PW_OUTSIDE))
#define LOG_LINE (BIT(PW_MALFORMED_LOG) | BIT(PW_NOT_TRACED) | BIT(PW_FORBIDDEN_MOVE) | BIT(PW_COUNT_FULL))

/* Every call that has an answer, with its refusals: each must be seen in each mode, unwrapped and wrapping, and an answer that is none. */
static struct {
    const char *name;
    uint32_t refusals;
    uint32_t seen[2];
} calls[] = {
    {"pw_decode", BIT(PW_NOTHING) | BIT(PW_CUT_OFF), {0, 0}},
    {"pw_encode", BIT(PW_UNFIT) | BIT(PW_NO_ROOM), {0, 0}},
    {"pw_resolve", BIT(PW_PAST_MEMORY) | BIT(PW_UNFIT) | BIT(PW_NO_ADDRESS) | BIT(PW_TOO_FAR) | BIT(PW_OTHER_PAGE), {0, 0}},
    {"pw_targets", BIT(PW_PAST_MEMORY) | BIT(PW_UNFIT), {0, 0}},
    {"pw_start", SIZES, {0, 0}},
    {"pw_step", SIZES | BIT(PW_NOT_WAITING) | BIT(PW_DAMAGED) | BIT(PW_CUT_OFF), {0, 0}},
    {"pw_run", SIZES | BIT(PW_SHORT_ORDER) | BIT(PW_CUT_OFF), {0, 0}},
    {"pw_sweep", SIZES, {0, 0}},
    {"pw_mask", VIEW, {0, 0}},
    {"pw_target_marks", VIEW, {0, 0}},
    {"pw_overlaps", VIEW, {0, 0}},
    {"pw_arrivals", VIEW, {0, 0}},
    {"pw_data_run", 0, {0, 0}},
    {"pw_listing", VIEW, {0, 0}},
    {"pw_code_line", BIT(PW_NOTHING) | BIT(PW_CUT_OFF) | BIT(PW_PAST_MEMORY) | BIT(PW_NO_ROOM), {0, 0}},
    {"pw_list_text", BIT(PW_NO_ROOM), {0, 0}},
    {"pw_parse", BIT(PW_MALFORMED_INPUT) | BIT(PW_NO_ROOM), {0, 0}},
    {"pw_report_text", BIT(PW_NO_ROOM), {0, 0}},
    {"pw_read_back", SIZES | BIT(PW_NO_ROOM) | BIT(PW_MALFORMED_LINE) | BIT(PW_LINE_PAST_END), {0, 0}},
    {"pw_read_line", BIT(PW_MALFORMED_LINE), {0, 0}},
    {"pw_unlist_text", BIT(PW_NO_ROOM), {0, 0}},
    {"pw_map_build", VIEW, {0, 0}},
    {"pw_map_test", QUERY, {0, 0}},
    {"pw_map_count", QUERY, {0, 0}},
    {"pw_map_first_data", QUERY, {0, 0}},
    {"pw_map_update", VIEW | BIT(PW_OUTSIDE), {0, 0}},
    {"pw_replay", VIEW | LOG_LINE, {0, 0}},
    {"pw_replay_block", VIEW | LOG_LINE, {0, 0}},
    {"pw_replay_close", LOG_LINE, {0, 0}},
};

#define COUNT (sizeof calls / sizeof calls[0])

static uint32_t numbers(size_t index)
{
    return calls[index].refusals | BIT(PW_DONE);
}

int note(const char *call, uint32_t mode, uint32_t number)
{
    size_t length = strcspn(call, "(");
    for (size_t index = 0; index < COUNT; index++) {
        if (strlen(calls[index].name) != length || strncmp(calls[index].name, call, length) != 0)
            continue;
        calls[index].seen[mode != PW_UNWRAPPED] |= number < 32 ? BIT(number) : 0;
        return number < 32 && (numbers(index) & BIT(number)) != 0;
    }
    return 0;
}

static unsigned unseen_in(size_t index, int wrapping)
{
    unsigned count = 0;
    for (unsigned number = 0; number < 32; number++) {
        if ((numbers(index) & ~calls[index].seen[wrapping] & BIT(number)) == 0)
            continue;
        printf("%s was not seen to answer %u, %s\n", calls[index].name, number, wrapping ? "wrapping" : "unwrapped");
        count++;
    }
    return count;
}

unsigned unseen(void)
{
    unsigned count = 0;
    for (size_t index = 0; index < COUNT; index++)
        count += unseen_in(index, 0) + unseen_in(index, 1);
    return count;
}
