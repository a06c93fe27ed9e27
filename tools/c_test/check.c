#include "check.h"

#include <inttypes.h>
#include <stdio.h>
#include <stdlib.h>
#include <string.h>

#include "calls.h"

#define UNWRITTEN INT64_MIN
#define MOST_LENT 1000

int64_t answer[PW_VALUES] = {UNWRITTEN, UNWRITTEN, UNWRITTEN, UNWRITTEN, UNWRITTEN};

uint32_t mode = PW_UNWRAPPED;

static unsigned passed, failed;
static void *all_lent[MOST_LENT];
static size_t count_lent;

static void say(uint32_t number, const int64_t values[PW_VALUES])
{
    printf("%" PRIu32, number);
    for (int index = 0; index < PW_VALUES; index++)
        printf(" %" PRId64, values[index]);
}

void answers(const char *file, int line, const char *call, uint32_t number, uint32_t expected, const int64_t *given, size_t size)
{
    int is_known = note(call, mode, number);
    int64_t values[PW_VALUES] = {0};

    memcpy(values, given, size);
    if (is_known && number == expected && memcmp(answer, values, sizeof answer) == 0) {
        passed++;
    } else {
        printf("%s:%d: mode %" PRIu32 ": %s\n  is to answer ", file, line, mode, call);
        say(expected, values);
        printf("\n  answers      ");
        say(number, answer);
        printf("%s\n", is_known ? "" : ", which calls.c does not have");
        failed++;
    }
    for (int index = 0; index < PW_VALUES; index++)
        answer[index] = UNWRITTEN;
}

void holds(const char *file, int line, const char *what, int is_so)
{
    if (is_so) {
        passed++;
    } else {
        printf("%s:%d: mode %" PRIu32 ": does not hold: %s\n", file, line, mode, what);
        failed++;
    }
}

void *lent(const void *from, size_t size)
{
    void *copy = malloc(size);
    if (copy == NULL || count_lent == MOST_LENT) {
        printf("no memory to lend\n");
        exit(EXIT_FAILURE);
    }
    all_lent[count_lent++] = copy;
    return memcpy(copy, from, size);
}

void give_back(void)
{
    while (count_lent > 0)
        free(all_lent[--count_lent]);
}

int same(const void *one, const void *other, size_t size)
{
    return memcmp(one, other, size) == 0;
}

int report(void)
{
    failed += unseen();
    if (failed > 0)
        printf("%u checks failed\n", failed);
    printf("%u checks passed\n", passed);
    return failed == 0;
}
