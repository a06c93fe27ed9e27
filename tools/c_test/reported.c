/* The term report: what is printed of each kind of image, of none and of many, in rooms of each length. */
#include <stdlib.h>

#include "check.h"
#include "parts.h"
#include "texts.h"

#define SAMPLE_IMAGE "N\tSample\n0000\n0102004164\n80F9A0\n"
#define SAMPLE_LINE "Sample\t8\t4\t6\t2\t0\t2\n"
#define NO_IMAGES "T\t0\t0\t0\t0\t0\t0\t0\t0\n"

/* Accepted, cut off, malformed, malformed by its `N` line, empty, and with bytes under several instructions. */
#define TERM \
    SAMPLE_IMAGE "\nN\tCut\n0000\n6800\n\n\nN\tBad\n0000\na0\nA0\n\nN\ta-b\n0000\nA0\n\nN\tEmpty\n\n" \
                 "N\tOver\n0000\t0001\t0002\n4444444464A0A0"
#define TERM_REPORT SAMPLE_LINE "Cut\tR\t5\nBad\tR\t13\n-\tR\t13\nEmpty\t0\t0\t0\t0\t0\t0\nOver\t7\t7\t7\t0\t5\t0\nT\t15\t11\t13\t2\t5\t2\t3\t3\n"

/* The text is reported so: into a longer room, whose rest stays, and into one that is as long. One that is a byte too short stays. */
static void prints(const char *text, const char *report)
{
    size_t length = strlen(report);
    uint8_t *room = room_for_text();
    uint8_t *short_room = (uint8_t *)lent(room, length - 1);
    uint8_t *exact_room = (uint8_t *)lent(room, length);

    ANSWERS(PW_NO_ROOM, pw_report_text(TEXT(text), strlen(text), short_room, length - 1, answer), LENGTH(report));
    HOLDS(same(short_room, room, length - 1));
    ANSWERS(PW_DONE, pw_report_text(TEXT(text), strlen(text), exact_room, length, answer), LENGTH(report));
    HOLDS(same(exact_room, report, length));
    ANSWERS(PW_DONE, pw_report_text(TEXT(text), strlen(text), room, 400, answer), LENGTH(report));
    HOLDS(begins(room, report));
}

/* 3,000 times the sample: the sums grow past an image, and all that is needed is told before there is room. */
static void reporting_many(void)
{
    enum { MANY = 3000 };
    static const char one[] = SAMPLE_IMAGE "\n", line[] = SAMPLE_LINE, sums[] = "T\t24000\t12000\t18000\t6000\t0\t6000\t3000\t0\n";
    size_t length = MANY * strlen(one), printed = MANY * strlen(line) + strlen(sums);
    uint8_t *text = (uint8_t *)malloc(length), *room = (uint8_t *)malloc(printed);

    HOLDS(text != NULL && room != NULL);
    if (text == NULL || room == NULL)
        return;
    for (size_t index = 0; index < MANY; index++)
        memcpy(text + index * strlen(one), one, strlen(one));
    ANSWERS(PW_NO_ROOM, pw_report_text(text, length, NONE(uint8_t), 0, answer), (int64_t)printed);
    ANSWERS(PW_DONE, pw_report_text(text, length, room, printed, answer), (int64_t)printed);
    HOLDS(same(room, line, strlen(line)));
    HOLDS(same(room + MANY * strlen(line), sums, strlen(sums)));
    free(text);
    free(room);
}

void reported(void)
{
    prints("", NO_IMAGES);
    prints("\n\n\n", NO_IMAGES);
    prints(SAMPLE_IMAGE, SAMPLE_LINE "T\t8\t4\t6\t2\t0\t2\t1\t0\n");
    prints(TERM, TERM_REPORT);
    prints("N\ta\n-\nA0\n", "a\t1\t0\t0\t1\t0\t0\nT\t1\t0\t0\t1\t0\t0\t1\t0\n");
    prints("N\ta\n-\nA0\r\n", "a\tR\t13\nT\t0\t0\t0\t0\t0\t0\t0\t1\n");
    prints("0000\nA0", "-\tR\t13\nT\t0\t0\t0\t0\t0\t0\t0\t1\n");
    prints("N", "-\tR\t13\nT\t0\t0\t0\t0\t0\t0\t0\t1\n");
    prints("N\ta\n0000\n0180\n", "a\t2\t1\t2\t0\t0\t0\nT\t2\t1\t2\t0\t0\t0\t1\t0\n");
    reporting_many();
}
