/* Texts that are lent, and rooms for them. */
#ifndef TEXTS_H
#define TEXTS_H

#include <string.h>

#include "check.h"

/* A text without the byte 0 after it. */
#define TEXT(text) ((uint8_t *)lent(text, strlen(text)))
#define LENGTH(text) ((int64_t)strlen(text))

/* The sample as an input of the listing program, and its listings without arrivals and with them. */
#define INPUT "0000\n0102004164\n80F9A0\n"
#define DECLINED "L\t0000\nI\t0000\t0102\tbr\t0004\nD\t0002\t0041\nL\t0004\nI\t0004\t64\tinc\t@R0\nI\t0005\t80F9\tbz\t0000\nI\t0007\tA0\tret\n"
#define CHOSEN \
    "L\t0000\nA\t0000\t0005\nI\t0000\t0102\tbr\t0004\nD\t0002\t0041\nL\t0004\nA\t0004\t0000\nI\t0004\t64\tinc\t@R0\n" \
    "A\t0005\t0004\nI\t0005\t80F9\tbz\t0000\nA\t0007\t0005\nI\t0007\tA0\tret\n"

/* A room of 400 bytes, all of them 9. */
uint8_t *room_for_text(void);

/* The room begins with the text, and the byte after it stayed. */
int begins(const uint8_t *room, const char *text);

#endif
