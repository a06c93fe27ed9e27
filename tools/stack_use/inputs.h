/* What the calls are given. */
#ifndef INPUTS_H
#define INPUTS_H

#include "pottagewing.h"

/* More than the longest listing. */
#define TEXT_ROOM (PW_ARRIVALS_ROOM * PW_IMAGE_LIMIT)
/* The lines of a log, and the bytes of one. */
#define LOG_LINES 1023
#define LINE_LENGTH 7

/* An image with its entries and marks, a position of it, its listing with arrivals, an input of the listing program, a term of that
 * image twice, and a log. */
struct input {
    uint8_t image[PW_IMAGE_LIMIT];
    size_t length;
    uint32_t entries[PW_MOST_ENTRIES];
    size_t count;
    uint8_t marks[PW_IMAGE_LIMIT];
    uint32_t position;
    uint8_t listing[TEXT_ROOM];
    size_t listed;
    uint8_t text[TEXT_ROOM];
    size_t written;
    uint8_t term[TEXT_ROOM];
    size_t told;
    uint8_t log[LOG_LINES * LINE_LENGTH];
    size_t logged;
};

/* The one that the calls are given now. */
extern struct input input;

/* Makes the input of a number, from 0 on: the empty one first, then those of the longest image. Answers 0 where there is none. */
int make_input(int number);

#endif
