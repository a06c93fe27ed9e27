/* The calls, and the numbers that were seen of each, in each mode. */
#ifndef CALLS_H
#define CALLS_H

#include <stdint.h>

/* Notes that a call, given as it is written, answered a number while calls are told a mode; answers whether it may. */
int note(const char *call, uint32_t mode, uint32_t number);

/* Prints each number that a call can answer and did not in a mode, and answers how many there are. */
unsigned unseen(void);

#endif
