/* How much of the stack each call may take. */
#ifndef LIMITS_H
#define LIMITS_H

#include <stddef.h>

/* The most bytes that the call of this name, as calls.c has it, may take, over any input. */
size_t limit_of(const char *name);

#endif
