/* A call on a stack that was painted before. */
#ifndef PAINTED_H
#define PAINTED_H

#include <stddef.h>

/* How many bytes of stack the call takes below those of its caller, the return address included. */
size_t stack_of(void (*call)(void));

#endif
