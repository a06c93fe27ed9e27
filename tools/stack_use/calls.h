/* The calls that are measured. */
#ifndef CALLS_H
#define CALLS_H

#include <stddef.h>

struct call {
    const char *name;
    void (*make)(void);
};

extern const struct call calls[];
extern const size_t count_calls;

#endif
