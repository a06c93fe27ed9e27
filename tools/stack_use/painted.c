#include "painted.h"

#include <pthread.h>
#include <stdio.h>
#include <stdlib.h>
#include <string.h>
#include <sys/mman.h>

/* The stack of a thread, and a part of it that lies between what starting the thread wrote and the call. */
#define SIZE ((size_t)16 << 20)
#define GAP ((size_t)64 << 10)

/* What is measured: the call on a stack that was painted with a byte. */
struct measured {
    void (*call)(void);
    unsigned char *stack;
    unsigned char paint;
    size_t used;
};

static void fail(const char *what)
{
    fprintf(stderr, "stack: %s\n", what);
    exit(EXIT_FAILURE);
}

/* Looks for the lowest byte that was written over, before anything else can write there. */
__attribute__((noinline)) static void measure(struct measured *this)
{
    const unsigned char *top = __builtin_frame_address(0);
    this->call();
    const unsigned char *lowest = this->stack;
    while (*lowest == this->paint)
        lowest++;
    this->used = (size_t)(top - lowest);
}

static void *enter(void *this)
{
    volatile unsigned char gap[GAP];
    gap[0] = 0;
    measure(this);
    gap[GAP - 1] = gap[0];
    return NULL;
}

static size_t used_on(unsigned char *stack, void (*call)(void), unsigned char paint)
{
    struct measured this = {call, stack, paint, 0};
    pthread_attr_t attributes;
    pthread_t thread;

    memset(stack, paint, SIZE);
    if (pthread_attr_init(&attributes) != 0 || pthread_attr_setstack(&attributes, stack, SIZE) != 0)
        fail("no stack for a thread");
    if (pthread_create(&thread, &attributes, enter, &this) != 0 || pthread_join(thread, NULL) != 0)
        fail("no thread");
    pthread_attr_destroy(&attributes);
    return this.used;
}

static void nothing(void)
{
}

/* With two paints, since one may be what the call writes; less what a call of nothing takes, but for the return address. */
size_t stack_of(void (*call)(void))
{
    static unsigned char *stack = NULL;
    if (stack == NULL) {
        void *pages = mmap(NULL, SIZE, PROT_READ | PROT_WRITE, MAP_PRIVATE | MAP_ANONYMOUS, -1, 0);
        if (pages == MAP_FAILED)
            fail("no memory for a stack");
        stack = pages;
    }
    size_t one = used_on(stack, call, 0xA5);
    size_t other = used_on(stack, call, 0x5A);
    size_t least = used_on(stack, nothing, 0xA5);
    return (one > other ? one : other) - least + sizeof(void *);
}
