/* What the checks share. A check is a call with what it is to answer, or something that is to hold. */
#ifndef CHECK_H
#define CHECK_H

#include "pottagewing.h"

/* The room for every answer. Before each call it has numbers that none answers, so that a value left unwritten is seen. */
extern int64_t answer[PW_VALUES];

/* The mode that the calls are told now: all checks are made in each mode, wrapping by several numbers. */
extern uint32_t mode;

/* What is expected unwrapped, and what wrapping. */
#define BY_MODE(unwrapped, wrapping) (mode == PW_UNWRAPPED ? (unwrapped) : (wrapping))

/* Lists of numbers of some type: C has them as compound literals, and C++ has templates for them. */
#ifdef __cplusplus
#define LIST_OF(type, ...) list_of<type>(__VA_ARGS__).numbers
#define SIZE_OF(type, ...) sizeof(list_of<type>(__VA_ARGS__).numbers)
#else
#define LIST_OF(type, ...) (const type[]){__VA_ARGS__}
#define SIZE_OF(type, ...) sizeof(const type[]){__VA_ARGS__}
#endif

/* The call answers this number and these values; those that are not given are 0. */
#define ANSWERS(number, call, ...) answers(__FILE__, __LINE__, #call, call, number, LIST_OF(int64_t, __VA_ARGS__), SIZE_OF(int64_t, __VA_ARGS__))

#define HOLDS(what) holds(__FILE__, __LINE__, #what, what)

/* A list of numbers of some type, lent. */
#define LIST(type, ...) ((type *)lent(LIST_OF(type, __VA_ARGS__), SIZE_OF(type, __VA_ARGS__)))
#define BYTES(...) LIST(uint8_t, __VA_ARGS__)
#define NONE(type) ((type *)lent("", 0))
/* The pins of a trace that has none. */
#define NO_PINS NONE(uint32_t), 0
/* The entries of a replay that has none. */
#define NO_ENTRIES NONE(uint32_t), 0

/* What was lent holds these numbers now, from its beginning on. */
#define LEFT(room, type, ...) HOLDS(same(room, LIST_OF(type, __VA_ARGS__), SIZE_OF(type, __VA_ARGS__)))

void answers(const char *file, int line, const char *call, uint32_t number, uint32_t expected, const int64_t *values, size_t size);
void holds(const char *file, int line, const char *what, int is_so);

/* A copy that is exactly as long, so that valgrind sees what is read or written past it. It is kept until give_back. */
void *lent(const void *from, size_t size);
void give_back(void);

int same(const void *one, const void *other, size_t size);

/* Prints how many checks passed, and answers whether all did and each call was seen to answer each of its numbers, in each mode. */
int report(void);

#ifdef __cplusplus
template <class Type, size_t COUNT> struct List {
    Type numbers[COUNT];
};

template <class Type, class... Values> List<Type, sizeof...(Values)> list_of(Values... values)
{
    return {{static_cast<Type>(values)...}};
}
#endif

#endif
