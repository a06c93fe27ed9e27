/* Traces a small image from its entry and prints its listing. */
#include <inttypes.h>
#include <stdio.h>
#include <stdlib.h>

#include "pottagewing.h"

#define LENGTH 8
/* What is traced in one mode is listed in the same: this one is the listing program's. */
#define MODE PW_UNWRAPPED

static const uint8_t image[LENGTH] = {0x01, 0x02, 0x00, 0x41, 0x64, 0x80, 0xF9, 0xA0};
static const uint32_t entries[] = {0x0000};
/* None is told: where a table stands, its positions would be. */
static const uint32_t pins[1];

/* A call that was refused ends the program: it says the number, and the values that go with it, three at most. */
static void check(const char *call, uint32_t number, const int64_t answer[PW_VALUES])
{
    if (number == PW_DONE)
        return;
    fprintf(stderr, "%s: refusal %" PRIu32 ", %" PRId64 ", %" PRId64 ", %" PRId64 "\n", call, number, answer[0], answer[1], answer[2]);
    exit(EXIT_FAILURE);
}

static void *grown(void *room, size_t size)
{
    room = realloc(room, size);
    if (room == NULL) {
        fprintf(stderr, "no memory\n");
        exit(EXIT_FAILURE);
    }
    return room;
}

int main(void)
{
    uint8_t marks[LENGTH];
    uint32_t order[LENGTH];
    int64_t answer[PW_VALUES];
    uint32_t number;

    /* No position is taken up twice, so that the image's length is limit enough for every run to finish. */
    number = pw_run(MODE, image, LENGTH, marks, LENGTH, order, LENGTH, entries, sizeof entries / sizeof entries[0], pins, 0, LENGTH, answer);
    check("pw_run", number, answer);

    /* A room of 0 bytes asks how many the listing has. It is lent a pointer all the same, since none may be null. The stack of `main` is
     * large enough for the call; that of a thread has to have 1 MiB. */
    size_t size = 0;
    uint8_t *room = grown(NULL, 1);
    number = pw_listing(MODE, image, LENGTH, marks, LENGTH, PW_ARRIVALS_DECLINED, room, size, answer);
    if (number == PW_NO_ROOM) {
        size = (size_t)answer[0];
        room = grown(room, size);
        number = pw_listing(MODE, image, LENGTH, marks, LENGTH, PW_ARRIVALS_DECLINED, room, size, answer);
    }
    check("pw_listing", number, answer);

    size_t written = (size_t)answer[0];
    if (fwrite(room, 1, written, stdout) != written || fflush(stdout) != 0) {
        perror("standard output");
        return EXIT_FAILURE;
    }
    free(room);
    return EXIT_SUCCESS;
}
