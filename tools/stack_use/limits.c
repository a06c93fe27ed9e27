#include "limits.h"

#include <string.h>

/* All calls but those below. */
#define USUAL 1024

/* Calls with tables on the stack: of the longest image, of the longest input, or of the entries. */
static const struct {
    const char *name;
    size_t limit;
} limits[] = {
    {"pw_listing, chosen", 320 * 1024},
    {"the same, exact room", 320 * 1024},
    {"pw_listing, declined", 80 * 1024},
    {"pw_read_back", 96 * 1024},
    {"pw_list_text", 200 * 1024},
    {"pw_report_text", 200 * 1024},
    {"pw_unlist_text", 208 * 1024},
    {"pw_replay", 10 * 1024},
    {"pw_replay_block", 10 * 1024},
};

size_t limit_of(const char *name)
{
    for (size_t index = 0; index < sizeof limits / sizeof limits[0]; index++)
        if (strcmp(limits[index].name, name) == 0)
            return limits[index].limit;
    return USUAL;
}
