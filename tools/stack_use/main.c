/* Prints the stack of each call: over empty inputs, the most over the longest, the most that it may be, and whether it is no more. */
#include <stdio.h>
#include <stdlib.h>

#include "calls.h"
#include "inputs.h"
#include "limits.h"
#include "painted.h"

/* Of a call: whether both are within its limit. */
static int print_line(const char *name, const size_t used[2])
{
    size_t limit = limit_of(name);
    int is_held = used[0] <= limit && used[1] <= limit;
    printf("%-22s %9zu  %9zu  %9zu  %s\n", name, used[0], used[1], limit, is_held ? "held" : "EXCEEDED");
    return is_held;
}

int main(void)
{
    size_t (*used)[2] = calloc(count_calls, sizeof *used);
    int status = EXIT_SUCCESS;

    if (used == NULL)
        return EXIT_FAILURE;
    for (int number = 0; make_input(number); number++) {
        for (size_t index = 0; index < count_calls; index++) {
            size_t now = stack_of(calls[index].make);
            size_t *most = &used[index][number > 0];
            *most = now > *most ? now : *most;
        }
    }
    printf("bytes of stack           empty    longest      limit\n");
    for (size_t index = 0; index < count_calls; index++)
        if (!print_line(calls[index].name, used[index]))
            status = EXIT_FAILURE;
    free(used);
    return status;
}
