/* Calls every function of the header and checks what it answers and leaves. */
#include <stdlib.h>

#include "check.h"
#include "parts.h"

int main(void)
{
    void (*const parts[])(void) = {codec, tracing, viewing, listed, lines, inputs, reported, mapped, replayed, blocks, ends, names};
    const uint32_t modes[] = {PW_UNWRAPPED, PW_WRAPPING, 2, UINT32_MAX};

    HOLDS(pw_version() == PW_VERSION);
    for (size_t turn = 0; turn < sizeof modes / sizeof modes[0]; turn++) {
        mode = modes[turn];
        for (size_t index = 0; index < sizeof parts / sizeof parts[0]; index++) {
            parts[index]();
            give_back();
        }
    }
    return report() ? EXIT_SUCCESS : EXIT_FAILURE;
}
