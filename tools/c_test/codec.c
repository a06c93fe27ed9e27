/* Instructions by themselves: decode, encode, resolve, targets. */
#include "check.h"
#include "parts.h"

/* First bytes that name forms. */
enum { FIRST_NOP = 0x00, FIRST_BR = 0x01, FIRST_BRF = 0x11, FIRST_JMPF = 0x21, FIRST_MOV_RJ = 0x24, FIRST_JMP = 0x28, FIRST_BP = 0x68,
       FIRST_BZ = 0x80, FIRST_RET = 0xA0 };

static void decoding(void)
{
    ANSWERS(PW_DONE, pw_decode(BYTES(0xB8, 0x0D), 2, answer), PW_FORM_NOT1, 2, 0x10D, 0);
    ANSWERS(PW_DONE, pw_decode(BYTES(0x01, 0x7F), 2, answer), PW_FORM_BR, 2, 127);
    ANSWERS(PW_DONE, pw_decode(BYTES(0x01, 0x80), 2, answer), PW_FORM_BR, 2, -128);
    ANSWERS(PW_DONE, pw_decode(BYTES(0x23, 0x00, 0x55), 3, answer), PW_FORM_MOV_D9, 3, 0x55, 0x100);
    ANSWERS(PW_DONE, pw_decode(BYTES(0x1F, 0x34), 2, answer), PW_FORM_CALL, 2, 0xF34);
    ANSWERS(PW_DONE, pw_decode(BYTES(0x21, 0x12, 0x34), 3, answer), PW_FORM_JMPF, 3, 0x1234);
    ANSWERS(PW_DONE, pw_decode(BYTES(0x7F, 0x21, 0xFE), 3, answer), PW_FORM_BP, 3, 0x121, 7, -2);
    ANSWERS(PW_DONE, pw_decode(BYTES(0x00, 0xFF, 0xFF, 0xFF), 4, answer), PW_FORM_NOP, 1);
    ANSWERS(PW_NOTHING, pw_decode(NONE(uint8_t), 0, answer), 0);
    ANSWERS(PW_CUT_OFF, pw_decode(BYTES(0x68), 1, answer), 0, 0x68, 2);
    ANSWERS(PW_CUT_OFF, pw_decode(BYTES(0x68, 0x00), 2, answer), 0, 0x68, 1);
    ANSWERS(PW_CUT_OFF, pw_decode(BYTES(0x01), 1, answer), 0, 0x01, 1);
}

static void encoding(void)
{
    uint8_t *room = BYTES(9, 9, 9, 9);

    ANSWERS(PW_DONE, pw_encode(FIRST_BP, 0x121, 7, -2, room, 4, answer), 3);
    LEFT(room, uint8_t, 0x7F, 0x21, 0xFE, 9);
    ANSWERS(PW_DONE, pw_encode(FIRST_NOP, 1, 2, 3, room, 1, answer), 1);
    LEFT(room, uint8_t, 0x00, 0x21, 0xFE, 9);
    ANSWERS(PW_UNFIT, pw_encode(FIRST_BR, 128, 0, 0, room, 4, answer), 1, 128);
    ANSWERS(PW_UNFIT, pw_encode(FIRST_MOV_RJ, 255, -1, 0, room, 0, answer), 2, -1);
    ANSWERS(PW_NO_ROOM, pw_encode(FIRST_BP, 0, 0, 0, room, 2, answer), 3);
    ANSWERS(PW_NO_ROOM, pw_encode(FIRST_NOP, 0, 0, 0, NONE(uint8_t), 0, answer), 1);
    LEFT(room, uint8_t, 0x00, 0x21, 0xFE, 9);
}

static void resolving(void)
{
    ANSWERS(PW_DONE, pw_resolve(mode, FIRST_BRF, 0, 0, 0, 3, answer), PW_FORM_BRF, 3, 0xFFFE);
    ANSWERS(PW_DONE, pw_resolve(mode, FIRST_BR, 129, 0, 0, 2, answer), PW_FORM_BR, 2, 127);
    ANSWERS(PW_DONE, pw_resolve(mode, FIRST_JMP, 0x0FFF, 0, 0, 2, answer), PW_FORM_JMP, 2, 0xFFF);
    ANSWERS(PW_DONE, pw_resolve(mode, FIRST_JMP, 0x0FFF, 0, 0, PW_HIGHEST_BASE, answer), PW_FORM_JMP, 2, 0xFFF);
    ANSWERS(PW_UNFIT, pw_resolve(mode, FIRST_JMP, 65536, 0, 0, 2, answer), 1, 65536);
    ANSWERS(PW_UNFIT, pw_resolve(mode, FIRST_BP, 0, 8, -1, 2, answer), 2, 8);
    ANSWERS(PW_NO_ADDRESS, pw_resolve(mode, FIRST_BR, 65536, 0, 0, 2, answer), 65536);
    ANSWERS(PW_NO_ADDRESS, pw_resolve(mode, FIRST_BRF, -1, 0, 0, 2, answer), -1);
    ANSWERS(PW_TOO_FAR, pw_resolve(mode, FIRST_BR, 130, 0, 0, 2, answer), 128);
    ANSWERS(PW_TOO_FAR, pw_resolve(mode, FIRST_BR, 0, 0, 0, 129, answer), -129);
    ANSWERS(PW_TOO_FAR, pw_resolve(mode, FIRST_BR, 0, 0, 0, 40000, answer), BY_MODE(-40000, 25536));
    ANSWERS(PW_TOO_FAR, pw_resolve(mode, FIRST_BR, 32768, 0, 0, 0, answer), BY_MODE(32768, -32768));
    ANSWERS(PW_TOO_FAR, pw_resolve(mode, FIRST_BR, 128, 0, 0, PW_HIGHEST_BASE, answer), BY_MODE(-65408, 128));
    ANSWERS(PW_OTHER_PAGE, pw_resolve(mode, FIRST_JMP, 0x1000, 0, 0, 2, answer), 0, 1);
    ANSWERS(PW_PAST_MEMORY, pw_resolve(mode, FIRST_JMP, 65536, 0, 0, PW_HIGHEST_BASE + 1, answer), 65537);
    ANSWERS(PW_PAST_MEMORY, pw_resolve(mode, FIRST_NOP, 0, 0, 0, UINT32_MAX, answer), UINT32_MAX);
}

/* Over either end of memory, by the offset that is in wrapping mode 7, -128 and -1. */
static void resolving_over_an_end(void)
{
    if (mode == PW_UNWRAPPED) {
        ANSWERS(PW_TOO_FAR, pw_resolve(mode, FIRST_BR, 5, 0, 0, 65534, answer), -65529);
        ANSWERS(PW_TOO_FAR, pw_resolve(mode, FIRST_BZ, 65410, 0, 0, 2, answer), 65408);
        ANSWERS(PW_TOO_FAR, pw_resolve(mode, FIRST_BP, 0x121, 7, 65535, 0, answer), 65535);
    } else {
        ANSWERS(PW_DONE, pw_resolve(mode, FIRST_BR, 5, 0, 0, 65534, answer), PW_FORM_BR, 2, 7);
        ANSWERS(PW_DONE, pw_resolve(mode, FIRST_BZ, 65410, 0, 0, 2, answer), PW_FORM_BZ, 2, -128);
        ANSWERS(PW_DONE, pw_resolve(mode, FIRST_BP, 0x121, 7, 65535, 0, answer), PW_FORM_BP, 3, 0x121, 7, -1);
    }
}

static void targeting(void)
{
    ANSWERS(PW_DONE, pw_targets(mode, 0, FIRST_BRF, 0x8000, 0, 0, answer), 1, 0x8002);
    ANSWERS(PW_DONE, pw_targets(mode, 0, FIRST_BR, -128, 0, 0, answer), 1, BY_MODE(-126, 65410));
    ANSWERS(PW_DONE, pw_targets(mode, 65534, FIRST_BZ, 127, 0, 0, answer), 2, BY_MODE(65663, 127), BY_MODE(65536, 0));
    ANSWERS(PW_DONE, pw_targets(mode, 65535, FIRST_NOP, 0, 0, 0, answer), 1, BY_MODE(65536, 0));
    ANSWERS(PW_DONE, pw_targets(mode, 65535, FIRST_RET, 0, 0, 0, answer), 0);
    ANSWERS(PW_DONE, pw_targets(mode, 0x0FFE, FIRST_JMP, 0x001, 0, 0, answer), 1, 0x1001);
    ANSWERS(PW_UNFIT, pw_targets(mode, 0, FIRST_BR, 128, 0, 0, answer), 1, 128);
    ANSWERS(PW_PAST_MEMORY, pw_targets(mode, 65535, FIRST_BR, 128, 0, 0, answer), 65537);
    ANSWERS(PW_PAST_MEMORY, pw_targets(mode, UINT32_MAX, FIRST_JMPF, 0, 0, 0, answer), INT64_C(4294967298));
}

void codec(void)
{
    decoding();
    encoding();
    resolving();
    resolving_over_an_end();
    targeting();
}
