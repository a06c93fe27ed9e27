/* Pottagewing: the instructions of the LC86K, tracing through them, and the
 * listing of what was traced, for C and C++.
 *
 * In part a port of wtetzner/waterbear, changed. Licence: Apache-2.0; NOTICE
 * has it whole, and says what was ported.
 *
 * Platform: x86-64, ELF and the System V calling convention, as on Linux. The
 * code is independent of its place, and needs memcpy and memset of the C
 * library. To link it:
 *
 *     cc -I include game.c target/staticlib/libpottagewing.a -o game
 *
 * and once tools/install has put it under a prefix:
 *
 *     cc game.c $(pkg-config --cflags --libs pottagewing) -o game
 *
 * Threads: no call keeps state, and none reads or writes anything but what it
 * is lent. So all may be called from any number of threads at once, as long as
 * what is lent to one call for writing is lent to no other at the same time.
 *
 * Every call but pw_version and pw_replay_open answers a number: 0 where it did
 * what was asked, otherwise the number of the refusal. The values that belong
 * to it stand in answer[0] to answer[4]; those that are not used are 0.
 * `answer` is the answer's own room of PW_VALUES numbers: every call that has
 * it writes all five, also where it refuses, and none reads them.
 *
 * Bytes, and lists of numbers, are lent as a pointer and then how many there
 * are. Every buffer must be at least as long as said, must stay unchanged by
 * others during the call, and must not overlap any other buffer of the same
 * call, `answer` among them. No pointer may be null, also where the number is
 * 0: nothing is read or written through it then.
 *
 * An instruction is passed as the first byte of its form (all 256 bytes name a
 * form, and the bits of operands in that byte do not count) and its operands
 * a, b, c in the order in which they are shown, immediate first in `mov`.
 * Operands that the form does not have are ignored.
 *
 * Calls that use a target are told a mode, as their first argument: 0 is
 * unwrapped, any other number wrapping. Memory has the positions 0 to 65,535.
 * Unwrapped, a short branch may lead below 0 or above 65,535, and control goes
 * on from the last position to 65,536; none of these is inside an image.
 * Wrapping, the address of a short branch and the position after an instruction
 * are taken modulo 65,536 as targets, as a program counter of 16 bits does: 01
 * 80 at 0 leads to 65,410, and a `nop` at 65,535 goes on to 0. What `brf`,
 * `callr`, `jmp`, `call`, `jmpf` and `callf` name is the same in both modes.
 * Where no target leaves 0 to 65,535 the two modes answer and leave the same.
 * Marks do not say in which mode they were made: what looks at them is to be
 * told the same one.
 *
 * Tracing goes over an image, its bytes, and marks, one byte for each position
 * of it: 0 untouched, 1 waiting, 2 traced, 3 a traced `jmpf` whose target is
 * not followed, 4 pinned. A 3 is one with the bytes B8 0D right before it,
 * where the first of these two is traced when the `jmpf` is taken up. A pinned
 * position is never taken up, whatever leads to it; an instruction that begins
 * before it may still cover it. Marks and order lists may be longer than the
 * image; what lies beyond its length is neither read nor written.
 *
 * Views show what marks of any content say, those of a run as well as others.
 * They look through the whole image for damage first: a mark over 4, a 2 or 3
 * on an instruction that the end cuts off, a 3 that is not on a `jmpf`; the
 * lowest is named. They refuse in the order 1, 2, 6, 11, and then their room
 * stays as it was. What they show stands at the beginning of the room; the
 * rest of it stays as it was.
 *
 * A packed map is the mask with one bit for each position, 1 on each byte of a
 * traced instruction: position p is bit p % 64, counted from the lowest, of
 * word p / 64. An image of n bytes needs (n + 63) / 64 words. There may be
 * more; those beyond change no answer and stay as they were.
 *
 * A log from the unit has a line for each executed instruction: `P`, a tab, its
 * position in four hex digits, upper case, and byte 10. A replay adds up over
 * the marks how often each position was executed: for each line, 1 more in the
 * count of its position. There is a count for each position of the image; more
 * of them are neither read nor written. Each position must be traced. The first
 * line is no move. From each line to the next, control comes to a target that
 * the first had in this mode when it was taken up, as in pw_arrivals; failing
 * that, to one of the entries, which is an interrupt; failing that, after a
 * `ret`, a `reti` or a `jmpf` with the mark 3, to any traced position, which is
 * a free move. There is no other move.
 *
 * Stack: pw_listing, pw_list_text, pw_report_text, pw_read_back and
 * pw_unlist_text hold tables for the longest image on the stack, however short
 * the image. A thread that calls pw_listing with arrivals needs a stack of 320
 * KiB, one that calls pw_unlist_text 256 KiB, pw_list_text or pw_report_text
 * 200 KiB, pw_read_back 96 KiB, and pw_listing without arrivals 80 KiB.
 * pw_replay and pw_replay_block hold a table of the entries, and need 16 KiB.
 * With too small a stack the program is ended by a fault, and there is no
 * refusal. All other calls need less than 1 KiB. No call allocates memory.
 *
 * Rooms: where a call refuses with 11 its rooms stay as they were, and
 * answer[0] is how much is needed. So a room of 0 asks how much that is; where
 * nothing is needed, 0 is enough, and the call answers 0. Marks and order lists
 * are none of these rooms: 2 and 3 say how long they are, and needed is the
 * image's length. Each call with a room says what asking tells.
 *
 * The numbers have names, below. The comments of the calls name refusals by
 * their numbers, in the order in which they are judged.
 */
#ifndef POTTAGEWING_H
#define POTTAGEWING_H

#include <stddef.h>
#include <stdint.h>

/* The version of what is declared here: it changes when a call does, or when
 * calls are added. What is linked answers its own by pw_version. */
#define PW_VERSION 6

/* The values of an answer. */
#define PW_VALUES 5

/* The number that a call answers: 0, or that of a refusal, here with its values
 * in answer[0] to answer[2]. 22 is answered by none: pw_report_text prints it,
 * and 13 as well, which pw_list_text prints too. */
#define PW_DONE 0
/* the image is longer than 65,536: its length */
#define PW_LONG_IMAGE 1
/* the marks are shorter than the image: their length */
#define PW_SHORT_MARKS 2
/* the order list is shorter than the image: its length */
#define PW_SHORT_ORDER 3
/* the position is not waiting: its mark, 0 if it is not inside the image */
#define PW_NOT_WAITING 4
/* the instruction is cut off by the end: position, first byte, and how many of
 * its bytes are missing, 1 or 2 */
#define PW_CUT_OFF 5
/* a mark is damaged: its position */
#define PW_DAMAGED 6
/* a number does not fit its field: operand, counted from 1, and the number */
#define PW_UNFIT 7
/* not an address, 0 to 65,535: the number */
#define PW_NO_ADDRESS 8
/* a short offset is not -128 to 127: the offset, in wrapping mode the wrapped
 * one, -32,768 to 32,767 */
#define PW_TOO_FAR 9
/* the top four bits differ: the base's, the address's */
#define PW_OTHER_PAGE 10
/* no room: the number of bytes, of positions, of words or of counts needed; of
 * pw_parse the entries and the bytes */
#define PW_NO_ROOM 11
/* nothing to decode: 0 */
#define PW_NOTHING 12
/* the listing program's input, or an image of a term, is malformed or too
 * long: of an input the first bad line, from 1 */
#define PW_MALFORMED_INPUT 13
/* the base, or the position after the instruction, is over 65,536: that
 * number */
#define PW_PAST_MEMORY 14
/* a line of a listing is malformed or out of order: its number, from 1 */
#define PW_MALFORMED_LINE 15
/* a line of a listing reaches past the image's length: its number */
#define PW_LINE_PAST_END 16
/* the stretch or the position is not inside the image, the stretch is turned
 * round, or an update at a position that is not traced: the position, or the
 * stretch's start */
#define PW_OUTSIDE 17
/* a line of a log is malformed: its number, from 1 */
#define PW_MALFORMED_LOG 18
/* a line's position is not traced: the line's number */
#define PW_NOT_TRACED 19
/* the move to a line's position is not allowed: the line's number */
#define PW_FORBIDDEN_MOVE 20
/* a count would pass 64 bits: the line's number */
#define PW_COUNT_FULL 21
/* a sum of a term report would pass 64 bits */
#define PW_SUM_FULL 22

/* The mode of calls that use a target. */
#define PW_UNWRAPPED 0
#define PW_WRAPPING 1

/* Marks. */
#define PW_UNTOUCHED 0
#define PW_WAITING 1
#define PW_TRACED 2
/* a traced `jmpf` whose target is not followed */
#define PW_FLASH 3
/* kept off the trace */
#define PW_PINNED 4

/* How a run ended, in answer[0]. */
#define PW_STOPPED 0
#define PW_FINISHED 1

/* The letter in answer[0] of pw_read_line where no line is left. */
#define PW_NO_LINE 0

/* The choice of pw_listing. */
#define PW_ARRIVALS_DECLINED 0
#define PW_ARRIVALS_CHOSEN 1

/* Limits: the longest image, the highest address and base, the longest
 * instruction, the longest run of data, the most overlaps, and the bits of a
 * map's word. */
#define PW_IMAGE_LIMIT 65536
#define PW_HIGHEST_ADDRESS 65535
#define PW_HIGHEST_BASE 65536
#define PW_INSTRUCTION_LENGTH 3
#define PW_RUN_LENGTH 16
#define PW_MOST_OVERLAPS 3
#define PW_WORD_BITS 64

/* The numbers of a record that pw_replay_open makes, and which is which: the
 * lines, the interrupts and the free moves so far, the position of the last
 * line, the refusal or PW_DONE, how many bytes of a line that has only begun
 * are held, and those bytes, the first lowest. */
#define PW_REPLAY_WORDS 7
#define PW_REPLAY_LINES 0
#define PW_REPLAY_INTERRUPTS 1
#define PW_REPLAY_FREE 2
#define PW_REPLAY_LAST 3
#define PW_REPLAY_REFUSAL 4
#define PW_REPLAY_HELD 5
#define PW_REPLAY_PART 6

/* The numbers of a place in a listing, as pw_read_line takes it, and which is
 * which: where in the text the line begins, its number, the position and the
 * letter of the line before it. And the place of the first line, to begin with:
 *
 *     uint64_t place[PW_PLACE_WORDS] = PW_PLACE_START;
 */
#define PW_PLACE_WORDS 4
#define PW_PLACE_AT 0
#define PW_PLACE_LINE 1
#define PW_PLACE_LAST 2
#define PW_PLACE_LETTER 3
#define PW_PLACE_START {0, 1, 0, 0}

/* Room for every listing, for each byte of the image: without `A` lines, and
 * with them; and the longest `I` line, its byte 10 counted. */
#define PW_LISTING_ROOM 60
#define PW_ARRIVALS_ROOM 77
#define PW_CODE_LINE_MOST 31

/* What pw_list_text and pw_parse take, and pw_report_text of each image:
 * entries, bytes on a line, bytes in all; and room for all that pw_list_text
 * prints, and for all that pw_unlist_text does. */
#define PW_MOST_ENTRIES 256
#define PW_MOST_IN_LINE 32
#define PW_MOST_BYTES 16384
#define PW_PRINTED_ROOM 983040
#define PW_UNLISTED_ROOM 133120

/* The longest name of an image in a term. */
#define PW_LONGEST_NAME 32

/* The forms, in answer[0] of pw_decode and pw_resolve: the mnemonic, and where
 * it has several forms, what the operand that tells them apart is: I8 an
 * immediate, D9 a direct address, RI and RJ a register. */
#define PW_FORMS 70
enum pw_form {
    PW_FORM_ADD_I8, PW_FORM_ADD_D9, PW_FORM_ADD_RI, PW_FORM_ADDC_I8,
    PW_FORM_ADDC_D9, PW_FORM_ADDC_RI, PW_FORM_SUB_I8, PW_FORM_SUB_D9,
    PW_FORM_SUB_RI, PW_FORM_SUBC_I8, PW_FORM_SUBC_D9, PW_FORM_SUBC_RI,
    PW_FORM_INC_D9, PW_FORM_INC_RI, PW_FORM_DEC_D9, PW_FORM_DEC_RI, PW_FORM_MUL,
    PW_FORM_DIV, PW_FORM_AND_I8, PW_FORM_AND_D9, PW_FORM_AND_RI, PW_FORM_OR_I8,
    PW_FORM_OR_D9, PW_FORM_OR_RI, PW_FORM_XOR_I8, PW_FORM_XOR_D9,
    PW_FORM_XOR_RI, PW_FORM_ROL, PW_FORM_ROLC, PW_FORM_ROR, PW_FORM_RORC,
    PW_FORM_LD_D9, PW_FORM_LD_RI, PW_FORM_ST_D9, PW_FORM_ST_RI, PW_FORM_MOV_D9,
    PW_FORM_MOV_RJ, PW_FORM_LDC, PW_FORM_PUSH, PW_FORM_POP, PW_FORM_XCH_D9,
    PW_FORM_XCH_RI, PW_FORM_JMP, PW_FORM_JMPF, PW_FORM_BR, PW_FORM_BRF,
    PW_FORM_BZ, PW_FORM_BNZ, PW_FORM_BP, PW_FORM_BPC, PW_FORM_BN,
    PW_FORM_DBNZ_D9, PW_FORM_DBNZ_RI, PW_FORM_BE_I8, PW_FORM_BE_D9,
    PW_FORM_BE_RJ, PW_FORM_BNE_I8, PW_FORM_BNE_D9, PW_FORM_BNE_RJ, PW_FORM_CALL,
    PW_FORM_CALLF, PW_FORM_CALLR, PW_FORM_RET, PW_FORM_RETI, PW_FORM_CLR1,
    PW_FORM_SET1, PW_FORM_NOT1, PW_FORM_NOP, PW_FORM_LDF, PW_FORM_STF
};

#ifdef __cplusplus
extern "C" {
#endif

/* The version of what is linked: PW_VERSION of the header that belongs to it.
 * Another number means that this header declares other calls than are there.
 */
uint32_t pw_version(void);

/* The instruction at the beginning of n bytes.
 * 0: form, an enum pw_form, size in bytes, 1 to 3, and the three operands, 0
 *    where there is none. Bytes after the instruction are ignored.
 * 12 where n is 0; 5 with position 0, the first byte and how many are missing.
 */
uint32_t pw_decode(const uint8_t *bytes, size_t n, int64_t answer[PW_VALUES]);

/* The bytes of an instruction, written to the beginning of out, which has room
 * for n. Operands are fields: short offsets -128 to 127, `jmp` and `call` 0 to
 * 4,095, sixteen-bit fields 0 to 65,535, immediates 0 to 255, direct addresses
 * 0 to 511, bit numbers 0 to 7, registers 0 to 3.
 * 0: the number of bytes written; the rest of out stays as it was.
 * 7, then 11 with the instruction's size: out stays as it was. So a room of 0
 * asks for the size, 1 to 3.
 */
uint32_t pw_encode(uint8_t first, int32_t a, int32_t b, int32_t c,
                   uint8_t *out, size_t n, int64_t answer[PW_VALUES]);

/* The fields of an instruction whose operands are plain numbers: addresses for
 * jumps, calls and branches. base is the address after the instruction. The
 * offset of a short branch is the address less base; in wrapping mode that is
 * brought to -32,768 to 32,767 modulo 65,536 before it is judged: a `br` to 5
 * at base 65,534 has the offset 7.
 * 0: form, size in bytes, and the three fields, as pw_encode takes them. What
 *    is taken unwrapped is answered alike in wrapping mode.
 * 14 first, for base as it is given, then the operands in the order shown: 7,
 * 8, 9, 10. An address is wrapped in neither mode.
 */
uint32_t pw_resolve(uint32_t mode, uint8_t first, int32_t a, int32_t b,
                    int32_t c, uint32_t base, int64_t answer[PW_VALUES]);

/* The positions to which control may go from an instruction at a position.
 * Operands are fields, as pw_encode takes them.
 * 0: how many (0 to 2), then the targets, 0 where there is none: where a jump,
 *    branch or call leads, then the position after the instruction, if control
 *    can go there. Unwrapped, a short branch may lead below 0 or above 65,535,
 *    and the position after the instruction may be 65,536. Wrapping, each of
 *    them is 0 to 65,535.
 * 14 with the position after the instruction, unwrapped in both modes; then 7.
 */
uint32_t pw_targets(uint32_t mode, uint32_t position, uint8_t first, int32_t a,
                    int32_t b, int32_t c, int64_t answer[PW_VALUES]);

/* Clears the marks of the image, sets 4 at the pins inside it and 1 at the
 * entries inside it that are not pinned. Repeated entries count once; pins may
 * be repeated too, and pins_length may be 0.
 * 0: the number of positions set to 1.
 * 1, then 2: the marks stay as they were.
 */
uint32_t pw_start(const uint8_t *image, size_t image_length,
                  uint8_t *marks, size_t marks_length,
                  const uint32_t *entries, size_t entries_length,
                  const uint32_t *pins, size_t pins_length,
                  int64_t answer[PW_VALUES]);

/* Takes up one waiting position: its mark becomes 2 or 3, and each of its
 * targets inside the image that was untouched becomes waiting.
 * 0: the new mark, and how many positions became waiting.
 * 1, 2, 4, 6 at the position, 5, 6 at the position two before (read only for a
 * `jmpf` after B8 0D), 6 at the targets in their order: the marks stay as they
 * were.
 */
uint32_t pw_step(uint32_t mode, const uint8_t *image, size_t image_length,
                 uint8_t *marks, size_t marks_length,
                 uint32_t position, int64_t answer[PW_VALUES]);

/* Starts afresh, as pw_start does, and takes positions up first come, first
 * served, for at most `limit` steps. The order list gets each position noted,
 * in the order in which they came; the rest of it stays as it was.
 * 0: 1 where nothing was left waiting or 0 where the limit stopped it, the
 *    number of steps (as many positions have the mark 2 or 3), and the number
 *    of positions noted.
 * 1, 2, 3: marks and order list stay as they were. 5: what was written before
 * the cut-off instruction was met remains.
 */
uint32_t pw_run(uint32_t mode, const uint8_t *image, size_t image_length,
                uint8_t *marks, size_t marks_length,
                uint32_t *order, size_t order_length,
                const uint32_t *entries, size_t entries_length,
                const uint32_t *pins, size_t pins_length,
                uint32_t limit, int64_t answer[PW_VALUES]);

/* A second tracer, plain enough to be followed on paper. Starts afresh, as
 * pw_start does, and sweeps the marks upward: it takes up, as pw_step does,
 * each waiting position that it meets, but for those whose instruction is cut
 * off. What becomes waiting further up is met by the same sweep, what becomes
 * waiting behind by the next. It ends with the sweep that takes up none.
 * 0: the number of sweeps, that last one counted, and the number of steps (as
 *    many positions have the mark 2 or 3). A position left waiting is cut off.
 *    In an image without B8 0D 21 in succession the marks are those of pw_run
 *    in the same mode where that finishes, and a position is left waiting
 *    exactly where pw_run with a limit of at least the image's length answers
 *    5. In other images the marks may be others than a run's, since the order
 *    is another.
 * 1, then 2: the marks stay as they were.
 * There is at most one sweep more than the image has bytes. Each goes over the
 * positions between which something waits, at worst over the whole image: where
 * each of many sweeps leaves something at both ends, this takes long.
 */
uint32_t pw_sweep(uint32_t mode, const uint8_t *image, size_t image_length,
                  uint8_t *marks, size_t marks_length,
                  const uint32_t *entries, size_t entries_length,
                  const uint32_t *pins, size_t pins_length,
                  int64_t answer[PW_VALUES]);

/* The byte mask: 1 on each byte of a traced instruction, 0 on all others.
 * 0: the number of bytes written, which is the image's length.
 * 1, 2, 6, 11. A room of 0 asks for that length.
 */
uint32_t pw_mask(const uint8_t *image, size_t image_length,
                 const uint8_t *marks, size_t marks_length,
                 uint8_t *mask, size_t mask_length, int64_t answer[PW_VALUES]);

/* Target marks: 1 at each position that a traced jump, branch or call names, 0
 * at all others. A `jmpf` right after B8 0D names nothing where the first of
 * these two bytes is traced in the marks, whatever its own mark.
 * 0: the number of bytes written, which is the image's length.
 * 1, 2, 6, 11. A room of 0 asks for that length.
 */
uint32_t pw_target_marks(uint32_t mode,
                         const uint8_t *image, size_t image_length,
                         const uint8_t *marks, size_t marks_length,
                         uint8_t *room, size_t room_length,
                         int64_t answer[PW_VALUES]);

/* Overlaps at a traced position: the one before it, if that is traced and its
 * instruction has two bytes or three, then the traced ones after it up to the
 * last byte of its instruction. None at any other position.
 * 0: the number of positions written, 0 to 3.
 * 1, 2, 6, 11. A room of 0 asks how many there are.
 */
uint32_t pw_overlaps(const uint8_t *image, size_t image_length,
                     const uint8_t *marks, size_t marks_length,
                     uint32_t position, uint32_t *room, size_t room_length,
                     int64_t answer[PW_VALUES]);

/* Arrivals at a position, upward: the traced positions that had it among their
 * targets in this mode when they were taken up, of which those with the mark 3
 * had none. None at a position outside the image.
 * 0: the number of positions written, at most the image's length.
 * 1, 2, 6, 11. A room of 0 asks how many there are.
 */
uint32_t pw_arrivals(uint32_t mode, const uint8_t *image, size_t image_length,
                     const uint8_t *marks, size_t marks_length,
                     uint32_t position, uint32_t *room, size_t room_length,
                     int64_t answer[PW_VALUES]);

/* The data run at a position: up to 16 bytes of the image from there on, which
 * end before a byte whose mask is not 0. Bytes that the mask does not have
 * count as masked. An image may be of any length here.
 * 0, always: the number of bytes, 0 where the position is past the image.
 */
uint32_t pw_data_run(const uint8_t *image, size_t image_length,
                     const uint8_t *mask, size_t mask_length,
                     uint32_t position, int64_t answer[PW_VALUES]);

/* The listing, as text: upward by position, fields parted by tabs, each line
 * ended by byte 10. At a traced position: `L` if a traced jump, branch or call
 * names it, `O` with its overlaps, `A` with its arrivals, then `I` with its
 * bytes, mnemonic and operands, a `?` for a target that is not 0 to 65,535,
 * which no target is in wrapping mode. Bytes that no traced instruction has
 * stand in `D` lines of up to 16, left out where all are 0.
 * arrivals: PW_ARRIVALS_DECLINED leaves the `A` lines out, any other number
 * shows them. (The library's own call that takes no choice shows them; here one
 * is always made.)
 * A room of PW_LISTING_ROOM bytes for each byte of the image holds every
 * listing without `A` lines, and one of PW_ARRIVALS_ROOM every listing with
 * them; a shorter one costs a second walk, by which what is needed is known
 * first.
 * 0: the number of bytes written. No byte 0 follows them.
 * 1, 2, 6, 11. A room of 0 asks how many bytes there are.
 */
uint32_t pw_listing(uint32_t mode, const uint8_t *image, size_t image_length,
                    const uint8_t *marks, size_t marks_length,
                    uint32_t arrivals, uint8_t *room, size_t room_length,
                    int64_t answer[PW_VALUES]);

/* One `I` line by itself, ended by byte 10: the one that pw_listing has in this
 * mode where n bytes at a position begin with an instruction. No image and no
 * marks are asked for; bytes after the instruction are ignored.
 * 0: the number of bytes written, at most PW_CODE_LINE_MOST. No byte 0 follows
 *    them; the rest of the room stays as it was.
 * 12 and 5 as pw_decode has them, 14 with the position after the instruction,
 * unwrapped in both modes, 11: the room stays as it was. A room of 0 asks how
 * many bytes there are.
 */
uint32_t pw_code_line(uint32_t mode, uint32_t position,
                      const uint8_t *bytes, size_t n,
                      uint8_t *room, size_t room_length,
                      int64_t answer[PW_VALUES]);

/* What the listing program prints for an input text. Its first line has up to
 * 256 entries, four hex digits each, parted by tabs; each further line has 1 to
 * 32 bytes of the image, two hex digits each, and all of them up to 16,384.
 * Digits are upper case. Each line ends with byte 10, which the last may lack.
 * Printed is the listing in unwrapped mode with arrivals declined; or one line
 * of `R`, a tab and 13 where the text is not of this kind, or 5 where an
 * instruction is cut off, and then a tab and how many of its bytes are missing,
 * 1 or 2.
 * 0: the number of bytes written, also where they are an `R` line.
 * 11, and no other. A room of 0 asks how many bytes there are; one of
 * PW_PRINTED_ROOM is always enough.
 */
uint32_t pw_list_text(const uint8_t *text, size_t text_length,
                      uint8_t *room, size_t room_length,
                      int64_t answer[PW_VALUES]);

/* Takes an input of pw_list_text apart: the entries of its first line go to the
 * beginning of entries, the bytes of all others to the beginning of image. The
 * rest of both stays as it was.
 * 0: how many entries, and how many bytes. A text of no bytes has none of both.
 * 13 with the first bad line, from 1; 11 with the entries and the bytes needed,
 * where either room is too short: both stay as they were. Two rooms of 0 ask
 * for both; PW_MOST_ENTRIES and PW_MOST_BYTES are always enough.
 */
uint32_t pw_parse(const uint8_t *text, size_t text_length,
                  uint32_t *entries, size_t entries_length,
                  uint8_t *image, size_t image_length,
                  int64_t answer[PW_VALUES]);

/* What the term report prints of a text of images. An image is a line of `N`, a
 * tab and a name of 1 to 32 letters or digits, then the lines that pw_list_text
 * takes; but a line of no entries is `-`. It ends with an empty line, or with
 * the text; further empty lines are skipped, and an `N` line alone is an empty
 * image. Each is run in unwrapped mode without pins, its length the limit.
 * Printed is a line for each, parted by tabs, in decimal: its name, its length,
 * the steps, the code bytes, the data bytes, the bytes under more than one
 * traced instruction, each counted once, and the target marks; or its name, `R`
 * and 13 where one of its lines is not of this kind, or 5 where an instruction
 * is cut off. A bad line is skipped with all up to the next empty line; where
 * it is the `N` line, the name is `-`. A last line has `T`, the six sums over
 * the images that are not refused, how many these are, and how many are
 * refused. Where one of the eight would pass 64 bits, a line of `R` and 22
 * stands in the place of that image's line, and is the last.
 * 0: the number of bytes written, also where they are `R` lines. A text of no
 *    bytes has a `T` line of zeros.
 * 11, and no other. A room of 0 asks how many bytes there are.
 */
uint32_t pw_report_text(const uint8_t *text, size_t text_length,
                        uint8_t *room, size_t room_length,
                        int64_t answer[PW_VALUES]);

/* Reads a listing back: puts the bytes of an image of `length` to the beginning
 * of image, and their marks to the beginning of marks. Where nothing is listed
 * the byte is 0; the mark is 2 where an `I` line stands and 0 elsewhere. The
 * rest of both stays as it was. What pw_listing wrote in the same mode, with or
 * without `A` lines, gives the same image back, and the same marks but for 1
 * and 4, which become 0, and 3, which becomes 2.
 * Positions may not fall. At one position stand `L`, `O`, `A`, `I` in this
 * order, each at most once, or one `D` of 1 to 16 bytes alone. An `I` line is
 * the one that pw_listing writes in this mode for its bytes at its position; of
 * `L`, `O` and `A` only the form counts. Bytes that contradict an earlier line
 * make theirs malformed. The last line may lack its byte 10.
 * 0: the number of lines read.
 * 1 with `length`, 2, 11 with `length`; then the first bad line, 15 before 16.
 * On any of these image and marks stay as they were. A room of 0 for the image
 * asks for no more than `length`, and the text is not looked at.
 */
uint32_t pw_read_back(uint32_t mode, const uint8_t *text, size_t text_length,
                      uint32_t length, uint8_t *image, size_t image_length,
                      uint8_t *marks, size_t marks_length,
                      int64_t answer[PW_VALUES]);

/* Reads one line of a listing, the one that begins at a place. Place and text
 * are all that it looks at, so a place may be copied, and reading gone on with
 * from it at any time over the same text. Lines are judged as in pw_read_back,
 * but that there is no image: no line contradicts an earlier one, and none
 * reaches past a length.
 * 0: the letter, `L`, `O`, `A`, `I` or `D`, the position, and how many further
 *    (`O`, `A`) or bytes (`I`, `D`) follow it, 0 after `L`; the place becomes
 *    that of the next line. Where no line begins at the place or after it:
 *    PW_NO_LINE, 0, 0, and the place stays as it was.
 * 15 with the line's number: the place stays as it was.
 * Other numbers than a call left there are taken for a place too, and give some
 * answer and no fault. Of one that is too large for its kind the lower bits
 * count: 63 of a line's number, 32 of a position, 8 of a letter. A letter that
 * begins no line says that there is no line before.
 */
uint32_t pw_read_line(uint32_t mode, const uint8_t *text, size_t text_length,
                      uint64_t place[PW_PLACE_WORDS],
                      int64_t answer[PW_VALUES]);

/* What the program unlist prints for a listing of an image of `length` bytes,
 * read back in unwrapped mode: the image in lines of 32 bytes, the last of 1 to
 * 32, two hex digits each, as pw_list_text takes them after its first line; or
 * one line of `R`, a tab, the number that pw_read_back has, 1, 15 or 16, a tab
 * and its value.
 * 0: the number of bytes written, also where they are an `R` line.
 * 11, and no other. A room of 0 asks how many bytes there are; one of
 * PW_UNLISTED_ROOM is always enough.
 */
uint32_t pw_unlist_text(const uint8_t *text, size_t text_length,
                        uint32_t length, uint8_t *room, size_t room_length,
                        int64_t answer[PW_VALUES]);

/* The packed map, built from the marks into the beginning of words. Bits past
 * the image in the last word needed become 0; further words stay as they were.
 * 0: the number of words written.
 * 1, 2, 6, 11 with the number of words needed: the words stay as they were. A
 * room of 0 asks for that number.
 */
uint32_t pw_map_build(const uint8_t *image, size_t image_length,
                      const uint8_t *marks, size_t marks_length,
                      uint64_t *words, size_t words_length,
                      int64_t answer[PW_VALUES]);

/* The three queries take the words and the image's length, and answer by the
 * bits as lent: over words that pw_map_build wrote, and pw_map_update kept up,
 * as the mask would; over other words by what stands there. Bits past the
 * image do not count. To lend 0 words asks how many `length` needs.
 *
 * Whether a position is code.
 * 0: 1 where its bit is 1, otherwise 0.
 * 1 with `length`, 11 with the number of words needed, 17 with the position
 * where it is not below `length`.
 */
uint32_t pw_map_test(const uint64_t *words, size_t words_length,
                     uint32_t length, uint32_t position,
                     int64_t answer[PW_VALUES]);

/* The code bytes of a stretch, from `begin` on and before `end`, which may be
 * `length`.
 * 0: how many. A stretch of no bytes has 0.
 * 1 with `length`, 11 with the number of words needed, 17 with `begin` where
 * `end` is below `begin` or above `length`.
 */
uint32_t pw_map_count(const uint64_t *words, size_t words_length,
                      uint32_t length, uint32_t begin, uint32_t end,
                      int64_t answer[PW_VALUES]);

/* The first data byte at a position or after it.
 * 0: its position; `length` where no data byte is left.
 * 1 with `length`, 11 with the number of words needed, 17 with the position
 * where it is not below `length`.
 */
uint32_t pw_map_first_data(const uint64_t *words, size_t words_length,
                           uint32_t length, uint32_t position,
                           int64_t answer[PW_VALUES]);

/* Keeps the map up after a step: sets the bits of the instruction at the
 * position that was taken up, over the marks as the step left them. A map built
 * before the step is then the one that pw_map_build would write.
 * 0: the number of bits set, which is the instruction's size, 1 to 3.
 * 1, 2, 6, 11 with the number of words needed, 17 with the position where it is
 * not inside the image or not traced: the words stay as they were. A room of 0
 * asks for that number of words.
 */
uint32_t pw_map_update(const uint8_t *image, size_t image_length,
                       const uint8_t *marks, size_t marks_length,
                       uint64_t *words, size_t words_length,
                       uint32_t position, int64_t answer[PW_VALUES]);

/* Replays a whole log, the text. Entries may be repeated; one that is not
 * traced allows nothing. No text is a log of 0 lines.
 * 0: the lines, the interrupts and the free moves. The counts have grown by
 *    that many lines.
 * 1, 2, 6, 11 with the image's length where there are fewer counts; then the
 * first bad line, with its number: 18, 19, 20, 21, in this order for a line. A
 * last line without its byte 10 is 18. On any of these the counts stay as they
 * were. A room of 0 counts asks for the image's length.
 */
uint32_t pw_replay(uint32_t mode, const uint8_t *text, size_t text_length,
                   const uint8_t *image, size_t image_length,
                   const uint8_t *marks, size_t marks_length,
                   const uint32_t *entries, size_t entries_length,
                   uint64_t *counts, size_t counts_length,
                   int64_t answer[PW_VALUES]);

/* A log that arrives in blocks is replayed with a record, PW_REPLAY_WORDS
 * numbers of the caller's, and no more of the log is kept than it holds. A
 * record is all that one call hands on to the next: it may be copied and moved,
 * and it holds no pointer. What its numbers say may be read; other numbers than
 * a call left there give some answer, and no fault.
 *
 * Makes a record from which the first block is taken.
 */
void pw_replay_open(uint64_t record[PW_REPLAY_WORDS]);

/* Takes the next block of the log, of any bytes or none, cut anywhere. The rest
 * is lent again with each block. Where it is the same with each, the mode too,
 * and the counts as the last call left them, the answer to the whole log and
 * the counts are those of pw_replay; but of a refused log the counts hold the
 * lines before the refused one. A line is judged at its byte 10 or its seventh
 * byte.
 * 0: the lines, the interrupts and the free moves of all blocks up to this one;
 *    a line that has only begun is not among them. They stop at 2^63 - 1.
 * First a refusal that the record holds, of a line in an earlier block: it is
 * answered again, and nothing changes. Then 1, 2, 6, 11 with the image's
 * length: they refuse this block alone, nothing changes, the record neither,
 * and the block may be lent again. Then the first bad line, with its number in
 * the log: 18, 19, 20, 21. The record holds that refusal from then on. A room
 * of 0 counts asks for the image's length, where no refusal is held.
 */
uint32_t pw_replay_block(uint32_t mode, uint64_t record[PW_REPLAY_WORDS],
                         const uint8_t *text, size_t text_length,
                         const uint8_t *image, size_t image_length,
                         const uint8_t *marks, size_t marks_length,
                         const uint32_t *entries, size_t entries_length,
                         uint64_t *counts, size_t counts_length,
                         int64_t answer[PW_VALUES]);

/* What the log came to, after its last block. The record stays as it was, and
 * nothing else is lent.
 * 0: the lines, the interrupts and the free moves of the log.
 * 18, 19, 20, 21: the refusal that the record holds; 18, too, with its number,
 * where the last line lacks its byte 10.
 */
uint32_t pw_replay_close(const uint64_t record[PW_REPLAY_WORDS],
                         int64_t answer[PW_VALUES]);

#ifdef __cplusplus
}
#endif

#endif
