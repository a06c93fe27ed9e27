/* Images that several parts are checked on. */
#ifndef SAMPLES_H
#define SAMPLES_H

#include "check.h"

/* A br over two bytes of data, an inc, a bz back to the beginning, a ret; and its marks after a run from 0. */
#define SAMPLE BYTES(0x01, 0x02, 0x00, 0x41, 0x64, 0x80, 0xF9, 0xA0)
#define SAMPLE_LENGTH 8
#define SAMPLE_MARKS BYTES(2, 0, 0, 0, 2, 2, 0, 2)

/* A log over it with the entry 0: to 0, 4, 5 and 7 by targets, free to 5, to 0 and 4 by targets, to 0 by an interrupt, to 4 by a target. */
#define SAMPLE_ENTRIES LIST(uint32_t, 0, 9)
#define SAMPLE_LOG "P\t0000\nP\t0004\nP\t0005\nP\t0007\nP\t0005\nP\t0000\nP\t0004\nP\t0000\nP\t0004\n"
#define SAMPLE_LINES 9, 1, 1
#define SAMPLE_COUNTS 3, 0, 0, 0, 3, 2, 0, 1
#define LINE_LENGTH 7

/* A not1 of 10D, 0 and a jmpf to 0, which is not followed where the not1 is traced. */
#define FLASH BYTES(0xB8, 0x0D, 0x21, 0x00, 0x00)
#define FLASH_LENGTH 5

/* A mov of three bytes over a nop, then a ret; all but the second byte traced. */
#define OVERLAPPING BYTES(0x22, 0x01, 0x00, 0xA0)
#define OVERLAPPING_LENGTH 4
#define OVERLAPPING_MARKS BYTES(2, 0, 2, 2)

/* One byte longer than an image may be, all of them 0. */
extern const uint8_t too_long[PW_IMAGE_LIMIT + 1];
#define TOO_LONG (PW_IMAGE_LIMIT + 1)

#endif
