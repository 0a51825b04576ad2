/* What the run and the desk share of the paper: limits, commands, status words, tags, and how
 * numbers, lengths and a call's answer are written. */
#ifndef RULES_H
#define RULES_H

#include <stdbool.h>
#include <stddef.h>
#include <stdint.h>

#if __STDC_HOSTED__
#include <string.h>
#else /* -ffreestanding: the few functions, declared by hand */
void *memcpy(void *restrict to, const void *restrict from, size_t n);
void *memset(void *at, int byte, size_t n);
int memcmp(const void *a, const void *b, size_t n);
#endif

enum {
    MOST_SCRIPT = 1024,
    MOST_READ = 256,
    MOST_PATH = 16, /* 8 identifiers */
    HEADER_SIZE = 5
};

enum { COMPACT = 0, EXPANDED = 1, DETECT = 2 };

enum {
    SELECT = 0xA4, READ_BINARY = 0xB0, UPDATE_BINARY = 0xD6, READ_RECORD = 0xB2,
    UPDATE_RECORD = 0xDC, SEARCH = 0xA2, INCREASE = 0x32, DEACTIVATE = 0x04,
    ACTIVATE = 0x44, GET_RESPONSE = 0xC0
};

enum { BY_IDENTIFIER = 0x00, PATH_FROM_ROOT = 0x08, PATH_FROM_DIRECTORY = 0x09 };
enum { WITH_FCP = 0x04, NO_DATA = 0x0C };
enum { NEXT = 0x02, PREVIOUS = 0x03, ABSOLUTE = 0x04 };
enum { FORWARD = 0x04, BACKWARD = 0x05 };

/* The status words. */
enum {
    NO_FAULT = 0x0000, /* no status word: go on with the next check */
    WELL = 0x9000, SHORT_OR_NONE = 0x6282, WELL_DEACTIVATED = 0x6283, WAITS = 0x6100,
    JOURNAL_FULL = 0x6581, WRONG_LENGTH = 0x6700, WRONG_KIND = 0x6981,
    NOT_ALLOWED = 0x6982, IS_DEACTIVATED = 0x6984, NOT_NOW = 0x6985, NO_FILE_CURRENT = 0x6986,
    NOT_FOUND = 0x6A82, NO_RECORD = 0x6A83, WRONG_P1P2 = 0x6A86, WRONG_OFFSET = 0x6B00,
    UNKNOWN_INSTRUCTION = 0x6D00, WRONG_CLASS = 0x6E00, NO_ROOM = 0x6F00, SUM_TOO_LONG = 0x9850
};

/* The tags of a script and of its answer; 80 in the place of a length; the codes of a Bad format
 * TLV, 0 being none. */
enum {
    TAG_AA = 0xAA, TAG_AB = 0xAB, TAG_AF = 0xAF, TAG_C_APDU = 0x22, TAG_R_APDU = 0x23,
    TAG_COUNT = 0x80, TAG_BAD_FORMAT = 0x90
};
enum { INDEFINITE = 0x80 };
enum { IS_LENGTH = 0, OTHER_TAG = 1, BAD_LENGTH = 2, NO_LENGTH = 3 };

/* "Numbers are big-endian." */
static inline unsigned number_at(const uint8_t *at) { return (unsigned)at[0] << 8 | at[1]; }

/* Writes such a number. */
static inline void put_number(uint8_t *at, unsigned number)
{
    at[0] = (uint8_t)(number >> 8);
    at[1] = (uint8_t)number;
}

/* The bytes of a length in shortest form. */
static inline size_t length_size(size_t length)
{
    return length < 0x80 ? 1 : length < 0x100 ? 2 : 3;
}

/* Writes a length in shortest form; answers the place behind it. */
static inline uint8_t *put_length(uint8_t *at, size_t length)
{
    if (length >= 0x100) {
        *at++ = 0x82;
        *at++ = (uint8_t)(length >> 8);
    } else if (length >= 0x80) {
        *at++ = 0x81;
    }
    *at++ = (uint8_t)length;
    return at;
}

/* "9000, 6282, 6283 and 61xx go on; every other word stops the script." */
static inline bool goes_on(unsigned word)
{
    return word == WELL || word == SHORT_OR_NONE || word == WELL_DEACTIVATED ||
           (word & 0xFF00) == WAITS;
}

/* What a call answers, as second.h has it. */
static inline uint64_t answer_of(unsigned number, uint32_t count, size_t length)
{
    return number | (uint64_t)count << 8 | (uint64_t)length << 32;
}

#endif
