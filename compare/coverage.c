/* What a run of the comparison must reach: every pair of instruction and status word that the
 * paper allows, in compact and in both templates of expanded, every call number, in every format,
 * and the rest named below. A pair or a number that the paper does not allow is a failure too. */
#include "lists.h"

#include <stdio.h>

enum { WORDS = 19, ROWS = 11, CELL = 5 };

static const uint16_t words[WORDS] = {
    0x9000, 0x6100, 0x6282, 0x6283, 0x6581, 0x6700, 0x6981, 0x6982, 0x6984, 0x6985,
    0x6986, 0x6A82, 0x6A83, 0x6A86, 0x6B00, 0x6D00, 0x6E00, 0x6F00, 0x9850};

/* The pairs that the paper allows: c in compact, e in expanded, b in both. 6700 is there for all,
 * by too few bytes or no case's size. In expanded nothing waits, so there is no 61xx, C0 only
 * fails, and 6F00 is there for all: under AA by a case 2 or 4 that the instruction does not need. */
static const struct {
    const char *ins;
    uint8_t byte;
    const char *allowed;
} rows[ROWS] = {
/*               9000 61xx 6282 6283 6581 6700 6981 6982 6984 6985 6986 6A82 6A83 6A86 6B00 6D00 6E00 6F00 9850 */
    {"A4", 0xA4, "b    c    .    b    .    b    .    b    .    .    .    b    .    b    .    .    b    e    ."},
    {"B0", 0xB0, "b    .    b    .    .    b    b    b    b    c    b    .    .    b    b    .    b    e    ."},
    {"D6", 0xD6, "b    .    .    .    b    b    b    b    b    .    b    .    .    b    b    .    b    e    ."},
    {"B2", 0xB2, "b    .    .    .    .    b    b    b    b    c    b    .    b    b    .    .    b    e    ."},
    {"DC", 0xDC, "b    .    .    .    b    b    b    b    b    .    b    .    b    b    .    .    b    e    ."},
    {"A2", 0xA2, "e    c    b    .    .    b    b    b    b    .    b    .    b    b    .    .    b    e    ."},
    {"32", 0x32, "e    c    .    .    b    b    b    b    b    .    b    .    .    b    .    .    b    e    b"},
    {"04", 0x04, "b    .    .    .    b    b    .    b    .    .    b    .    .    b    .    .    b    e    ."},
    {"44", 0x44, "b    .    .    .    b    b    .    b    .    .    b    .    .    b    .    .    b    e    ."},
    {"C0", 0xC0, "c    .    .    c    .    b    .    .    .    b    .    .    .    b    .    .    b    e    ."},
    {"other", 0, ".    .    .    .    .    b    .    .    .    .    .    .    .    .    .    b    .    e    ."}};

const char *const styles[STYLES] = {"compact", "expanded, AA", "expanded, AE"};

/* Whether the paper allows a pair. */
static bool allowed(enum style style, size_t row, size_t column)
{
    const char cell = rows[row].allowed[column * CELL];

    return cell == 'b' || cell == (style == COMPACT ? 'c' : 'e');
}

/* The numbers of each call, up to the 7: of runs by format, and of those with format 2 by what was
 * found, in the order of the styles. */
enum { NUMBERS = 8 };
enum call_row {
    FORMAT_0, FORMAT_1, FOUND_COMPACT, FOUND_AA, FOUND_AE, NO_BYTE, FORMAT_3, FORMAT_255,
    OTHER_FORMAT, TAKEN_BACK, CONFIRMED, CALL_ROWS
};
static const struct {
    const char *name, *allowed;
} calls[CALL_ROWS] = {[FORMAT_0] = {"format 0", "yyyyyy.."},
                      [FORMAT_1] = {"format 1", "yyyyyyy."},
                      [FOUND_COMPACT] = {"2: compact", "yyyyyy.."},
                      [FOUND_AA] = {"2: AA", "yyyyyyy."},
                      [FOUND_AE] = {"2: AE", "yyyyyyy."},
                      [NO_BYTE] = {"2: no byte", ".yyy...."},
                      [FORMAT_3] = {"format 3", ".yy....."},
                      [FORMAT_255] = {"format 255", ".yy....."},
                      [OTHER_FORMAT] = {"format other", ".yy....."},
                      [TAKEN_BACK] = {"take-back", "yy.....y"},
                      [CONFIRMED] = {"confirmation", "yy......"}};

/* First bytes that must be reached with format 2. */
const uint8_t first_bytes[FIRST_BYTES] = {0x00, 0x80, 0xAA, 0xAE, 0x01, 0x22, 0xAB, 0xFF};

enum { CODES = 3, COUNTS = 4, APPLICATIONS = 5 };

/* Counts that must be reached: none, where two bytes begin to be needed, and more. */
static const char *const counts[COUNTS] = {"0", "127", "128", "129 and more"};

/* Applications that must be reached, by the least of each. */
static const struct {
    size_t least;
    const char *name;
} applications[APPLICATIONS] = {{0, "0"},
                                {1, "to 255"},
                                {0x100, "to 2^32 - 1"},
                                {(size_t)UINT32_MAX + 1, "to 2^64 - 2"},
                                {SIZE_MAX, "2^64 - 1"}};

/* How often each was reached. */
static struct {
    unsigned long pairs[STYLES][ROWS][WORDS], numbers[CALL_ROWS][NUMBERS];
    unsigned long first_bytes[FIRST_BYTES];
    unsigned long codes[STYLES][CODES], counts[STYLES][COUNTS], applications[APPLICATIONS];
    unsigned long taken_back, number_5;
} reached;

/* Notes the word of a command; false if the paper does not allow the pair. */
bool note_word(enum style style, uint8_t ins, unsigned word)
{
    size_t row = 0, column = 0;

    if (word >> 8 == 0x61)
        word = 0x6100;
    while (row < ROWS - 1 && rows[row].byte != ins)
        row++;
    while (column < WORDS - 1 && words[column] != word)
        column++;
    reached.pairs[style][row][column]++;
    return words[column] == word && allowed(style, row, column);
}

/* Notes a Bad format TLV; false for an unknown code. */
bool note_bad_format(enum style style, unsigned code)
{
    if (code < 1 || code > CODES)
        return false;
    reached.codes[style][code - 1]++;
    return true;
}

/* Notes a count, if it is one that must be reached. */
void note_count(enum style style, uint32_t count)
{
    reached.counts[style][0] += count == 0;
    reached.counts[style][1] += count == 127;
    reached.counts[style][2] += count == 128;
    reached.counts[style][3] += count > 128;
}

/* Notes a struck-out call: a script that was taken back, or a run refused with number 5. */
void note_struck(bool taken_back)
{
    if (taken_back)
        reached.taken_back++;
    else
        reached.number_5++;
}

/* Notes the application of a run. */
void note_application(size_t application)
{
    size_t i = APPLICATIONS - 1;

    while (application < applications[i].least)
        i--;
    reached.applications[i]++;
}

/* The row of a call. */
static enum call_row row_of(const struct call *call)
{
    if (call->kind != RUN)
        return call->kind == TAKE_BACK ? TAKEN_BACK : CONFIRMED;
    switch (call->format) {
    case RFM_COMPACT:
        return FORMAT_0;
    case RFM_EXPANDED:
        return FORMAT_1;
    case RFM_DETECT:
        return call->script.length == 0 ? NO_BYTE : FOUND_COMPACT + style_found(call);
    case 3:
        return FORMAT_3;
    case 255:
        return FORMAT_255;
    default:
        return OTHER_FORMAT;
    }
}

/* Notes a call's number; false if the call does not give it. */
bool note_number(const struct call *call, unsigned number)
{
    const enum call_row row = row_of(call);

    if (number >= NUMBERS || calls[row].allowed[number] != 'y')
        return false;
    reached.numbers[row][number]++;
    return true;
}

/* Notes the first byte of a script whose style was found by it, if it is one that must be
 * reached. */
void note_first_byte(uint8_t first)
{
    for (size_t i = 0; i < FIRST_BYTES; i++)
        reached.first_bytes[i] += first == first_bytes[i];
}

static size_t missing;

/* Prints how often something was reached; where it never was, that is missing. */
void print_reached(unsigned long times)
{
    missing += times == 0;
    if (times == 0)
        printf(" %6s", "NONE");
    else if (times < 1000000)
        printf(" %6lu", times);
    else
        printf(" %5luk", times / 1000);
}

/* Prints how often each pair was reached. */
static void print_pairs(enum style style)
{
    printf("\n%-12s", styles[style]);
    for (size_t column = 0; column < WORDS; column++)
        if (words[column] == 0x6100)
            printf("   61xx");
        else
            printf("   %04X", words[column]);
    for (size_t row = 0; row < ROWS; row++) {
        printf("\n%-12s", rows[row].ins);
        for (size_t column = 0; column < WORDS; column++) {
            if (allowed(style, row, column))
                print_reached(reached.pairs[style][row][column]);
            else
                printf(" %6s", "-");
        }
    }
    printf("\n");
}

/* Prints how often each call number was reached. */
static void print_numbers(void)
{
    printf("\n%-12s", "number");
    for (unsigned number = 0; number < NUMBERS; number++)
        printf(" %6u", number);
    for (enum call_row row = FORMAT_0; row < CALL_ROWS; row++) {
        printf("\n%-12s", calls[row].name);
        for (unsigned number = 0; number < NUMBERS; number++) {
            if (calls[row].allowed[number] == 'y')
                print_reached(reached.numbers[row][number]);
            else
                printf(" %6s", "-");
        }
    }
    printf("\n");
}

/* Prints how often a script of format 2 was read by each first byte. */
static void print_first_bytes(void)
{
    printf("\n%-12s", "first byte");
    for (size_t i = 0; i < FIRST_BYTES; i++)
        printf("     %02X", first_bytes[i]);
    printf("\n%-12s", "format 2");
    for (size_t i = 0; i < FIRST_BYTES; i++)
        print_reached(reached.first_bytes[i]);
    printf("\n");
}

/* Prints what was reached; answers whether all was. */
bool print_coverage(void)
{
    for (enum style style = COMPACT; style < STYLES; style++)
        print_pairs(style);
    print_numbers();
    print_first_bytes();
    print_lent();
    print_sweep();
    for (enum style style = COMPACT; style < STYLES; style++) {
        printf("\n%-12s", styles[style]);
        for (size_t i = style == COMPACT; i < COUNTS; i++) { /* compact has no empty script */
            printf("  count %s:", counts[i]);
            print_reached(reached.counts[style][i]);
        }
        for (size_t code = 0; code < CODES && style != COMPACT; code++) {
            printf("  bad format %02zu:", code + 1);
            print_reached(reached.codes[style][code]);
        }
    }
    printf("\n%-12s", "application");
    for (size_t i = 0; i < APPLICATIONS; i++) {
        printf("  %s:", applications[i].name);
        print_reached(reached.applications[i]);
    }
    printf("\nstruck out    taken back:");
    print_reached(reached.taken_back);
    printf("  number 5:");
    print_reached(reached.number_5);
    printf("\n");
    print_desk_coverage();
    printf("\n");
    if (missing > 0)
        printf("not reached: %zu\n", missing);
    return missing == 0;
}
