/* What the tests share: cards, calls on exactly lent memory, and the checks that hold for
 * every call. Scripts and answers are written in hexadecimal; blanks between digits are free. */
#ifndef TEST_KIT_H
#define TEST_KIT_H

#include <stdbool.h>
#include <stddef.h>
#include <stdint.h>

#include "second.h"

enum { COMPACT = 0, EXPANDED = 1, DETECT = 2 };
enum { SHARED = 0, OPEN = 0x00, CLOSED = 0xFF };
enum { FULL_RESPONSE = 1024 };

/* ---- What scripts and cards are made of ---- */

/* On the worked card: SELECT of 7F10, and by path of each file in it. */
#define SELECT_DF "00A4000C027F10 "
#define SELECT_TRANSPARENT "00A4080C047F106F46 "
#define SELECT_LINEAR "00A4080C047F106F3A "
#define SELECT_CYCLIC "00A4080C047F106F39 "
/* The paper's S. */
#define S SELECT_DF "00A4000C026F46 "
#define FCP_7F10 "620B 82027821 83027F10 8A0105 "

/* Entry 0 of every table. */
#define MF_ENTRY "3F00 00 01 0000 0000 00 00 05 00 00 000000 "
/* A journal entry of kind 1. */
#define MARK "0100000000000000 "

/* Bytes that a test puts together: file memory, or a list's data, with room to be too long. */
struct bytes {
    size_t length;
    uint8_t at[66000];
};

/* A card as it lies on the test's own side; each call gets copies of exactly these lengths. */
struct card_bytes {
    struct bytes table, files, journal;
};

/* A run's answer taken apart, with the whole response memory. */
struct reply {
    unsigned number;
    uint32_t count;
    size_t length;
    uint8_t response[2048];
};

/* ---- Bytes ---- */

/* Each adds at the end. */
void add_hex(struct bytes *to, const char *hex);
void add_byte(struct bytes *to, unsigned byte);
void add_bytes(struct bytes *to, const uint8_t *from, size_t length);
/* Puts these bytes in the place of all. */
void set_hex(struct bytes *to, const char *hex);
/* Whether length and bytes are the same. */
bool same_bytes(const struct bytes *a, const struct bytes *b);
/* Prints bytes in hexadecimal. */
void print_hex(const uint8_t *at, size_t length);

/* ---- Cards ---- */

/* The worked card; `c` is overwritten. */
void worked_card(struct card_bytes *c);
/* A card with this table, file memory of this length filled with (index & 0xFF), journal zero. */
void made_card(struct card_bytes *c, const char *table, size_t files_length);
/* A sound journal with so many marks and exactly `used` bytes; a take-back of it changes no
 * file byte. used - 8 * marks is 0 or at least 9. */
void fill_journal(struct card_bytes *c, unsigned marks, size_t used);

/* ---- Cases ---- */

/* Starts a case; what fails after it is printed under this name, at most one line for each. */
void start_case(const char *name);
/* Each fails the case if it does not hold, if two numbers differ, if length or bytes differ, if the
 * bytes do not begin with the expected ones, or if two cards differ. */
void check(bool holds, const char *what);
void check_number(const char *what, unsigned long expected, unsigned long got);
void check_bytes(const char *what, const uint8_t *expected, size_t expected_length,
                 const uint8_t *got, size_t length);
void check_part(const char *what, const uint8_t *got, const char *expected_hex);
void check_card(const char *what, const struct card_bytes *expected, const struct card_bytes *got);
/* Prints 'second: N cases, M failed' and answers whether M is 0. */
bool report(void);

/* A copy on memory of exactly this length, to be freed; NULL for length 0. */
uint8_t *lend(const uint8_t *from, size_t length);

/* ---- The three calls, on memory of exactly the given lengths ----
 * Each checks what holds always: a refusal has length and count 0 and changes nothing, the
 * response memory behind the answer keeps its content, an accepted run can be taken back to
 * all as before, and the card is sound after it. */
struct reply run(struct card_bytes *c, size_t application, uint8_t domain, uint8_t format,
                 const struct bytes *script, size_t response_length);
unsigned take_back(struct card_bytes *c);
unsigned confirm(struct card_bytes *c);

/* ---- One whole case each; the card is moved on ---- */

/* Compact on shared files, domain 00: the answer; the count is its first byte. */
void compact_on(struct card_bytes *c, const char *name, const char *script, const char *answer);
/* Expanded on shared files, domain 00: the count and the answer. */
void expanded_on(struct card_bytes *c, const char *name, const char *script, uint32_t count,
                 const char *answer);
/* As above on a fresh worked card. */
void compact(const char *name, const char *script, const char *answer);
void expanded(const char *name, const char *script, uint32_t count, const char *answer);
/* Any format, application and domain, with the answer as bytes. */
void whole_case(struct card_bytes *c, const char *name, size_t application, uint8_t domain,
                uint8_t format, const struct bytes *script, uint32_t count,
                const struct bytes *answer);
/* Compact with any application and domain. */
void compact_in(struct card_bytes *c, const char *name, size_t application, uint8_t domain,
                const char *script, const char *answer);
/* A run that gives this number. */
void refused(struct card_bytes *c, const char *name, size_t application, uint8_t domain,
             uint8_t format, const char *script, unsigned number);
/* A run, a take-back and a confirmation, each on a copy of the card: number 1 exactly if it is not
 * sound. */
void soundness(struct card_bytes *c, const char *name, bool is_sound);
void unsound(struct card_bytes *c, const char *name);
void sound(struct card_bytes *c, const char *name);

/* Whether a run's script is expanded, by its format or with format 2 by its first byte. */
bool is_expanded(uint8_t format, const struct bytes *script);

/* U and the scripts on trial. */
unsigned used_of(const struct card_bytes *c);
unsigned scripts_of(const struct card_bytes *c);

/* Adds tag 22, the length in shortest form and the C-APDU. */
void add_apdu(struct bytes *to, const char *apdu);
/* Puts AA and the length in front, or AE 80 in front and 00 00 behind. */
void wrap_aa(struct bytes *value);
void wrap_ae(struct bytes *value);

/* ---- The parts of the test, each in the file of its name ---- */
void test_soundness(void);
void test_calls(void);
void test_detect(void);
void test_compact(void);
void test_files(void);
void test_expanded(void);
void test_histories(void); /* in test_random.c */
void test_random(void);
void test_desk(void);
void test_desk_text(void);

#endif
