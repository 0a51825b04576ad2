/* The comparison: the library and the second program on the same cards and the same calls.
 * All is made from one seed, and no expression draws twice in an open order, so that the same
 * seed gives the same calls on every machine. */
#ifndef COMPARE_H
#define COMPARE_H

#include <stdbool.h>
#include <stddef.h>
#include <stdint.h>

#include "rfm_desk.h"

/* ---- The lent card ---- */

enum {
    ENTRY_SIZE = 16, MOST_ENTRIES = 64, MOST_FILES = 32768, MOST_RECORDS = 254,
    JOURNAL_SIZE = 2048, JOURNAL_HEAD = 4, MOST_USED = 2044, MOST_TRIALS = 16, TAIL_SIZE = 8,
    MOST_OLD = 255
};

/* The bytes of a table entry. */
enum {
    AT_PARENT = 2, AT_KIND = 3, AT_START = 4, AT_LENGTH = 6, AT_RECORD_LENGTH = 8, AT_NEWEST = 9,
    AT_STATE = 10, AT_NEVER = 12
};
enum { MF = 1, DF = 2, ADF = 3, TRANSPARENT = 4, LINEAR = 5, CYCLIC = 6 };
enum { DEACTIVATED = 4, ACTIVATED = 5 };
enum { NEVER_READ = 1, NEVER_UPDATE = 2, NEVER_ALL = 31 };
enum { ID_MF = 0x3F00, ID_RESERVED = 0x3FFF, ID_ADF = 0x7FFF };

/* The journal's byte with the scripts on trial, after U; the bytes of an entry's tail, after its
 * kind; the kinds. */
enum { AT_SCRIPTS = 2 };
enum { AT_PLACE = 2, AT_N = 4 };
enum { MARK = 1, FILE_BYTES = 2, TABLE_BYTE = 3 };

/* Bytes behind each memory, for one that is made longer. */
enum { MARGIN = ENTRY_SIZE, MARGIN_BYTE = 0xA5 };

struct memory {
    size_t length;
    uint8_t at[MOST_FILES + 2 * MARGIN];
};

struct card {
    struct memory table, files, journal;
};

/* Reads and writes a number of two bytes. */
static inline unsigned number_at(const uint8_t *at) { return at[0] * 256u + at[1]; }

static inline void put_number(uint8_t *at, size_t number)
{
    at[0] = (uint8_t)(number >> 8);
    at[1] = (uint8_t)number;
}

/* The entries of a table, and the bytes of one: to be written, or not. */
static inline size_t entries_of(const struct card *card) { return card->table.length / ENTRY_SIZE; }

static inline uint8_t *entry_at(struct card *card, size_t number)
{
    return card->table.at + number * ENTRY_SIZE;
}

static inline const uint8_t *entry_of(const struct card *card, size_t number)
{
    return card->table.at + number * ENTRY_SIZE;
}

/* Kinds 1 to 3. */
static inline bool is_directory(const uint8_t *entry) { return entry[AT_KIND] <= ADF; }

/* The records of a record file; 0 for another entry. */
static inline unsigned record_count(const uint8_t *entry)
{
    const unsigned record_length = entry[AT_RECORD_LENGTH];

    return record_length == 0 ? 0 : number_at(entry + AT_LENGTH) / record_length;
}

/* The smaller of two numbers. */
static inline size_t smaller(size_t a, size_t b) { return a < b ? a : b; }

/* ---- Commands ---- */

enum {
    SELECT = 0xA4, READ_BINARY = 0xB0, UPDATE_BINARY = 0xD6, READ_RECORD = 0xB2,
    UPDATE_RECORD = 0xDC, SEARCH = 0xA2, INCREASE = 0x32, DEACTIVATE = 0x04, ACTIVATE = 0x44,
    GET_RESPONSE = 0xC0
};
enum { BY_IDENTIFIER = 0x00, PATH_FROM_ROOT = 0x08, PATH_FROM_DIRECTORY = 0x09 };
enum { WITH_FCP = 0x04, NO_DATA = 0x0C };
enum { NEXT = 0x02, PREVIOUS = 0x03, ABSOLUTE = 0x04, FORWARD = 0x04, BACKWARD = 0x05 };
enum { HEADER_SIZE = 5 };

/* ---- Calls and histories ---- */

enum { MOST_SCRIPT = 1024, LEAST_RESPONSE = 1024, SPARE = 64, MOST_CALLS = 40 };

struct script {
    size_t length;
    uint8_t at[MOST_SCRIPT + SPARE];
};

enum call_kind { RUN, TAKE_BACK, CONFIRM, CALL_KINDS };

/* The calls of one of the two programs, as rfm.h and rfm_desk.h have them. */
typedef uint64_t run_call(uint8_t *, size_t, uint8_t *, size_t, uint8_t *, size_t, size_t, uint8_t,
                          uint8_t, const uint8_t *, size_t, uint8_t *, size_t);
typedef uint64_t card_call(uint8_t *, size_t, uint8_t *, size_t, uint8_t *, size_t);
typedef uint64_t build_call(uint8_t, const uint8_t *, size_t, const uint8_t *, size_t, uint8_t *,
                            size_t);
typedef uint64_t read_call(uint8_t, const uint8_t *, size_t);
typedef uint64_t result_call(uint8_t, const uint8_t *, size_t, size_t);

struct program {
    run_call *run;
    card_call *take_back, *confirm;
    build_call *build;
    read_call *read_answer;
    result_call *result;
};

/* rfm_confirm as such a call: it is lent table and files to be read only. */
static inline uint64_t library_confirm(uint8_t *table, size_t table_length, uint8_t *files,
                                       size_t files_length, uint8_t *journal,
                                       size_t journal_length)
{
    return rfm_confirm(table, table_length, files, files_length, journal, journal_length);
}

struct call {
    enum call_kind kind;
    size_t application;
    uint8_t domain, format;
    struct script script;
    size_t response_length; /* at most LEAST_RESPONSE + SPARE */
    unsigned pages;         /* a bit for each lent memory: its page is behind it */
};

struct answer {
    uint64_t result;
    const char *outside; /* what was touched or changed that was not lent, or NULL */
    bool script_kept;
    uint8_t response[LEAST_RESPONSE + SPARE];
};

struct history {
    struct card start;
    size_t count;
    struct call calls[MOST_CALLS];
};

/* What the library is compared with: the second program, or the library itself, with the struck-out
 * calls left out or with the format found in the place of format 2; or either at the desk. */
enum against { SECOND, WITHOUT_STRUCK, FORMAT_FOUND, AT_DESK };

/* What the library did and what was expected of it, where the two first differ. */
struct difference {
    const char *what;
    size_t call; /* its place in the history */
    enum against against;
    size_t place; /* of the first differing byte; NO_PLACE for a number */
    unsigned long library, expected;
};

#define NO_PLACE SIZE_MAX

/* ---- random.c ---- */
void start_random(uint64_t seed);
uint64_t random_bits(void);
uint32_t below(uint32_t limit);
bool one_in(uint32_t times);
size_t between(size_t least, size_t most);
uint8_t telling_byte(void);

/* ---- cards.c, journals.c, damage.c ---- */
void make_card(struct card *card, size_t entries);
size_t some_entry(const struct card *card, uint8_t kind_from);
void make_journal(struct card *card, bool spoiled);
void damage(struct card *card);

/* ---- scripts.c, writing.c ---- */
enum style { COMPACT, AA, AE, STYLES };

void make_script(struct call *call, enum style style, const struct card *card);
uint8_t own_format(enum style style);
enum style style_found(const struct call *call);
enum style unwrap(const struct call *call, struct script *value);
void wrap(struct script *script, enum style style, const struct script *value);

/* ---- coverage.c, answers.c ---- */
enum { FIRST_BYTES = 8 };

extern const char *const styles[STYLES];
extern const uint8_t first_bytes[FIRST_BYTES];

bool note_word(enum style style, uint8_t ins, unsigned word);
bool note_bad_format(enum style style, unsigned code);
void note_count(enum style style, uint32_t count);
void note_struck(bool taken_back);
void note_application(size_t application);
bool note_number(const struct call *call, unsigned number);
void note_first_byte(uint8_t first);
bool note_answer(const struct call *call, const struct answer *answer);
void print_reached(unsigned long times);
bool print_coverage(void);

/* ---- histories.c, sweep.c, play.c ---- */
size_t some_application(const struct card *card, bool wrong);
void turn_pages(struct history *history);
bool compare_history(struct history *history, struct difference *difference);
bool sweep(struct history *history, struct difference *difference);
void print_sweep(void);

/* Makes the next call of a history on the card as it is then. */
typedef void call_maker(struct call *call, const struct card *now);

bool play(struct history *history, call_maker *next, struct difference *difference);
const struct answer *library_answer(size_t call);
const struct answer *second_answer(size_t call);

/* ---- desk.c ---- */
bool compare_desk(struct history *history, struct difference *difference);
bool compare_longest(struct difference *difference);
bool reads_back(const struct call *call, const struct answer *answer,
                struct difference *difference);

/* ---- shorten.c, print.c ---- */
void shorten(struct history *history, struct difference *difference);
void print_history(const struct history *history, const struct difference *difference);
void print_desk_call(const struct difference *difference);

#endif
