/* The desk's side of the comparison: lists that are built, answers that are read. */
#ifndef COMPARE_LISTS_H
#define COMPARE_LISTS_H

#include "lend.h"

/* A list of operations, and the length that its script is to have, 0 for any. Rows and data have
 * room for one operation too many, and for data behind the 65,536th byte. */
struct list {
    size_t operations_length, data_length, meant;
    uint8_t operations[(RFM_MOST_OPERATIONS + 2) * RFM_OPERATION_SIZE];
    uint8_t data[0x10000 + 0x4000];
};

/* The bytes of an answer, with room to be made longer. */
struct reply {
    size_t length;
    uint8_t at[LEAST_RESPONSE + SPARE];
};

enum { MOST_RESULTS = 300, PLACES = 4 };

/* What a program reads in an answer: the call's own answer; the results from its first place on, or
 * from a given one where it is damaged, each with its place, the last one being none; and those at
 * some places more. */
struct reading {
    uint64_t answer;
    const char *outside;
    bool kept;
    size_t results, places[MOST_RESULTS];
    uint64_t result[MOST_RESULTS], at[PLACES];
};

/* The last call at the desk, to be printed. */
struct desk_call {
    bool builds;
    uint8_t format;
    unsigned pages;
    struct list list;
    size_t script_length;
    struct reply reply;
    size_t first, places[PLACES]; /* where results are asked for */
};

/* ---- desk.c ---- */
const struct desk_call *last_desk_call(void);

/* ---- lists.c ---- */
void make_list(struct list *list, const struct card *card, size_t root, uint8_t format);

/* ---- tell.c ---- */
bool tells_list(const struct script *script, uint8_t format, const struct list *list);

/* ---- mangle.c ---- */
void draw_reply(struct reply *reply, uint8_t format);
void mangle(struct reply *reply, uint8_t format, const struct reading *good);

/* ---- places.c ---- */
void note_built(const struct list *list, uint8_t format, uint64_t result);
bool note_read(uint8_t format, const struct reply *reply, const struct reading *reading);
void note_longest(uint64_t result);
void print_desk_coverage(void);

#endif
