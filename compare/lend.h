/* How a call is lent its memories, made, and compared. */
#ifndef COMPARE_LEND_H
#define COMPARE_LEND_H

#include "compare.h"

/* The memories of a call on a card, and of one at the desk; on which side a page that must not be
 * touched is. */
enum lent_memory {
    TABLE, FILES, JOURNAL, SCRIPT, RESPONSE, OPERATIONS, DATA, BUILT, ANSWER, MEMORIES
};
enum side { BEFORE, BEHIND, SIDES };

/* Some bytes. */
struct part {
    uint8_t *at;
    size_t length;
};

/* ---- lend.c ---- */
void copy(uint8_t *to, const uint8_t *from, size_t length);
struct part lend(enum lent_memory memory, enum side page, struct part own);
const char *watch(void call(void *), void *context);
const char *take_again(enum lent_memory memory, uint8_t *own);
void print_lent(void);

/* ---- calling.c ---- */
void fill_response(uint8_t *response);
void make_call(const struct program *program, struct card *card, const struct call *call,
               struct answer *answer);

/* ---- play.c ---- */
extern const struct program library, second;

bool same_value(const char *what, unsigned long library, unsigned long expected,
                struct difference *difference);
bool kept_inside(const char *library, const char *expected, struct difference *difference);
bool same_answer(const struct answer *library, const struct answer *expected,
                 struct difference *difference);

#endif
