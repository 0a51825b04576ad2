/* Plays a history on the library and on the second program, call by call; on the library once more
 * each run of format 2 with the format found, and all with the struck-out calls left out. */
#include "lend.h"

#include <string.h>

#include "desk.h"

const struct program library = {rfm_run, rfm_take_back, library_confirm, rfm_build,
                                rfm_read_answer, rfm_result};
const struct program second = {second_run, second_take_back, second_confirm, second_build,
                               second_read_answer, second_result};

/* The answers to the calls of the history that was played last. */
static struct answer library_answers[MOST_CALLS], second_answers[MOST_CALLS];

/* One of them. */
const struct answer *library_answer(size_t call) { return &library_answers[call]; }
const struct answer *second_answer(size_t call) { return &second_answers[call]; }

/* Copies a memory. */
static void copy_memory(struct memory *to, const struct memory *from)
{
    to->length = from->length;
    copy(to->at, from->at, from->length);
}

/* Copies the three memories. */
static void copy_card(struct card *to, const struct card *from)
{
    copy_memory(&to->table, &from->table);
    copy_memory(&to->files, &from->files);
    copy_memory(&to->journal, &from->journal);
}

/* ---- Comparing ---- */

/* Keeps a difference; answers false. */
static bool differ(struct difference *difference, const char *what, size_t place,
                   unsigned long library, unsigned long expected)
{
    difference->what = what;
    difference->place = place;
    difference->library = library;
    difference->expected = expected;
    return false;
}

/* Whether two values are the same; if not, keeps the difference, as the next five do. */
bool same_value(const char *what, unsigned long library, unsigned long expected,
                struct difference *difference)
{
    return library == expected || differ(difference, what, NO_PLACE, library, expected);
}

/* Whether all bytes are the same. */
static bool same_bytes(const char *what, const uint8_t *library, const uint8_t *expected,
                       size_t length, struct difference *difference)
{
    size_t place = 0;

    if (memcmp(library, expected, length) == 0)
        return true;
    while (library[place] == expected[place])
        place++;
    return differ(difference, what, place, library[place], expected[place]);
}

/* Whether neither call touched or changed what was not lent; each says what, or NULL. */
bool kept_inside(const char *library, const char *expected, struct difference *difference)
{
    const char *what = library != NULL ? library : expected;

    return what == NULL || differ(difference, what, NO_PLACE, library != NULL, expected != NULL);
}

/* Compares number, count, length and the whole response memory, or script memory; what was lent to
 * be read is as it was. */
bool same_answer(const struct answer *library, const struct answer *expected,
                 struct difference *difference)
{
    const uint64_t a = library->result, b = expected->result;

    return kept_inside(library->outside, expected->outside, difference) &&
           same_value("number", RFM_NUMBER(a), RFM_NUMBER(b), difference) &&
           same_value("count", RFM_COUNT(a), RFM_COUNT(b), difference) &&
           same_value("length", RFM_LENGTH(a), RFM_LENGTH(b), difference) &&
           same_bytes("response memory", library->response, expected->response,
                      sizeof library->response, difference) &&
           same_value("script kept", library->script_kept, true, difference);
}

/* Compares a memory. */
static bool same_memory(const char *what, const struct memory *a, const struct memory *b,
                        struct difference *difference)
{
    return same_bytes(what, a->at, b->at, a->length, difference);
}

/* Compares the three memories. */
static bool same_card(const struct card *a, const struct card *b, struct difference *difference)
{
    return same_memory("table", &a->table, &b->table, difference) &&
           same_memory("file memory", &a->files, &b->files, difference) &&
           same_memory("journal", &a->journal, &b->journal, difference);
}

/* ---- Request K1 ---- */

/* Makes a run of format 2 on the library with the format found, on the card as it was before: the
 * same answer and the same card after it. */
static bool same_as_found(const struct call *call, struct card *before, const struct answer *answer,
                          const struct card *after, struct difference *difference)
{
    static struct call found;
    static struct answer expected;

    found = *call;
    found.format = own_format(style_found(call));
    make_call(&library, before, &found, &expected);
    if (same_answer(answer, &expected, difference) && same_card(after, before, difference))
        return true;
    difference->against = FORMAT_FOUND;
    return false;
}

/* ---- Demand 3 ---- */

/* Finds the calls to be struck out: each script that was taken back with its take-back, each run
 * refused with number 5. A take-back of a script from before the history stays. */
static size_t strike_out(const struct history *history, bool *struck)
{
    size_t on_trial[MOST_CALLS], trials = 0, strikes = 0;

    for (size_t i = 0; i < history->count; i++) {
        const unsigned number = RFM_NUMBER(library_answers[i].result);
        const enum call_kind kind = history->calls[i].kind;
        struck[i] = kind == RUN && number == 5;
        if (kind == RUN && number == 0)
            on_trial[trials++] = i;
        if (kind == CONFIRM && number == 0)
            trials = 0;
        if (kind == TAKE_BACK && number == 0 && trials > 0)
            struck[i] = struck[on_trial[--trials]] = true;
        if (struck[i])
            note_struck(kind == TAKE_BACK);
        strikes += struck[i];
    }
    return strikes;
}

/* Plays the history on the library without the struck-out calls: the same answers and, at the
 * end, the same card. */
static bool replay(const struct history *history, const struct card *end,
                   struct difference *difference)
{
    static struct card card;
    static struct answer answer;
    bool struck[MOST_CALLS];

    if (strike_out(history, struck) == 0)
        return true;
    copy_card(&card, &history->start);
    for (size_t i = 0; i < history->count; i++) {
        if (struck[i])
            continue;
        difference->call = i;
        make_call(&library, &card, &history->calls[i], &answer);
        if (!same_answer(&library_answers[i], &answer, difference))
            return false;
    }
    return same_card(end, &card, difference);
}

/* ---- Playing ---- */

/* The card of each program. */
static struct card library_card, second_card;

/* Makes the call at this place of a history on both cards; answers whether nothing differs. */
static bool play_call(const struct call *call, size_t i, struct difference *difference)
{
    static struct card before;
    const bool detected = call->kind == RUN && call->format == RFM_DETECT;

    if (detected)
        copy_card(&before, &library_card);
    make_call(&library, &library_card, call, &library_answers[i]);
    make_call(&second, &second_card, call, &second_answers[i]);
    return same_answer(&library_answers[i], &second_answers[i], difference) &&
           same_card(&library_card, &second_card, difference) &&
           same_value("answer that the paper allows", note_answer(call, &library_answers[i]), true,
                      difference) &&
           reads_back(call, &library_answers[i], difference) &&
           (!detected ||
            same_as_found(call, &before, &library_answers[i], &library_card, difference));
}

/* Plays a history, each call made as it comes if a maker is given; false at the first
 * difference, which ends the history. */
bool play(struct history *history, call_maker *next, struct difference *difference)
{
    *difference = (struct difference){.what = NULL};
    copy_card(&library_card, &history->start);
    copy_card(&second_card, &history->start);
    for (size_t i = 0; i < history->count; i++) {
        if (next != NULL)
            next(&history->calls[i], &second_card);
        if (!play_call(&history->calls[i], i, difference)) {
            difference->call = i;
            history->count = i + 1;
            return false;
        }
    }
    if (replay(history, &library_card, difference))
        return true;
    difference->against = WITHOUT_STRUCK;
    return false;
}
