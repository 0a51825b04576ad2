/* Histories: a card, and runs, take-backs and confirmations on it. */
#include "compare.h"

/* One call in so many is a take-back, in the present history. */
static uint32_t take_backs;

/* An application: 0 or an ADF's entry number, or another number, up to the largest. */
size_t some_application(const struct card *card, bool wrong)
{
    size_t number = below((uint32_t)entries_of(card) + 1);

    if (wrong && one_in(4))
        return SIZE_MAX - (one_in(2) ? 0 : number);
    if (wrong)
        return one_in(2) ? number : number + ((size_t)1 << 8 * (1 + below(7)));
    while (number > 0 && (number == entries_of(card) || entry_of(card, number)[AT_KIND] != ADF))
        number--;
    return one_in(3) ? 0 : number;
}

/* Gives a script another first byte, if it has one: it shows another style, or no right template. */
static void retag(struct script *script)
{
    if (script->length > 0)
        script->at[0] = first_bytes[below(FIRST_BYTES)];
}

/* Makes a script empty or one byte too long. */
static void misfit(struct script *script)
{
    const size_t length = one_in(2) ? 0 : MOST_SCRIPT + 1;

    while (script->length < length)
        script->at[script->length++] = 0;
    script->length = length;
}

/* A format for a script in this style: its own or 2, or any other number. */
static uint8_t some_format(enum style style, bool wrong)
{
    if (wrong)
        return one_in(2) ? telling_byte() : one_in(2) ? 3 : 255;
    return one_in(3) ? RFM_DETECT : own_format(style);
}

/* Makes a run. Wrong arguments are rare, but often do not come alone. */
static void make_run(struct call *call, const struct card *now)
{
    const uint32_t wrong = one_in(20) ? 3 : 200;
    const enum style style = below(5) < 2 ? COMPACT : one_in(2) ? AA : AE;

    call->application = some_application(now, one_in(wrong));
    call->domain = one_in(24) ? 0xFF : 0x00;
    if (one_in(wrong))
        call->domain = telling_byte();
    call->format = some_format(style, one_in(wrong));
    make_script(call, style, now);
    if (call->format == RFM_DETECT && one_in((uint32_t)smaller(wrong, 8)))
        retag(&call->script);
    if (one_in(wrong))
        misfit(&call->script);
    call->response_length = LEAST_RESPONSE + (one_in(3) ? below(SPARE + 1) : 0);
    if (one_in(wrong))
        call->response_length = between(0, LEAST_RESPONSE - 1);
}

/* Makes a run, a take-back or a confirmation. */
static void make_next(struct call *call, const struct card *now)
{
    const uint8_t *journal = now->journal.at;
    const bool full =
        journal[AT_SCRIPTS] == MOST_TRIALS || number_at(journal) + TAIL_SIZE > MOST_USED;

    call->kind = one_in(full ? 2 : take_backs) ? TAKE_BACK : one_in(30) ? CONFIRM : RUN;
    if (call->kind == RUN)
        make_run(call, now);
}

/* Makes a history of calls that follow the card as it changes, and plays it. */
static bool compare_sound(struct history *history, struct difference *difference)
{
    history->count = 1 + below(MOST_CALLS);
    make_card(&history->start, 1 + below(one_in(8) ? MOST_ENTRIES : 16));
    if (one_in(2))
        make_journal(&history->start, false);
    return play(history, make_next, difference);
}

/* Makes a history of few calls on a card that is damaged before them, and plays it. */
static bool compare_damaged(struct history *history, struct difference *difference)
{
    struct card *card = &history->start;

    history->count = 1 + below(3);
    make_card(card, one_in(20) ? MOST_ENTRIES + 1 : 1 + below(one_in(8) ? MOST_ENTRIES : 16));
    if (one_in(2))
        make_journal(card, false);
    for (size_t i = 0; i < history->count; i++)
        make_next(&history->calls[i], card);
    damage(card);
    return play(history, NULL, difference);
}

/* Gives each call the sides on which its memories touch a page: all combinations by turns, from
 * another one in each history. */
void turn_pages(struct history *history)
{
    static unsigned turn;

    turn++;
    for (unsigned i = 0; i < MOST_CALLS; i++)
        history->calls[i].pages = turn + i;
}

/* Makes a history, on a sound card or on a damaged one, and plays it. */
bool compare_history(struct history *history, struct difference *difference)
{
    static const uint32_t often[] = {2, 6, 30};

    turn_pages(history);
    take_backs = often[below(3)];
    return one_in(3) ? compare_sound(history, difference) : compare_damaged(history, difference);
}
