/* The sweep: every instruction byte with 0 to 11 bytes behind it, in every style; alone, before a
 * SELECT, and after a SELECT of a file of each kind and of a directory. */
#include "scripts.h"

#include <stdio.h>
#include <string.h>

enum { INSTRUCTIONS = 256, LENGTHS = 12 };

/* Where the command stands. */
enum position { ALONE, FIRST, ON_TRANSPARENT, ON_LINEAR, ON_CYCLIC, ON_DIRECTORY, POSITIONS };

/* The entry that each position selects. */
static const uint8_t selected[POSITIONS] = {
    [FIRST] = 1, [ON_TRANSPARENT] = 1, [ON_LINEAR] = 2, [ON_CYCLIC] = 3, [ON_DIRECTORY] = 4};

static const uint8_t table[][ENTRY_SIZE] = {
    {0x3F, 0x00, 0, MF, [AT_STATE] = ACTIVATED},
    {0x6F, 0x46, 0, TRANSPARENT, 0, 0, 0, 17, [AT_STATE] = ACTIVATED},
    {0x6F, 0x3A, 0, LINEAR, 0, 17, 0, 12, 4, [AT_STATE] = ACTIVATED},
    {0x6F, 0x39, 0, CYCLIC, 0, 29, 0, 9, 3, [AT_STATE] = ACTIVATED},
    {0x7F, 0x10, 0, DF, [AT_STATE] = ACTIVATED}};

enum { FILE_MEMORY = 38 };

/* The commands' data and what the files hold. */
static const uint8_t pattern[] = {0x6F, 0x46};

/* The calls that were made in each style and position. */
static unsigned long swept[STYLES][POSITIONS];

/* Makes the card. */
static void make_start(struct card *card)
{
    card->table.length = sizeof table;
    memcpy(card->table.at, table, sizeof table);
    card->files.length = FILE_MEMORY;
    for (size_t i = 0; i < FILE_MEMORY; i++)
        card->files.at[i] = pattern[i % sizeof pattern];
    card->journal.length = JOURNAL_SIZE;
    memset(card->journal.at, 0, JOURNAL_SIZE);
}

/* Adds the bytes of a command, in a TLV where the style has one. */
static void add_bytes(struct maker *maker, const uint8_t *bytes, size_t length)
{
    const uint8_t head[] = {0x22, (uint8_t)length};

    if (maker->style != COMPACT)
        add(maker, head, sizeof head);
    add(maker, bytes, length);
}

/* Adds a SELECT of an entry, with its FCP. */
static void add_select(struct maker *maker, size_t entry)
{
    const uint8_t bytes[] = {0x00, SELECT, BY_IDENTIFIER, WITH_FCP, 2, table[entry][0],
                             table[entry][1], 0x00};

    add_bytes(maker, bytes, maker->style == COMPACT ? sizeof bytes - 1 : sizeof bytes);
}

/* P2 with which an instruction gets far. */
static uint8_t good_p2(uint8_t ins)
{
    switch (ins) {
    case SELECT:
        return WITH_FCP;
    case READ_RECORD:
    case UPDATE_RECORD:
        return PREVIOUS;
    case SEARCH:
        return FORWARD;
    default:
        return 0;
    }
}

/* Adds an instruction byte with so many bytes behind it; P3, if there is one, fits what follows. */
static void add_swept(struct maker *maker, uint8_t ins, size_t behind)
{
    struct command command = {.cla = ins == INCREASE ? 0x80 : 0x00, .ins = ins,
                              .p1 = ins == SEARCH, .p2 = good_p2(ins)};
    const size_t le = maker->style != COMPACT && needed_form(&command) == 4 ? 1 : 0;
    const size_t data = behind < 3 + le ? 0 : behind - 3 - le;
    uint8_t bytes[2 + LENGTHS] = {command.cla, ins, command.p1, command.p2, (uint8_t)data};

    for (size_t i = 0; i < data; i++)
        bytes[HEADER_SIZE + i] = pattern[i % sizeof pattern];
    add_bytes(maker, bytes, 2 + behind);
}

/* Makes the runs of one instruction byte in one style and position. */
static void make_runs(struct history *history, uint8_t ins, enum style style,
                      enum position position)
{
    make_start(&history->start);
    history->count = LENGTHS;
    for (size_t behind = 0; behind < LENGTHS; behind++) {
        struct call *const call = &history->calls[behind];
        struct maker maker = {.card = &history->start, .style = style, .most = MOST_SCRIPT};
        if (position > FIRST)
            add_select(&maker, selected[position]);
        add_swept(&maker, ins, behind);
        if (position == FIRST)
            add_select(&maker, selected[position]);
        call->kind = RUN;
        call->application = 0;
        call->domain = 0x00;
        call->format = own_format(style);
        call->response_length = LEAST_RESPONSE;
        wrap(&call->script, style, &maker.value);
    }
}

/* Makes and plays the runs of an instruction byte; answers whether they agree. */
static bool sweep_instruction(struct history *history, uint8_t ins, struct difference *difference)
{
    for (enum style style = COMPACT; style < STYLES; style++) {
        for (enum position position = ALONE; position < POSITIONS; position++) {
            turn_pages(history);
            make_runs(history, ins, style, position);
            if (!play(history, NULL, difference))
                return false;
            swept[style][position] += history->count;
        }
    }
    return true;
}

/* Makes and plays all runs of the sweep. */
bool sweep(struct history *history, struct difference *difference)
{
    for (unsigned ins = 0; ins < INSTRUCTIONS; ins++)
        if (!sweep_instruction(history, (uint8_t)ins, difference))
            return false;
    return true;
}

/* Prints the calls of the sweep; a style and position with calls left out is not reached. */
void print_sweep(void)
{
    printf("\n%-12s  alone  first transp. linear cyclic directory", "sweep");
    for (enum style style = COMPACT; style < STYLES; style++) {
        printf("\n%-12s", styles[style]);
        for (enum position position = ALONE; position < POSITIONS; position++) {
            const unsigned long calls = swept[style][position];
            print_reached(calls == INSTRUCTIONS * LENGTHS ? calls : 0);
        }
    }
    printf("\n");
}
