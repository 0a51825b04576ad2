/* Scripts for a card, mostly right, in every style. */
#include "scripts.h"

#include <string.h>

/* The current file, or the directory if there is none. */
static size_t current(const struct maker *maker)
{
    return maker->file != 0 ? maker->file : maker->directory;
}

/* A flaw once in so many times. */
static enum flaw some_flaw(uint32_t times)
{
    return one_in(times) ? 1 + below(FLAWS - 1) : RIGHT;
}

/* Adds a command for the current file, right or flawed; a flaw often does not come alone. */
static void add_drawn(struct maker *maker, uint8_t ins, enum flaw flaw)
{
    const uint8_t *entry = entry_of(maker->card, current(maker));
    struct command command;

    draw_command(&command, ins, maker->card, current(maker));
    flaw_command(&command, flaw, entry);
    if (flaw != RIGHT && one_in(2))
        flaw_command(&command, some_flaw(1), entry);
    add_command(maker, &command, flaw);
}

/* An instruction for the current file as it is now; in compact one that reads only if it is the
 * last. */
static uint8_t fitting(const struct maker *maker, bool last)
{
    enum { CHOICES = 8, READING = 2 };
    static const uint8_t choices[][CHOICES] = {
        {GET_RESPONSE, GET_RESPONSE, SELECT, SELECT, SELECT, SELECT, SELECT, SELECT},
        [TRANSPARENT] = {READ_BINARY, READ_BINARY, UPDATE_BINARY, UPDATE_BINARY, UPDATE_BINARY,
                         DEACTIVATE, ACTIVATE, ACTIVATE},
        [LINEAR] = {READ_RECORD, READ_RECORD, UPDATE_RECORD, UPDATE_RECORD, SEARCH, SEARCH,
                    DEACTIVATE, ACTIVATE},
        [CYCLIC] = {READ_RECORD, READ_RECORD, UPDATE_RECORD, SEARCH, INCREASE, INCREASE,
                    DEACTIVATE, ACTIVATE}};
    const uint8_t *entry = entry_of(maker->card, current(maker));
    const uint32_t first = maker->style == COMPACT && !last ? READING : 0;

    if (last && maker->waits && one_in(2))
        return GET_RESPONSE;
    if (maker->deactivated && !one_in(4))
        return ACTIVATE;
    return choices[is_directory(entry) ? 0 : entry[AT_KIND]][first + below(CHOICES - first)];
}

/* Adds a command that fits, and after which the script can go on. */
static void add_fitting(struct maker *maker, enum flaw flaw)
{
    add_drawn(maker, fitting(maker, false), flaw);
}

/* Any instruction, an unknown one included. */
static uint8_t any_instruction(void)
{
    static const uint8_t all[] = {
        SELECT, READ_BINARY, UPDATE_BINARY, READ_RECORD, UPDATE_RECORD, SEARCH, INCREASE,
        DEACTIVATE, ACTIVATE, GET_RESPONSE, 0x20};

    return all[below(sizeof all)];
}

/* Adds the last command: one that fits or any one, right or flawed. */
static void add_last(struct maker *maker)
{
    const uint8_t ins = one_in(3) ? any_instruction() : fitting(maker, true);

    add_drawn(maker, ins, some_flaw(2));
}

/* ---- Going to a file ---- */

/* Adds a right SELECT. */
static void add_select(struct maker *maker, uint8_t p1, const uint8_t *path, size_t length,
                       uint8_t p2)
{
    struct command command = {.ins = SELECT, .p1 = p1, .p2 = p2, .p3 = (uint8_t)length};

    memcpy(command.data, path, length);
    command.form = needed_form(&command);
    add_command(maker, &command, RIGHT);
}

/* Whether the way from an entry up to a directory goes on. */
static bool goes_up(const struct card *card, size_t directory, size_t entry)
{
    return entry != directory && entry != 0 && entry_of(card, entry)[AT_KIND] != ADF;
}

/* The identifiers from below a directory to an entry; answers their bytes. Where the entry does
 * not lie below the directory the path starts at the ADF or the MF above it. */
size_t path_to(const struct card *card, size_t from, size_t entry, uint8_t *path)
{
    uint8_t backwards[MOST_ENTRIES];
    size_t depth = 0, length = 0;

    while (goes_up(card, from, entry)) {
        backwards[depth++] = (uint8_t)entry;
        entry = entry_of(card, entry)[AT_PARENT];
    }
    for (; depth > 0; depth--, length += 2)
        memcpy(path + length, entry_of(card, backwards[depth - 1]), 2);
    return length;
}

/* Whether an entry lies below a directory, or is it, with no other ADF between. */
static bool lies_below(const struct card *card, size_t directory, size_t entry)
{
    while (goes_up(card, directory, entry))
        entry = entry_of(card, entry)[AT_PARENT];
    return entry == directory;
}

/* Selects an entry by a path, step by step, or by its identifier alone. */
static void go_to(struct maker *maker, size_t entry, uint8_t p2)
{
    const struct card *card = maker->card;
    const uint8_t *target = entry_of(card, entry);
    const uint32_t way = below(4);
    uint8_t path[2 * MOST_ENTRIES];
    size_t length = path_to(card, maker->root, entry, path);

    if (length == 0 || (way == 0 && (target[AT_PARENT] == maker->directory || one_in(3)))) {
        add_select(maker, BY_IDENTIFIER, target, 2, p2);
    } else if (way == 1) {
        add_select(maker, BY_IDENTIFIER, entry_of(card, maker->root), 2, NO_DATA);
        for (size_t at = 0; at < length; at += 2)
            add_select(maker, BY_IDENTIFIER, path + at, 2, p2);
    } else if (way == 2 && entry != maker->directory && lies_below(card, maker->directory, entry)) {
        length = path_to(card, maker->directory, entry, path);
        add_select(maker, PATH_FROM_DIRECTORY, path, length, p2);
    } else {
        add_select(maker, PATH_FROM_ROOT, path, length, p2);
    }
    maker->directory = is_directory(target) ? entry : target[AT_PARENT];
    maker->file = is_directory(target) ? 0 : entry;
    maker->deactivated = target[AT_STATE] == DEACTIVATED;
}

/* Selects the parent of the directory by its identifier, where the directory is not the root. */
static void go_up(struct maker *maker)
{
    if (maker->directory == maker->root)
        return;
    maker->directory = entry_of(maker->card, maker->directory)[AT_PARENT];
    maker->file = 0;
    add_select(maker, BY_IDENTIFIER, entry_of(maker->card, maker->directory), 2, NO_DATA);
}

/* An entry below the root, a file if one is found soon. */
size_t some_target(const struct maker *maker)
{
    size_t entry = maker->root;

    for (unsigned tries = 0; tries < 8; tries++) {
        const size_t drawn = some_entry(maker->card, TRANSPARENT);
        if (drawn != 0 && lies_below(maker->card, maker->root, drawn))
            return drawn;
        const size_t other = below((uint32_t)entries_of(maker->card));
        if (lies_below(maker->card, maker->root, other))
            entry = other;
    }
    return entry;
}

/* ---- Scripts ---- */

/* Some commands on one file or two, and a last one. */
static void short_script(struct maker *maker)
{
    const bool none = one_in(maker->closed ? 2 : 12);

    for (uint32_t files = none ? 0 : 1 + below(2); files > 0; files--) {
        const uint32_t any = below((uint32_t)entries_of(maker->card));
        const size_t target = one_in(16) ? any : some_target(maker);
        if (one_in(3))
            go_up(maker);
        go_to(maker, target, one_in(3) ? WITH_FCP : NO_DATA);
        for (uint32_t commands = below(4); commands > 0; commands--)
            add_fitting(maker, some_flaw(30));
    }
    add_last(maker);
}

/* One command about 128 times, or it or any that fit as often as the bytes allow. */
static void long_script(struct maker *maker)
{
    static const uint8_t instructions[] = {SELECT, ACTIVATE, READ_BINARY, READ_RECORD, 0};
    const uint8_t again = instructions[below(sizeof instructions)];
    uint32_t times = one_in(2) ? 125 + below(4) : MOST_SCRIPT;
    struct command command;

    maker->most += between(0, 2) - 1;
    go_to(maker, some_target(maker), NO_DATA);
    draw_command(&command, again, maker->card, current(maker));
    if (again == READ_BINARY)
        command.p3 = (uint8_t)(1 + below(3));
    for (; times > 0 && maker->value.length < maker->most; times--) {
        if (again == 0)
            draw_command(&command, fitting(maker, false), maker->card, current(maker));
        add_command(maker, &command, RIGHT);
    }
}

/* The size of an R-APDU with so many bytes of data. */
static size_t r_apdu_size(size_t data)
{
    uint8_t length[3];

    return 1 + put_length(length, data + 2) + data + 2;
}

/* Whether reading the file can fill an answer. */
static bool fills_answers(const uint8_t *entry)
{
    return entry[AT_KIND] == TRANSPARENT && entry[AT_STATE] == ACTIVATED &&
           (entry[AT_NEVER] & NEVER_READ) == 0 && number_at(entry + AT_LENGTH) >= 8;
}

/* Bytes of R-APDUs close to 1,000, or to where their length or the answer's is written in another
 * form. */
static size_t some_fill(void)
{
    if (!one_in(4))
        return 994 + below(8);
    const size_t form = one_in(2) ? 0x76 : 0xF6;
    return form + below(16);
}

/* Reads a file until the R-APDUs kept come to such a number of bytes, and a last command. */
static void full_answer(struct maker *maker)
{
    const size_t full = some_fill();
    size_t file = some_target(maker), kept = maker->style == AE ? r_apdu_size(0) : 0;
    uint8_t path[2 * MOST_ENTRIES];

    for (unsigned tries = 0; tries < 8 && !fills_answers(entry_of(maker->card, file)); tries++)
        file = some_target(maker);
    const size_t most = smaller(number_at(entry_of(maker->card, file) + AT_LENGTH), 255);
    add_select(maker, PATH_FROM_ROOT, path, path_to(maker->card, maker->root, file, path), NO_DATA);
    maker->file = file;
    while (most >= 8 && kept + r_apdu_size(1) <= full) {
        struct command command = {.ins = READ_BINARY, .form = 2, .p3 = (uint8_t)most};
        while (kept + r_apdu_size(command.p3) > full)
            command.p3--;
        add_command(maker, &command, RIGHT);
        kept += r_apdu_size(command.p3);
    }
    const uint8_t ins = any_instruction();
    add_drawn(maker, ins, one_in(2) ? FORM : some_flaw(3));
}

/* Bytes without a meaning, or none. */
static void noise(struct maker *maker)
{
    for (uint32_t bytes = below(40); bytes > 0; bytes--) {
        const uint8_t byte = telling_byte();
        add(maker, &byte, 1);
    }
}

/* Makes the script of a run whose application and domain are set. */
void make_script(struct call *call, enum style style, const struct card *card)
{
    const size_t root = call->application < entries_of(card) ? call->application : 0;
    struct maker maker = {.card = card, .root = root, .directory = root, .style = style,
                          .closed = call->domain == 0xFF,
                          .most = style == COMPACT ? MOST_SCRIPT : MOST_SCRIPT - 4};
    const uint32_t sort = below(16);

    if (sort == 0)
        long_script(&maker);
    else if (sort == 1)
        noise(&maker);
    else if (sort < 6 && style != COMPACT)
        full_answer(&maker);
    else
        short_script(&maker);
    wrap(&call->script, style, &maker.value);
    if (one_in(16))
        mutate(&call->script);
}
