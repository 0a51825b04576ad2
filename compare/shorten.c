/* Finds a smaller history that still shows a difference. */
#include "compare.h"

#include <string.h>

/* Takes the shorter history over if it shows a difference too. */
static bool take_over(struct history *history, struct history *shorter,
                      struct difference *difference)
{
    struct difference found;

    if (play(shorter, NULL, &found))
        return false;
    *history = *shorter;
    *difference = found;
    return true;
}

/* Drops each call that is not needed; answers whether one was dropped. */
static bool drop_calls(struct history *history, struct difference *difference)
{
    static struct history shorter;
    bool dropped = false;

    for (size_t i = history->count; i-- > 0;) {
        shorter = *history;
        shorter.count--;
        for (size_t k = i; k < shorter.count; k++)
            shorter.calls[k] = history->calls[k + 1];
        if (take_over(history, &shorter, difference)) {
            dropped = true;
            i = smaller(i, history->count);
        }
    }
    return dropped;
}

/* Drops so many bytes at one place of a script's value, if they are not needed. */
static bool drop_bytes(struct history *history, size_t call, size_t place, size_t bytes,
                       struct difference *difference)
{
    static struct history shorter;
    static struct script value;
    const enum style style = unwrap(&history->calls[call], &value);

    if (place + bytes > value.length)
        return false;
    shorter = *history;
    value.length -= bytes;
    memmove(value.at + place, value.at + place + bytes, value.length - place);
    wrap(&shorter.calls[call].script, style, &value);
    return take_over(history, &shorter, difference);
}

/* Drops parts of the scripts, large parts first; answers whether one was dropped. */
static bool shorten_scripts(struct history *history, struct difference *difference)
{
    enum { EVERY_SIZE = 32 };
    bool dropped = false;

    for (size_t call = 0; call < history->count; call++) {
        size_t bytes = history->calls[call].kind == RUN ? history->calls[call].script.length : 0;
        for (; bytes > 0; bytes = bytes > 2 * EVERY_SIZE ? bytes / 2 : bytes - 1) {
            size_t place = 0;
            while (call < history->count && place < history->calls[call].script.length) {
                if (drop_bytes(history, call, place, bytes, difference))
                    dropped = true;
                else
                    place++;
            }
        }
    }
    return dropped;
}

/* Drops the last entries of the table, and file memory at its end, that are not needed. */
static void shorten_card(struct history *history, struct difference *difference)
{
    static struct history shorter;
    bool dropped = true;

    while (dropped && history->start.table.length > ENTRY_SIZE) {
        shorter = *history;
        shorter.start.table.length -= ENTRY_SIZE;
        dropped = take_over(history, &shorter, difference);
    }
    for (size_t bytes = history->start.files.length / 2; bytes > 0; bytes /= 2) {
        shorter = *history;
        shorter.start.files.length -= bytes;
        take_over(history, &shorter, difference);
    }
}

/* Sets parts of file memory or of the journal to zero, large parts first, that are not needed. */
static void clear_parts(struct history *history, bool journal, struct difference *difference)
{
    static struct history shorter;
    struct memory *const from = journal ? &history->start.journal : &history->start.files;
    struct memory *const to = journal ? &shorter.start.journal : &shorter.start.files;

    for (size_t part = from->length; part > 0; part /= 2) {
        for (size_t at = 0; at < from->length; at += part) {
            const size_t bytes = smaller(part, from->length - at);
            shorter = *history;
            memset(to->at + at, 0, bytes);
            if (memcmp(to->at + at, from->at + at, bytes) != 0)
                take_over(history, &shorter, difference);
        }
    }
}

/* Shortens a history as far as dropping calls, parts of scripts and of the card leads, and plays
 * it once more, so that its answers are those to be printed. */
void shorten(struct history *history, struct difference *difference)
{
    struct difference again;
    bool shorter = true;

    while (shorter) {
        shorter = drop_calls(history, difference);
        shorter = shorten_scripts(history, difference) || shorter;
    }
    shorten_card(history, difference);
    clear_parts(history, true, difference);
    clear_parts(history, false, difference);
    play(history, NULL, &again);
}
