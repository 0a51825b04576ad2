/* Journals made by hand: any valid entries, up to full ones, or one entry spoiled. */
#include "compare.h"

#include <string.h>

/* A journal entry before it is appended: its tail, and old bytes of which the tail's n count. */
struct journal_entry {
    uint8_t tail[TAIL_SIZE];
    uint8_t old[MOST_OLD + 1];
};

/* U. */
static unsigned used_of(const struct card *card) { return number_at(card->journal.at); }

/* Appends an entry if it finds room. */
static void append(struct card *card, const struct journal_entry *entry)
{
    uint8_t *journal = card->journal.at;
    const size_t used = used_of(card), n = number_at(entry->tail + AT_N);

    if (used + n + TAIL_SIZE > MOST_USED)
        return;
    memcpy(journal + JOURNAL_HEAD + used, entry->old, n);
    memcpy(journal + JOURNAL_HEAD + used + n, entry->tail, TAIL_SIZE);
    put_number(journal, used + n + TAIL_SIZE);
    journal[AT_SCRIPTS] += entry->tail[0] == MARK;
}

/* A script's start. */
static void draw_mark(struct journal_entry *entry)
{
    memset(entry->tail, 0, TAIL_SIZE);
    entry->tail[0] = MARK;
}

/* File memory bytes anywhere, across files and in gaps, at most so many. */
static void draw_file_bytes(const struct card *card, size_t most, struct journal_entry *entry)
{
    most = smaller(most, smaller(card->files.length, MOST_OLD));
    const size_t n = one_in(3) ? between(1, most) : 1 + below((uint32_t)smaller(most, 12));

    memset(entry->tail, 0, TAIL_SIZE);
    entry->tail[0] = FILE_BYTES;
    put_number(entry->tail + AT_PLACE, between(0, card->files.length - n));
    put_number(entry->tail + AT_N, n);
    memset(entry->old, telling_byte(), n);
    entry->old[0] = telling_byte();
}

/* Byte 10 of a file, or byte 9 of a cyclic file; entry `file` is a file. */
static void draw_table_byte(const struct card *card, size_t file, struct journal_entry *entry)
{
    const uint8_t *of = entry_of(card, file);
    const bool newest = of[AT_KIND] == CYCLIC && one_in(2);

    memset(entry->tail, 0, TAIL_SIZE);
    entry->tail[0] = TABLE_BYTE;
    put_number(entry->tail + AT_PLACE, file * ENTRY_SIZE + (newest ? AT_NEWEST : AT_STATE));
    put_number(entry->tail + AT_N, 1);
    entry->old[0] = (uint8_t)(newest ? between(0, record_count(of) - 1)
                                     : between(DEACTIVATED, ACTIVATED));
}

/* Names byte 9 instead of byte 10, with an old value that is just too large or zero. */
static void spoil_newest(const struct card *card, struct journal_entry *entry)
{
    const uint8_t *of = entry_of(card, number_at(entry->tail + AT_PLACE) / ENTRY_SIZE);

    entry->tail[3] = (uint8_t)((entry->tail[3] & 0xF0) | AT_NEWEST);
    entry->old[0] = (uint8_t)(of[AT_KIND] == CYCLIC ? record_count(of) : 0);
}

/* Changes one field of an entry so that it is mostly just not sound. */
static void spoil(const struct card *card, struct journal_entry *entry)
{
    static const uint8_t zeros[] = {1, 6, 7};
    uint8_t *tail = entry->tail;
    const size_t n = number_at(tail + AT_N), place = number_at(tail + AT_PLACE);
    const size_t memory = tail[0] == FILE_BYTES ? card->files.length : card->table.length;

    if (tail[0] == TABLE_BYTE && one_in(2)) {
        spoil_newest(card, entry);
        return;
    }
    switch (below(7)) {
    case 0:
        tail[0] = telling_byte();
        break;
    case 1:
        tail[zeros[below(sizeof zeros)]] = 1;
        break;
    case 2: /* out of its memory by one, or anywhere */
        put_number(tail + AT_PLACE, one_in(2) ? memory - n + 1 : below((uint32_t)memory + 20));
        break;
    case 3: /* the place beside */
        put_number(tail + AT_PLACE, place + between(0, 2) - 1);
        break;
    case 4: /* a directory's state */
        put_number(tail + AT_PLACE, some_entry(card, DF) * ENTRY_SIZE + AT_STATE);
        break;
    case 5: /* one old byte too many, or a wrong number of them */
        if (card->files.length > MOST_OLD) {
            put_number(tail + AT_PLACE, 0);
            put_number(tail + AT_N, MOST_OLD + 1);
        } else {
            put_number(tail + AT_N, n == 1 ? below(3) : 0);
        }
        break;
    default: /* an old value not sound there */
        entry->old[0] = one_in(2) ? 3 + (uint8_t)below(4) : telling_byte();
        break;
    }
}

/* Gives the card a journal of any length with up to 16 scripts on trial; a spoiled one has,
 * where its entries come to that, one entry not sound, 17 scripts, or no mark as the oldest. */
void make_journal(struct card *card, bool spoiled)
{
    const size_t most = one_in(2) ? MOST_USED - below(45) : between(TAIL_SIZE, MOST_USED);
    const uint32_t spacing = 1 + below(12);
    size_t marks = spoiled && one_in(8) ? MOST_TRIALS + 1 : between(1, MOST_TRIALS);
    bool first = !spoiled || !one_in(4);
    struct journal_entry entry;

    memset(card->journal.at, 0, JOURNAL_SIZE);
    while (used_of(card) + TAIL_SIZE <= most) {
        const size_t left = most - used_of(card) - TAIL_SIZE;
        const size_t file = some_entry(card, TRANSPARENT);
        if (first || (marks > 0 && (left == 0 || one_in(spacing)))) {
            draw_mark(&entry);
            marks--;
        } else if (left == 0 || (marks == 0 && one_in(20))) {
            break;
        } else if (file != 0 && one_in(spoiled ? 2 : 3)) {
            draw_table_byte(card, file, &entry);
        } else {
            draw_file_bytes(card, left, &entry);
        }
        first = false;
        if (spoiled && one_in(6)) {
            spoil(card, &entry);
            spoiled = false;
        }
        append(card, &entry);
    }
}
