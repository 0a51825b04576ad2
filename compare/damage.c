/* Cards that are mostly just not sound. */
#include "compare.h"

#include <string.h>

/* Changes a byte to one beside it or to a telling one. */
static void change(uint8_t *at)
{
    switch (below(3)) {
    case 0:
        *at = (uint8_t)(*at + 1);
        break;
    case 1:
        *at = (uint8_t)(*at - 1);
        break;
    default:
        *at = telling_byte();
        break;
    }
}

/* Changes a start or a length by one, or moves the file onto another one's start. */
static void move_file(struct card *card)
{
    uint8_t *entry = entry_at(card, some_entry(card, TRANSPARENT));
    const uint8_t *other = entry_of(card, some_entry(card, TRANSPARENT));
    uint8_t *at = entry + (one_in(2) ? AT_START : AT_LENGTH);

    if (one_in(4))
        memcpy(entry + AT_START, other + AT_START, 2);
    else
        put_number(at, number_at(at) + between(0, 2) - 1);
}

/* Sets a byte of a file to the last sound value there or to the next one. */
static void push_byte(struct card *card)
{
    uint8_t *entry = entry_at(card, some_entry(card, TRANSPARENT));
    const unsigned records = record_count(entry);

    switch (below(5)) {
    case 0:
        entry[AT_NEWEST] = (uint8_t)(records - below(2));
        break;
    case 1:
        entry[AT_NEWEST] = (uint8_t)below(2);
        break;
    case 2:
        entry[AT_STATE] = (uint8_t)(ACTIVATED + below(2));
        break;
    case 3:
        entry[AT_NEVER] = (uint8_t)(NEVER_ALL + below(2));
        break;
    default:
        entry[AT_RECORD_LENGTH] = (uint8_t)below(2);
        break;
    }
}

/* Gives an entry another one's identifier or a reserved one, or another parent. */
static void misplace(struct card *card)
{
    static const uint16_t reserved[] = {ID_MF, ID_RESERVED, ID_ADF};
    const size_t number = some_entry(card, DF), other = some_entry(card, DF);
    uint8_t *entry = entry_at(card, number);

    switch (below(4)) {
    case 0:
        memcpy(entry, entry_of(card, other), 2);
        break;
    case 1: /* as a sibling */
        memcpy(entry, entry_of(card, other), AT_KIND);
        break;
    case 2:
        put_number(entry, reserved[below(3)]);
        break;
    default:
        entry[AT_PARENT] = (uint8_t)(one_in(2) ? other : between(number, number + 1));
        break;
    }
}

/* Makes the file that lies last in file memory one of 254 or 255 records of one byte. */
static void fill_with_records(struct card *card)
{
    uint8_t *last = entry_at(card, 0);

    for (size_t number = 1; number < entries_of(card); number++) {
        uint8_t *entry = entry_at(card, number);
        if (!is_directory(entry) && number_at(entry + AT_START) >= number_at(last + AT_START))
            last = entry;
    }
    const size_t records = MOST_RECORDS + below(2), end = number_at(last + AT_START) + records;
    if (is_directory(last) || end > MOST_FILES)
        return;
    if (last[AT_KIND] == TRANSPARENT)
        last[AT_KIND] = LINEAR;
    put_number(last + AT_LENGTH, records);
    last[AT_RECORD_LENGTH] = 1;
    if (last[AT_NEWEST] >= records)
        last[AT_NEWEST] = 0;
    if (end > card->files.length)
        card->files.length = end;
}

/* Gives a memory another length: a smaller one or none, by one, by one entry, or the largest. */
static void resize(struct memory *memory, size_t largest)
{
    switch (below(5)) {
    case 0:
        memory->length = between(0, memory->length);
        break;
    case 1:
        memory->length = largest + below(2);
        break;
    case 2:
        memory->length = smaller(memory->length + ENTRY_SIZE, largest + ENTRY_SIZE);
        break;
    default:
        memory->length = smaller(memory->length + between(0, 2) - 1, largest + ENTRY_SIZE);
        break;
    }
}

/* Gives one of the three memories another length. */
static void resize_one(struct card *card)
{
    switch (below(3)) {
    case 0:
        resize(&card->table, MOST_ENTRIES * ENTRY_SIZE);
        break;
    case 1:
        resize(&card->files, MOST_FILES);
        break;
    default:
        resize(&card->journal, JOURNAL_SIZE);
        break;
    }
}

/* Changes a byte of the journal: of the head, of the entries, or one behind them. */
static void change_journal(struct card *card)
{
    const size_t end = JOURNAL_HEAD + number_at(card->journal.at);
    size_t place;

    switch (below(3)) {
    case 0:
        place = below(JOURNAL_HEAD);
        break;
    case 1:
        place = below((uint32_t)end);
        break;
    default:
        place = between(smaller(end, JOURNAL_SIZE - 1), JOURNAL_SIZE - 1);
        break;
    }
    change(card->journal.at + place);
}

/* Damages a sound card in one place; now and then it is still sound. */
void damage(struct card *card)
{
    switch (below(10)) {
    case 0:
    case 1:
        change(card->table.at + below((uint32_t)card->table.length));
        break;
    case 2:
        push_byte(card);
        break;
    case 3:
        move_file(card);
        break;
    case 4:
        misplace(card);
        break;
    case 5:
        fill_with_records(card);
        break;
    case 6:
        resize_one(card);
        break;
    case 7:
        change_journal(card);
        break;
    default:
        make_journal(card, true);
        break;
    }
}
