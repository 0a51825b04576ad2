/* Sound cards with an empty journal: every kind, nested directories, several ADFs, deactivated
 * files, NEVER bits, any newest place, gaps in file memory. */
#include "compare.h"

#include <string.h>

/* All lengths together, so that gaps and files of one byte still find room. */
enum { MOST_LENGTHS = 32000, MOST_GAP = 8 };

/* An entry of this kind or a later one, or 0 if the search backwards from any place finds none. */
size_t some_entry(const struct card *card, uint8_t kind_from)
{
    size_t number = below((uint32_t)entries_of(card));

    while (number > 0 && entry_of(card, number)[AT_KIND] < kind_from)
        number--;
    return number;
}

/* A directory among the first entries: any, or the last one, which makes the tree deep. */
static uint8_t some_directory(const struct card *card, size_t entries, bool last)
{
    size_t number = last ? entries - 1 : below((uint32_t)entries);

    while (!is_directory(entry_of(card, number)))
        number--;
    return (uint8_t)number;
}

/* Whether no further child of the parent may bear the identifier. */
static bool is_taken(const struct card *card, size_t entries, uint8_t parent, unsigned identifier)
{
    if (identifier == ID_MF || identifier == ID_RESERVED || identifier == ID_ADF)
        return true;
    for (size_t number = 1; number < entries; number++) {
        const uint8_t *entry = entry_of(card, number);
        if (entry[AT_PARENT] == parent && number_at(entry) == identifier)
            return true;
    }
    return false;
}

/* An identifier for a child, mostly one that other directories use too. */
static unsigned free_identifier(const struct card *card, size_t entries, uint8_t parent)
{
    static const uint16_t common[] = {0x6F46, 0x6F3A, 0x6F39, 0x7F10, 0x7F20, 0x0000, 0xFFFF};
    unsigned identifier;

    do {
        identifier = one_in(4) ? below(0x10000) : common[below(sizeof common / sizeof common[0])];
    } while (is_taken(card, entries, parent, identifier));
    return identifier;
}

/* Gives a file its length, records, newest place, state and NEVER bits; answers the length. */
static size_t make_file(uint8_t *entry, size_t most)
{
    size_t record_length = 0, length;

    if (entry[AT_KIND] == TRANSPARENT) {
        length = one_in(4) ? between(1, 700) : 1 + below(40);
        if (length > most)
            length = 1;
    } else {
        record_length = one_in(6) ? between(127, 128) : one_in(4) ? between(1, 255) : 1 + below(8);
        length = record_length * (one_in(8) ? between(1, MOST_RECORDS) : 1 + below(6));
        if (length > most)
            record_length = length = 1;
    }
    if (entry[AT_KIND] == CYCLIC)
        entry[AT_NEWEST] = (uint8_t)between(0, length / record_length - 1);
    put_number(entry + AT_LENGTH, length);
    entry[AT_RECORD_LENGTH] = (uint8_t)record_length;
    if (one_in(6))
        entry[AT_STATE] = DEACTIVATED;
    if (one_in(5))
        entry[AT_NEVER] = (uint8_t)(one_in(2) ? 1u << below(5) : below(NEVER_ALL + 1));
    return length;
}

/* Makes the next entry; answers its length in file memory. */
static size_t make_entry(struct card *card, size_t number, bool deep, size_t most)
{
    uint8_t *entry = entry_at(card, number);

    memset(entry, 0, ENTRY_SIZE);
    entry[AT_STATE] = ACTIVATED;
    if (number == 0) {
        put_number(entry, ID_MF);
        entry[AT_KIND] = MF;
        return 0;
    }
    if (one_in(8)) {
        put_number(entry, ID_ADF);
        entry[AT_KIND] = ADF;
        return 0;
    }
    entry[AT_PARENT] = some_directory(card, number, deep && !one_in(4));
    put_number(entry, free_identifier(card, number, entry[AT_PARENT]));
    entry[AT_KIND] = (uint8_t)(one_in(deep ? 2 : 4) ? DF : TRANSPARENT + below(3));
    return is_directory(entry) ? 0 : make_file(entry, most);
}

/* Lays the files into file memory in any order, with gaps, and sets its length. */
static void lay_out(struct card *card)
{
    uint8_t files[MOST_ENTRIES + 1];
    uint8_t *last = NULL;
    size_t left = 0, end = 0;

    for (size_t number = 0; number < entries_of(card); number++)
        if (!is_directory(entry_of(card, number)))
            files[left++] = (uint8_t)number;
    while (left > 0) {
        const uint32_t drawn = below((uint32_t)left);
        last = entry_at(card, files[drawn]);
        files[drawn] = files[--left];
        end += one_in(3) ? below(MOST_GAP) : 0;
        put_number(last + AT_START, end);
        end += number_at(last + AT_LENGTH);
    }
    if (last != NULL && last[AT_KIND] == TRANSPARENT && one_in(40)) {
        put_number(last + AT_LENGTH, MOST_FILES - number_at(last + AT_START));
        end = MOST_FILES;
    }
    end += end < MOST_FILES && one_in(3) ? below(MOST_GAP) : 0;
    card->files.length = end == 0 ? 1 + below(300) : end;
}

/* Fills file memory with blocks of zeros, of FF, of few and of any bytes. */
static void fill_files(struct memory *files)
{
    for (size_t at = 0; at < files->length; at += sizeof(uint64_t)) {
        uint64_t eight = random_bits();
        switch (eight >> 62) {
        case 0:
            eight = 0;
            break;
        case 1:
            eight = UINT64_MAX;
            break;
        case 2:
            eight &= 0x0303030303030303u;
            break;
        default:
            break;
        }
        for (size_t i = 0; i < sizeof eight; i++)
            files->at[at + i] = (uint8_t)(eight >> 8 * i);
    }
}

/* Sets the margin behind a memory. */
static void mark_margin(struct memory *memory)
{
    memset(memory->at + memory->length, MARGIN_BYTE, 2 * MARGIN);
}

/* Makes a sound card with so many entries and nothing on trial. One more entry lies behind the
 * table, for one that is made longer. */
void make_card(struct card *card, size_t entries)
{
    const bool deep = one_in(3);
    size_t lengths = 0;

    card->table.length = entries * ENTRY_SIZE;
    mark_margin(&card->table);
    for (size_t number = 0; number <= entries; number++) {
        const size_t most = lengths < MOST_LENGTHS ? MOST_LENGTHS - lengths : 1;
        lengths += make_entry(card, number, deep, most);
    }
    lay_out(card);
    fill_files(&card->files);
    mark_margin(&card->files);
    card->journal.length = JOURNAL_SIZE;
    memset(card->journal.at, 0, JOURNAL_SIZE);
    mark_margin(&card->journal);
}
