/* The second program. Each rule stands under the paper's own sentence; one after K1 is that
 * request's. */
#include "second.h"

#include "rules.h"

/* ---- The paper's limits ------------------------------------------------ */

enum {
    ENTRY_SIZE = 16,
    MOST_ENTRIES = 64,
    MOST_FILE_MEMORY = 32768,
    MOST_RECORDS = 254,
    JOURNAL_SIZE = 2048,
    JOURNAL_HEAD = 4,
    MOST_USED = 2044,
    MOST_SCRIPTS = 16,
    TAIL_SIZE = 8,
    MOST_OLD_BYTES = 255,
    LEAST_RESPONSE = 1024,
    MOST_KEPT = 1000,
    MOST_INCREASE_RECORD = 127,
    WAITING_SIZE = 255
};

/* The bytes of a table entry. */
enum {
    AT_IDENTIFIER = 0, AT_PARENT = 2, AT_KIND = 3, AT_START = 4, AT_LENGTH = 6,
    AT_RECORD_LENGTH = 8, AT_NEWEST = 9, AT_STATE = 10, AT_NEVER = 12
};

enum { MF = 1, DF = 2, ADF = 3, TRANSPARENT = 4, LINEAR = 5, CYCLIC = 6 };
enum { ACTIVATED = 0x05, DEACTIVATED = 0x04 };
enum { ID_MF = 0x3F00, ID_RESERVED = 0x3FFF, ID_ADF = 0x7FFF };
enum {
    NEVER_READ = 1, NEVER_UPDATE = 2, NEVER_INCREASE = 4, NEVER_DEACTIVATE = 8,
    NEVER_ACTIVATE = 16, NEVER_ALL = 31
};

/* The journal's byte with the scripts on trial, after U. */
enum { AT_SCRIPTS = 2 };

/* The bytes of a journal entry's tail, after its kind. */
enum { AT_PLACE = 2, AT_N = 4 };

/* The kinds of a journal entry. */
enum { MARK = 1, FILE_BYTES = 2, TABLE_BYTE = 3 };

enum { DOMAIN_OPEN = 0x00, DOMAIN_CLOSED = 0xFF };

/* The call numbers. */
enum {
    ACCEPTED = 0, NOT_SOUND = 1, WRONG_ARGUMENT = 2, WRONG_SCRIPT_LENGTH = 3,
    SMALL_RESPONSE = 4, NO_TRIAL_ROOM = 5, NO_TEMPLATE = 6, NOTHING_ON_TRIAL = 7
};

/* The lent card. */
struct card {
    uint8_t *table;
    size_t entries;
    uint8_t *files;
    size_t files_length;
    uint8_t *journal;
};

/* The bytes of a table entry. */
static inline uint8_t *entry_of(const struct card *card, size_t number)
{
    return card->table + number * ENTRY_SIZE;
}

/* Whether an entry has this identifier, given by its two bytes. */
static inline bool bears(const uint8_t *entry, const uint8_t *identifier)
{
    return entry[AT_IDENTIFIER] == identifier[0] && entry[AT_IDENTIFIER + 1] == identifier[1];
}

/* "a directory (kinds 1 to 3)". Only for an entry whose kind is known to be 1 to 6. */
static inline bool is_directory(const uint8_t *entry) { return entry[AT_KIND] <= ADF; }

/* The records of a file. Only for a record file of a sound table. */
static inline unsigned record_count(const uint8_t *entry)
{
    return number_at(entry + AT_LENGTH) / entry[AT_RECORD_LENGTH];
}

/* ---- Sound: the table -------------------------------------------------- */

/* "entry 0 is kind 1, 3F00, parent 0 and no one's child; no other is kind 1. For all
 * others a parent's number is smaller than its child's, and the parent is a directory
 * (kinds 1 to 3). An ADF has parent 0 and identifier 7FFF; other entries never have
 * 3F00, 3FFF or 7FFF." */
static bool place_in_tree_sound(const struct card *card, size_t number, const uint8_t *entry)
{
    const unsigned identifier = number_at(entry + AT_IDENTIFIER);
    const size_t parent = entry[AT_PARENT];

    if (number == 0)
        return entry[AT_KIND] == MF && identifier == ID_MF && parent == 0;
    if (entry[AT_KIND] == MF || parent >= number || !is_directory(entry_of(card, parent)))
        return false;
    if (entry[AT_KIND] == ADF)
        return parent == 0 && identifier == ID_ADF;
    return identifier != ID_MF && identifier != ID_RESERVED && identifier != ID_ADF;
}

/* "Directories have 0 in bytes 4-9 and 12, and state 05." */
static bool directory_sound(const uint8_t *entry)
{
    static const uint8_t zeros[6] = {0};
    return memcmp(entry + AT_START, zeros, sizeof zeros) == 0 && entry[AT_NEVER] == 0 &&
           entry[AT_STATE] == ACTIVATED;
}

/* "A file has length 1 or more, lies inside file memory". "Record files have record length
 * 1 to 255 and 1 to 254 whole records with nothing over. Byte 8 is 0 for kind 4; byte 9 is
 * 0 unless cyclic, then below the record count." */
static bool file_sound(const uint8_t *entry, size_t files_length)
{
    const unsigned length = number_at(entry + AT_LENGTH);
    const unsigned record_length = entry[AT_RECORD_LENGTH];

    if (length == 0 || number_at(entry + AT_START) + length > files_length)
        return false;
    if (entry[AT_KIND] == TRANSPARENT)
        return record_length == 0 && entry[AT_NEWEST] == 0;
    if (record_length == 0 || length % record_length != 0)
        return false;
    const unsigned records = length / record_length;
    if (records > MOST_RECORDS)
        return false;
    return entry[AT_KIND] == CYCLIC ? entry[AT_NEWEST] < records : entry[AT_NEWEST] == 0;
}

/* The byte table: kinds 1 to 6; "05 activated, 04 deactivated"; bytes 11 and 13-15 are 0;
 * NEVER bits 1, 2, 4, 8, 16, "no others". */
static bool entry_sound(const struct card *card, size_t number)
{
    const uint8_t *entry = entry_of(card, number);

    if (entry[AT_KIND] < MF || entry[AT_KIND] > CYCLIC)
        return false;
    if (entry[AT_STATE] != ACTIVATED && entry[AT_STATE] != DEACTIVATED)
        return false;
    if ((entry[11] | entry[13] | entry[14] | entry[15]) != 0 || entry[AT_NEVER] > NEVER_ALL)
        return false;
    if (!place_in_tree_sound(card, number, entry))
        return false;
    return is_directory(entry) ? directory_sound(entry) : file_sound(entry, card->files_length);
}

/* "Children of one parent, ADFs aside, have different identifiers." A file "overlaps no
 * other". Both entries are sound by themselves and neither is entry 0. */
static bool pair_sound(const uint8_t *a, const uint8_t *b)
{
    if (a[AT_PARENT] == b[AT_PARENT] && bears(a, b + AT_IDENTIFIER) && a[AT_KIND] != ADF &&
        b[AT_KIND] != ADF)
        return false;
    if (is_directory(a) || is_directory(b))
        return true;
    const unsigned a_start = number_at(a + AT_START), b_start = number_at(b + AT_START);
    return a_start + number_at(a + AT_LENGTH) <= b_start ||
           b_start + number_at(b + AT_LENGTH) <= a_start;
}

/* Whether each entry is sound by itself and beside each one before it. */
static bool table_sound(const struct card *card)
{
    for (size_t number = 0; number < card->entries; number++) {
        if (!entry_sound(card, number))
            return false;
        for (size_t other = 1; other < number; other++)
            if (!pair_sound(entry_of(card, number), entry_of(card, other)))
                return false;
    }
    return true;
}

/* ---- Sound: the journal ------------------------------------------------ */

/* "only zeros", eight bytes at a time. */
static bool only_zeros(const uint8_t *at, size_t length)
{
    uint64_t seen = 0;

    while (length >= sizeof seen) {
        uint64_t eight;
        memcpy(&eight, at, sizeof eight);
        seen |= eight;
        at += sizeof eight;
        length -= sizeof eight;
    }
    for (; length > 0; length--)
        seen |= *at++;
    return seen == 0;
}

/* "kind 3 one table byte, which is byte 10 of a file, or byte 9 of a cyclic file, with an
 * old value sound there." "Places lie inside their memory." */
static bool table_byte_sound(const struct card *card, size_t place, uint8_t old)
{
    if (place >= card->entries * ENTRY_SIZE)
        return false;
    const uint8_t *entry = entry_of(card, place / ENTRY_SIZE);
    if (is_directory(entry))
        return false;
    if (place % ENTRY_SIZE == AT_STATE)
        return old == ACTIVATED || old == DEACTIVATED;
    return place % ENTRY_SIZE == AT_NEWEST && entry[AT_KIND] == CYCLIC &&
           old < record_count(entry);
}

/* "An entry is n old bytes and an 8-byte tail: kind, 0, place (2), n (2), 0, 0. Kind 1 marks
 * a script's start (n and place 0); kind 2 holds file memory bytes, n 1 to 255; kind 3 one
 * table byte". The n old bytes are known to lie before the tail. */
static bool journal_entry_sound(const struct card *card, const uint8_t *tail)
{
    const size_t place = number_at(tail + AT_PLACE);
    const size_t n = number_at(tail + AT_N);

    if ((tail[1] | tail[6] | tail[7]) != 0)
        return false;
    switch (tail[0]) {
    case MARK:
        return n == 0 && place == 0;
    case FILE_BYTES:
        return n >= 1 && n <= MOST_OLD_BYTES && place + n <= card->files_length;
    case TABLE_BYTE:
        return n == 1 && table_byte_sound(card, place, tail[-1]);
    default:
        return false;
    }
}

/* "0-1 used bytes U (at most 2,044), 2 scripts on trial (0 to 16), 3 zero, then entries;
 * after them only zeros." "Sound: entries fill U exactly, read back from the end, the oldest
 * is a mark, marks equal byte 2." */
static bool journal_sound(const struct card *card)
{
    const uint8_t *journal = card->journal;
    const uint8_t *entries = journal + JOURNAL_HEAD;
    const size_t used = number_at(journal);
    size_t left = used;
    unsigned marks = 0;
    bool oldest_is_mark = true; /* with U 0 there is no oldest entry */

    if (used > MOST_USED || journal[AT_SCRIPTS] > MOST_SCRIPTS || journal[3] != 0)
        return false;
    if (!only_zeros(entries + used, MOST_USED - used))
        return false;
    while (left > 0) {
        if (left < TAIL_SIZE)
            return false;
        const uint8_t *tail = entries + left - TAIL_SIZE;
        const size_t n = number_at(tail + AT_N);
        if (n > left - TAIL_SIZE || !journal_entry_sound(card, tail))
            return false;
        oldest_is_mark = tail[0] == MARK;
        marks += oldest_is_mark;
        left -= n + TAIL_SIZE;
    }
    return oldest_is_mark && marks == journal[AT_SCRIPTS];
}

/* Number 1: "table, file memory or journal not sound". "The table has 1 to 64 entries of 16
 * bytes"; "File memory has 1 to 32,768 bytes"; "The journal has 2,048 bytes". Fills the card
 * in. */
static bool lent_card_sound(struct card *card, uint8_t *table, size_t table_length,
                            uint8_t *files, size_t files_length,
                            uint8_t *journal, size_t journal_length)
{
    if (table_length == 0 || table_length > MOST_ENTRIES * ENTRY_SIZE ||
        table_length % ENTRY_SIZE != 0)
        return false;
    if (files_length == 0 || files_length > MOST_FILE_MEMORY || journal_length != JOURNAL_SIZE)
        return false;
    *card = (struct card){table, table_length / ENTRY_SIZE, files, files_length, journal};
    return table_sound(card) && journal_sound(card);
}

/* ---- Writing the journal ----------------------------------------------- */

/* Appends an entry: the n old bytes, the tail, and U. The caller has seen that there is room. */
static void append_to_journal(uint8_t *journal, uint8_t kind, size_t place,
                              const uint8_t *old, size_t n)
{
    const size_t used = number_at(journal);
    uint8_t *at = journal + JOURNAL_HEAD + used;

    if (n > 0)
        memcpy(at, old, n);
    at += n;
    at[0] = kind;
    at[1] = 0;
    put_number(at + AT_PLACE, (unsigned)place);
    put_number(at + AT_N, (unsigned)n);
    at[6] = 0;
    at[7] = 0;
    put_number(journal, (unsigned)(used + n + TAIL_SIZE));
}

/* "Each accepted run appends a mark (8 bytes)." */
static void append_mark(uint8_t *journal)
{
    append_to_journal(journal, MARK, 0, NULL, 0);
    journal[AT_SCRIPTS]++;
}

/* ---- A session, a command and its outcome ------------------------------ */

enum { NO_FILE = 0 /* entry 0 is the MF, never a file */, NO_RECORD_NUMBER = 0 };

/* "One session's directory, file, record number and waiting bytes". */
struct session {
    uint8_t root;
    uint8_t directory;
    uint8_t file;
    uint8_t record;
    bool domain_closed; /* access domain FF */
    uint8_t waiting_length;
    uint16_t kept_word;
    uint8_t waiting[WAITING_SIZE];
};

/* "Each script starts afresh. The root is the MF (application 0) or the named ADF; the
 * directory is the root, no file is current, no record number, nothing waits. A session
 * starts with 255 waiting bytes of zero, none of them valid." */
static void start_session(struct session *session, size_t application, uint8_t domain)
{
    memset(session, 0, sizeof *session);
    session->root = (uint8_t)application;
    session->directory = (uint8_t)application;
    session->domain_closed = domain == DOMAIN_CLOSED;
}

struct command {
    uint8_t cla, ins, p1, p2;
    uint8_t p3;          /* Lc or Le; 0 where there is neither */
    const uint8_t *data; /* Lc bytes of the script */
};

/* What a command that ends well does. Nothing is done before carry_out. */
struct outcome {
    const uint8_t *data; /* in the file memory or in the waiting bytes */
    size_t data_length;
    uint8_t directory, file, record; /* of the session after it */
    const uint8_t *new_bytes;
    size_t file_place;
    size_t n; /* file bytes written, or 0 */
    size_t table_place; /* table byte written, or 0: byte 0 never is one */
    uint8_t new_value;
};

/* The outcome that leaves the session and the card as they are, and has no data. */
static struct outcome unchanged(const struct session *session)
{
    return (struct outcome){.directory = session->directory, .file = session->file,
                            .record = session->record};
}

/* "A writing command that ends well appends 8 + n for its file bytes, then 9 for a table
 * byte. 6581 exactly when U would pass 2,044". */
static bool journal_has_room(const struct card *card, const struct outcome *outcome)
{
    size_t used = number_at(card->journal);

    if (outcome->n > 0)
        used += TAIL_SIZE + outcome->n;
    if (outcome->table_place > 0)
        used += TAIL_SIZE + 1;
    return used <= MOST_USED;
}

/* Moves the session on and writes what is to be written, each old byte journalled first. */
static void carry_out(const struct card *card, struct session *session,
                      const struct outcome *outcome)
{
    session->directory = outcome->directory;
    session->file = outcome->file;
    session->record = outcome->record;
    if (outcome->n > 0) {
        uint8_t *at = card->files + outcome->file_place;
        append_to_journal(card->journal, FILE_BYTES, outcome->file_place, at, outcome->n);
        memcpy(at, outcome->new_bytes, outcome->n);
    }
    if (outcome->table_place > 0) {
        uint8_t *at = card->table + outcome->table_place;
        append_to_journal(card->journal, TABLE_BYTE, outcome->table_place, at, 1);
        *at = outcome->new_value;
    }
}

/* ---- SELECT ------------------------------------------------------------ */

enum { NONE = MOST_ENTRIES, ANY_KIND = 0 };

/* The child of a directory with this identifier, of kind DF only or of any kind; "ADFs match
 * only as root", so they are nobody's child here. A child's number is larger than the
 * directory's. */
static size_t child_of(const struct card *card, size_t directory, const uint8_t *identifier,
                       uint8_t kind)
{
    for (size_t number = directory + 1; number < card->entries; number++) {
        const uint8_t *entry = entry_of(card, number);
        if (entry[AT_PARENT] == directory && bears(entry, identifier) &&
            entry[AT_KIND] != ADF && (kind == ANY_KIND || entry[AT_KIND] == kind))
            return number;
    }
    return NONE;
}

/* "P1 00: two bytes; the first match of: the root's own identifier (3F00 shared, 7FFF ADF),
 * a child of the directory, the directory's parent, a DF child of that parent. The last two
 * only if the directory is not the root." */
static size_t first_match(const struct card *card, const struct session *session,
                          const uint8_t *identifier)
{
    if (bears(entry_of(card, session->root), identifier))
        return session->root;
    const size_t child = child_of(card, session->directory, identifier, ANY_KIND);
    if (child != NONE || session->directory == session->root)
        return child;
    const size_t parent = entry_of(card, session->directory)[AT_PARENT];
    if (bears(entry_of(card, parent), identifier))
        return parent;
    return child_of(card, parent, identifier, DF);
}

/* "P1 08 from the root, 09 from the directory: 1 to 8 identifiers, each a child of the one
 * before." A file has no children, the parent of every entry being a directory. */
static size_t follow_path(const struct card *card, size_t from, const uint8_t *path,
                          size_t length)
{
    for (size_t at = 0; at < length && from != NONE; at += 2)
        from = child_of(card, from, path + at, ANY_KIND);
    return from;
}

/* "FCP: 62, length, then 82 02 (78 directory, 41 transparent) 21, or 82 05 (42 linear, 46
 * cyclic) 21, record length in 2 bytes, record count; 83 02 identifier; 8A 01 state; for
 * files 80 02 length." */
static size_t write_fcp(const uint8_t *entry, uint8_t *fcp)
{
    const uint8_t kind = entry[AT_KIND];
    uint8_t *at = fcp + 2;

    *at++ = 0x82;
    if (kind == LINEAR || kind == CYCLIC) {
        *at++ = 0x05;
        *at++ = kind == LINEAR ? 0x42 : 0x46;
        *at++ = 0x21;
        *at++ = 0x00;
        *at++ = entry[AT_RECORD_LENGTH];
        *at++ = (uint8_t)record_count(entry);
    } else {
        *at++ = 0x02;
        *at++ = kind == TRANSPARENT ? 0x41 : 0x78;
        *at++ = 0x21;
    }
    *at++ = 0x83;
    *at++ = 0x02;
    *at++ = entry[AT_IDENTIFIER];
    *at++ = entry[AT_IDENTIFIER + 1];
    *at++ = 0x8A;
    *at++ = 0x01;
    *at++ = entry[AT_STATE];
    if (!is_directory(entry)) {
        *at++ = 0x80;
        *at++ = 0x02;
        *at++ = entry[AT_LENGTH];
        *at++ = entry[AT_LENGTH + 1];
    }
    fcp[0] = 0x62;
    fcp[1] = (uint8_t)(at - fcp - 2);
    return (size_t)(at - fcp);
}

/* "SELECT after the domain check: data length 6700, then 6A82." "A directory becomes current
 * with no file; a file makes its parent the directory. Record number: 1 for cyclic, else
 * none. A deactivated file gives 6283." */
static unsigned select_file(const struct card *card, struct session *session,
                            const struct command *command, struct outcome *outcome)
{
    const size_t lc = command->p3;
    size_t found;

    if (command->p1 == BY_IDENTIFIER ? lc != 2 : lc % 2 != 0 || lc > MOST_PATH)
        return WRONG_LENGTH;
    if (command->p1 == BY_IDENTIFIER)
        found = first_match(card, session, command->data);
    else
        found = follow_path(card, command->p1 == PATH_FROM_ROOT ? session->root
                                                                : session->directory,
                            command->data, lc);
    if (found == NONE)
        return NOT_FOUND;

    const uint8_t *entry = entry_of(card, found);
    if (is_directory(entry)) {
        outcome->directory = (uint8_t)found;
        outcome->file = NO_FILE;
    } else {
        outcome->directory = entry[AT_PARENT];
        outcome->file = (uint8_t)found;
    }
    outcome->record = entry[AT_KIND] == CYCLIC ? 1 : NO_RECORD_NUMBER;
    if (command->p2 == WITH_FCP) {
        outcome->data = session->waiting;
        outcome->data_length = write_fcp(entry, session->waiting);
    }
    return entry[AT_STATE] == DEACTIVATED ? WELL_DEACTIVATED : WELL;
}

/* ---- GET RESPONSE ------------------------------------------------------ */

/* "C0 GET RESPONSE (compact): the first P3 waiting bytes, 00 all, with the kept word." "C0
 * likewise: nothing waiting 6985, P3 above what waits 6700." */
static unsigned get_response(const struct session *session, const struct command *command,
                             struct outcome *outcome)
{
    if (session->waiting_length == 0)
        return NOT_NOW;
    if (command->p3 > session->waiting_length)
        return WRONG_LENGTH;
    outcome->data = session->waiting;
    outcome->data_length = command->p3 == 0 ? session->waiting_length : command->p3;
    return session->kept_word;
}

/* ---- Transparent files ------------------------------------------------- */

/* "offset P1P2". */
static size_t offset_of(const struct command *command)
{
    return (size_t)command->p1 << 8 | command->p2;
}

/* "B0 READ BINARY, offset P1P2: P3 bytes, or the bytes left with 6282 if fewer. P3 00: to
 * the end, at most 256." */
static unsigned read_binary(const struct card *card, const uint8_t *entry,
                            const struct command *command, struct outcome *outcome)
{
    const size_t length = number_at(entry + AT_LENGTH);
    const size_t offset = offset_of(command);

    if (offset >= length)
        return WRONG_OFFSET;
    const size_t left = length - offset;
    const size_t most = command->p3 == 0 ? MOST_READ : command->p3;
    outcome->data = card->files + number_at(entry + AT_START) + offset;
    outcome->data_length = left < most ? left : most;
    return left < command->p3 ? SHORT_OR_NONE : WELL;
}

/* "D6 UPDATE BINARY writes only the named bytes in the file's own part of the memory." */
static unsigned update_binary(const uint8_t *entry, const struct command *command,
                              struct outcome *outcome)
{
    const size_t length = number_at(entry + AT_LENGTH);
    const size_t offset = offset_of(command);

    if (offset >= length)
        return WRONG_OFFSET;
    if (command->p3 > length - offset)
        return WRONG_LENGTH;
    outcome->file_place = number_at(entry + AT_START) + offset;
    outcome->new_bytes = command->data;
    outcome->n = command->p3;
    return WELL;
}

/* ---- Records ----------------------------------------------------------- */

/* "A cyclic file with m records and newest place k has record r at place (k + r - 1) mod m."
 * A linear file has byte 9 zero, so the same sum serves it. */
static size_t record_place(const uint8_t *entry, unsigned count, unsigned record)
{
    unsigned place = entry[AT_NEWEST] + record - 1;

    if (place >= count)
        place -= count;
    return number_at(entry + AT_START) + (size_t)place * entry[AT_RECORD_LENGTH];
}

/* "P2 02 next, 03 previous (P1 00), 04 absolute (P1, or the current one if 00, 6A83 without
 * one; the number stays). Next from none is the first, previous from none the last; past an
 * end 6A83 for linear, round for cyclic." NO_RECORD_NUMBER stands for 6A83. */
static unsigned named_record(const uint8_t *entry, unsigned count, unsigned current,
                             const struct command *command)
{
    const bool cyclic = entry[AT_KIND] == CYCLIC;
    unsigned record;

    switch (command->p2) {
    case NEXT:
        if (current == count)
            return cyclic ? 1 : NO_RECORD_NUMBER;
        return current + 1;
    case PREVIOUS:
        if (current == NO_RECORD_NUMBER)
            return count;
        if (current == 1)
            return cyclic ? count : NO_RECORD_NUMBER;
        return current - 1;
    default: /* ABSOLUTE */
        record = command->p1 == 0 ? current : command->p1;
        return record <= count ? record : NO_RECORD_NUMBER;
    }
}

/* "P3 of B2 is 00 or the record length". */
static unsigned read_record(const struct card *card, const uint8_t *entry,
                            const struct command *command, struct outcome *outcome)
{
    const unsigned count = record_count(entry);
    const unsigned record = named_record(entry, count, outcome->record, command);

    if (record == NO_RECORD_NUMBER)
        return NO_RECORD;
    if (command->p3 != 0 && command->p3 != entry[AT_RECORD_LENGTH])
        return WRONG_LENGTH;
    outcome->data = card->files + record_place(entry, count, record);
    outcome->data_length = entry[AT_RECORD_LENGTH];
    if (command->p2 != ABSOLUTE)
        outcome->record = (uint8_t)record;
    return WELL;
}

/* "it writes the oldest place, which becomes newest, record number 1." The oldest record is
 * record m. */
static void write_newest_record(const uint8_t *entry, const uint8_t *new_record,
                                struct outcome *outcome)
{
    const unsigned count = record_count(entry);
    const unsigned newest = entry[AT_NEWEST];

    outcome->file_place = record_place(entry, count, count);
    outcome->new_bytes = new_record;
    outcome->n = entry[AT_RECORD_LENGTH];
    outcome->table_place = (size_t)outcome->file * ENTRY_SIZE + AT_NEWEST;
    outcome->new_value = (uint8_t)((newest == 0 ? count : newest) - 1);
    outcome->record = 1;
}

/* "Lc of DC is the record length. DC on cyclic: mode 03 only". */
static unsigned update_record(const uint8_t *entry, const struct command *command,
                              struct outcome *outcome)
{
    if (entry[AT_KIND] == CYCLIC) {
        if (command->p3 != entry[AT_RECORD_LENGTH])
            return WRONG_LENGTH;
        write_newest_record(entry, command->data, outcome);
        return WELL;
    }
    const unsigned count = record_count(entry);
    const unsigned record = named_record(entry, count, outcome->record, command);
    if (record == NO_RECORD_NUMBER)
        return NO_RECORD;
    if (command->p3 != entry[AT_RECORD_LENGTH])
        return WRONG_LENGTH;
    outcome->file_place = record_place(entry, count, record);
    outcome->new_bytes = command->data;
    outcome->n = command->p3;
    if (command->p2 != ABSOLUTE)
        outcome->record = (uint8_t)record;
    return WELL;
}

/* Whether the data stand somewhere in a record, in one piece. */
static bool contains(const uint8_t *record, size_t record_length, const uint8_t *data,
                     size_t length)
{
    for (size_t at = 0; at + length <= record_length; at++)
        if (record[at] == data[0] && memcmp(record + at, data, length) == 0)
            return true;
    return false;
}

/* "A2 SEARCH, P2 04 from record P1 (00: current, or 6A83) to the last, 05 back to the first:
 * numbers of records that contain the data, in that order; the first becomes current. None:
 * 6282, no data." */
static unsigned search_record(const struct card *card, struct session *session,
                              const uint8_t *entry, const struct command *command,
                              struct outcome *outcome)
{
    const size_t record_length = entry[AT_RECORD_LENGTH];
    const unsigned count = record_count(entry);
    const unsigned from = command->p1 == 0 ? outcome->record : command->p1;
    size_t found = 0;

    if (from == NO_RECORD_NUMBER || from > count)
        return NO_RECORD;
    if (command->p3 > record_length)
        return WRONG_LENGTH;
    const unsigned steps = command->p2 == FORWARD ? count - from + 1 : from;
    for (unsigned step = 0; step < steps; step++) {
        const unsigned record = command->p2 == FORWARD ? from + step : from - step;
        if (contains(card->files + record_place(entry, count, record), record_length,
                     command->data, command->p3))
            session->waiting[found++] = (uint8_t)record;
    }
    if (found == 0)
        return SHORT_OR_NONE;
    outcome->record = session->waiting[0];
    outcome->data = session->waiting;
    outcome->data_length = found;
    return WELL;
}

/* "record 1 plus the data becomes the new record 1, as DC would. Data: new record, then the
 * added bytes." The data are added at the right end. */
static unsigned increase(const struct card *card, struct session *session,
                         const uint8_t *entry, const struct command *command,
                         struct outcome *outcome)
{
    const size_t record_length = entry[AT_RECORD_LENGTH];
    const size_t lc = command->p3;

    if (lc > record_length)
        return WRONG_LENGTH;
    const uint8_t *record = card->files + record_place(entry, record_count(entry), 1);
    uint8_t *sum = session->waiting;
    unsigned carry = 0;
    for (size_t right = 1; right <= record_length; right++) {
        carry += record[record_length - right];
        if (right <= lc)
            carry += command->data[lc - right];
        sum[record_length - right] = (uint8_t)carry;
        carry >>= 8;
    }
    if (carry != 0)
        return SUM_TOO_LONG;
    memcpy(sum + record_length, command->data, lc);
    write_newest_record(entry, sum, outcome);
    outcome->data = sum;
    outcome->data_length = record_length + lc;
    return WELL;
}

/* "04, 44 (P1P2 0000, as C0) deactivate, activate the current file; repeating it is 9000,
 * journalled too." */
static unsigned set_state(uint8_t state, struct outcome *outcome)
{
    outcome->table_place = (size_t)outcome->file * ENTRY_SIZE + AT_STATE;
    outcome->new_value = state;
    return WELL;
}

/* ---- Order for one command, from P1P2 on ------------------------------- */

/* "P1P2 6A86 (B0, D6: P1 above 7F)". */
static bool p1p2_allowed(const struct command *command)
{
    const uint8_t p1 = command->p1, p2 = command->p2;

    switch (command->ins) {
    case SELECT:
        return (p1 == BY_IDENTIFIER || p1 == PATH_FROM_ROOT || p1 == PATH_FROM_DIRECTORY) &&
               (p2 == NO_DATA || p2 == WITH_FCP);
    case READ_BINARY:
    case UPDATE_BINARY:
        return p1 <= 0x7F;
    case READ_RECORD:
    case UPDATE_RECORD:
        return p2 == ABSOLUTE || ((p2 == NEXT || p2 == PREVIOUS) && p1 == 0);
    case SEARCH:
        return p2 == FORWARD || p2 == BACKWARD;
    default: /* INCREASE, DEACTIVATE, ACTIVATE, GET_RESPONSE */
        return p1 == 0 && p2 == 0;
    }
}

/* "kind (INCREASE: or record above 127) 6981". */
static bool kind_allowed(uint8_t ins, const uint8_t *entry)
{
    switch (ins) {
    case READ_BINARY:
    case UPDATE_BINARY:
        return entry[AT_KIND] == TRANSPARENT;
    case READ_RECORD:
    case UPDATE_RECORD:
    case SEARCH:
        return entry[AT_KIND] != TRANSPARENT;
    case INCREASE:
        return entry[AT_KIND] == CYCLIC && entry[AT_RECORD_LENGTH] <= MOST_INCREASE_RECORD;
    default: /* DEACTIVATE, ACTIVATE */
        return true;
    }
}

/* "NEVER bits: 1 read and search, 2 update, 4 increase, 8 deactivate, 16 activate". */
static uint8_t never_bit(uint8_t ins)
{
    switch (ins) {
    case UPDATE_BINARY:
    case UPDATE_RECORD:
        return NEVER_UPDATE;
    case INCREASE:
        return NEVER_INCREASE;
    case DEACTIVATE:
        return NEVER_DEACTIVATE;
    case ACTIVATE:
        return NEVER_ACTIVATE;
    default: /* READ_BINARY, READ_RECORD, SEARCH */
        return NEVER_READ;
    }
}

/* "no file 6986; kind .. 6981; DC on cyclic outside mode 03 6A86; deactivated 6984 (04, 44
 * exempt); NEVER bit 6982". */
static unsigned file_fault(const struct session *session, const uint8_t *entry,
                           const struct command *command)
{
    const uint8_t ins = command->ins;

    if (session->file == NO_FILE)
        return NO_FILE_CURRENT;
    if (!kind_allowed(ins, entry))
        return WRONG_KIND;
    if (ins == UPDATE_RECORD && entry[AT_KIND] == CYCLIC && command->p2 != PREVIOUS)
        return WRONG_P1P2;
    if (entry[AT_STATE] == DEACTIVATED && ins != DEACTIVATE && ins != ACTIVATE)
        return IS_DEACTIVATED;
    if ((entry[AT_NEVER] & never_bit(ins)) != 0)
        return NOT_ALLOWED;
    return NO_FAULT;
}

/* "offset not below length 6B00, record 6A83; lengths against file or record 6700 ..;
 * sum too long 9850", then what the command does. */
static unsigned use_file(const struct card *card, struct session *session,
                         const struct command *command, struct outcome *outcome)
{
    const uint8_t *entry = entry_of(card, session->file);
    const unsigned fault = file_fault(session, entry, command);

    if (fault != NO_FAULT)
        return fault;
    switch (command->ins) {
    case READ_BINARY:
        return read_binary(card, entry, command, outcome);
    case UPDATE_BINARY:
        return update_binary(entry, command, outcome);
    case READ_RECORD:
        return read_record(card, entry, command, outcome);
    case UPDATE_RECORD:
        return update_record(entry, command, outcome);
    case SEARCH:
        return search_record(card, session, entry, command, outcome);
    case INCREASE:
        return increase(card, session, entry, command, outcome);
    default:
        return set_state(command->ins == ACTIVATE ? ACTIVATED : DEACTIVATED, outcome);
    }
}

/* "P1P2 6A86 ..; domain FF 6982 (C0 exempt); .. journal 6581." Nothing of the card and no
 * valid part of the session is changed yet. */
static unsigned decide(const struct card *card, struct session *session,
                       const struct command *command, struct outcome *outcome)
{
    unsigned word;

    if (!p1p2_allowed(command))
        return WRONG_P1P2;
    if (command->ins == GET_RESPONSE)
        return get_response(session, command, outcome);
    if (session->domain_closed)
        return NOT_ALLOWED;
    if (command->ins == SELECT)
        return select_file(card, session, command, outcome);
    word = use_file(card, session, command, outcome);
    if (goes_on(word) && !journal_has_room(card, outcome)) {
        outcome->data_length = 0;
        return JOURNAL_FULL;
    }
    return word;
}

/* "unknown instruction 6D00; class 6E00": "Class 00, INCREASE 80." */
static unsigned instruction_fault(const struct command *command)
{
    switch (command->ins) {
    case INCREASE:
        return command->cla == 0x80 ? NO_FAULT : WRONG_CLASS;
    case SELECT:
    case READ_BINARY:
    case UPDATE_BINARY:
    case READ_RECORD:
    case UPDATE_RECORD:
    case SEARCH:
    case DEACTIVATE:
    case ACTIVATE:
    case GET_RESPONSE:
        return command->cla == 0x00 ? NO_FAULT : WRONG_CLASS;
    default:
        return UNKNOWN_INSTRUCTION;
    }
}

/* The "outgoing" commands: B0, B2, C0. */
static bool is_outgoing(uint8_t ins)
{
    return ins == READ_BINARY || ins == READ_RECORD || ins == GET_RESPONSE;
}

/* ---- Compact ----------------------------------------------------------- */

/* "A4, D6, DC, A2 and 32 carry P3 data bytes". */
static bool carries_data(uint8_t ins)
{
    return ins == SELECT || ins == UPDATE_BINARY || ins == UPDATE_RECORD || ins == SEARCH ||
           ins == INCREASE;
}

/* "Five-byte headers; A4, D6, DC, A2 and 32 carry P3 data bytes". Answers the command's size,
 * or 0 for "too few bytes". */
static size_t read_compact(const uint8_t *at, size_t left, struct command *command)
{
    if (left < HEADER_SIZE)
        return 0;
    const size_t lc = carries_data(at[1]) ? at[4] : 0;
    if (left - HEADER_SIZE < lc)
        return 0;
    *command = (struct command){at[0], at[1], at[2], at[3], at[4], at + HEADER_SIZE};
    return HEADER_SIZE + lc;
}

/* "unknown instruction 6D00; class 6E00; compact B0, B2, C0 with bytes after it 6985; ..
 * Lc 0, or P3 of 04, 44, 6700". */
static unsigned compact_fault(const struct command *command, size_t after)
{
    const unsigned fault = instruction_fault(command);

    if (fault != NO_FAULT)
        return fault;
    if (is_outgoing(command->ins))
        return after > 0 ? NOT_NOW : NO_FAULT;
    return carries_data(command->ins) == (command->p3 != 0) ? NO_FAULT : WRONG_LENGTH;
}

/* "SELECT with FCP, a successful search and INCREASE leave waiting bytes with their own word
 * kept, and report 61 and the length". */
static unsigned leave_waiting(struct session *session, struct outcome *outcome, unsigned word)
{
    session->waiting_length = (uint8_t)outcome->data_length;
    session->kept_word = (uint16_t)word;
    outcome->data_length = 0;
    return WAITS | session->waiting_length;
}

/* One command of a compact script, with so many bytes after it; answers the word it reports. */
static unsigned compact_command(const struct card *card, struct session *session,
                                const struct command *command, size_t after,
                                struct outcome *outcome)
{
    unsigned word = compact_fault(command, after);

    if (word != NO_FAULT)
        return word;
    /* "the next command drops what waited, C0 apart." */
    if (command->ins != GET_RESPONSE)
        session->waiting_length = 0;
    word = decide(card, session, command, outcome);
    if (!goes_on(word))
        return word;
    carry_out(card, session, outcome);
    if (outcome->data_length > 0 && !is_outgoing(command->ins))
        return leave_waiting(session, outcome, word);
    return word;
}

/* "Too few bytes: 6700, counted. Answer: count, status, data of a last outgoing command." */
static uint64_t run_compact(const struct card *card, struct session *session,
                            const uint8_t *script, size_t length, uint8_t *response)
{
    struct command command;
    struct outcome outcome;
    uint32_t count = 0;
    size_t place = 0;
    unsigned word;

    do {
        const size_t size = read_compact(script + place, length - place, &command);
        outcome = unchanged(session);
        count++;
        place += size;
        word = size == 0 ? WRONG_LENGTH
                         : compact_command(card, session, &command, length - place, &outcome);
    } while (goes_on(word) && place < length);

    response[0] = (uint8_t)count; /* at most 205 */
    put_number(response + 1, word);
    if (outcome.data_length > 0)
        memcpy(response + 3, outcome.data, outcome.data_length);
    return answer_of(ACCEPTED, count, 3 + outcome.data_length);
}

/* ---- Expanded: reading the script -------------------------------------- */

enum { TAG_AE = 0xAE, LEAST_APDU = 4 };

/* "Lengths: 00-7F, 81 80-FF, 82 0100-FFFF, shortest form only." "03 no length byte, or too few
 * after 81 or 82; 02 other length form". A length moves the place behind itself. */
static unsigned read_length(const uint8_t *script, size_t end, size_t *place, size_t *length)
{
    const uint8_t *at = script + *place;
    const size_t left = end - *place;

    if (left == 0)
        return NO_LENGTH;
    if (at[0] <= 0x7F) {
        *length = at[0];
        *place += 1;
        return IS_LENGTH;
    }
    if (at[0] == 0x81) {
        if (left < 2)
            return NO_LENGTH;
        *length = at[1];
        *place += 2;
        return *length >= 0x80 ? IS_LENGTH : BAD_LENGTH;
    }
    if (at[0] == 0x82) {
        if (left < 3)
            return NO_LENGTH;
        *length = number_at(at + 1);
        *place += 3;
        return *length >= 0x100 ? IS_LENGTH : BAD_LENGTH;
    }
    return BAD_LENGTH;
}

/* An expanded script that is read. */
struct script {
    const uint8_t *bytes;
    size_t place; /* of the next byte to be read */
    size_t end;   /* of the template's value */
    bool definite; /* AA */
};

/* "AA, length, value to the script's end; or AE 80, value, 00 00 as the last two bytes." */
static bool read_template(const uint8_t *bytes, size_t length, struct script *script)
{
    size_t value_length;

    *script = (struct script){bytes, 1, length, bytes[0] == TAG_AA};
    if (script->definite)
        return read_length(bytes, length, &script->place, &value_length) == IS_LENGTH &&
               value_length == length - script->place;
    if (bytes[0] != TAG_AE || length < 4 || bytes[1] != INDEFINITE ||
        number_at(bytes + length - 2) != 0)
        return false;
    script->place = 2;
    script->end = length - 2;
    return true;
}

/* "Inside, tag 22 or A2 is a C-APDU". "Bad format TLV 90 01: 01 other tag; 03 no length byte,
 * or too few after 81 or 82; 02 other length form, past the end, or below 4." */
static unsigned read_c_apdu(struct script *script, const uint8_t **apdu, size_t *size)
{
    const uint8_t tag = script->bytes[script->place];

    if (tag != TAG_C_APDU && tag != 0xA2)
        return OTHER_TAG;
    script->place++;
    const unsigned bad = read_length(script->bytes, script->end, &script->place, size);
    if (bad != IS_LENGTH)
        return bad;
    if (*size > script->end - script->place || *size < LEAST_APDU)
        return BAD_LENGTH;
    *apdu = script->bytes + script->place;
    script->place += *size;
    return IS_LENGTH;
}

enum { BAD_SIZE = 0, CASE_1 = 1, CASE_2 = 2, CASE_3 = 3, CASE_4 = 4 };

/* "C-APDU size 4 is case 1, 5 case 2, 5+Lc case 3, 6+Lc case 4 with Le 00; else 6700." */
static unsigned case_by_size(const uint8_t *apdu, size_t size)
{
    if (size == 4)
        return CASE_1;
    if (size == 5)
        return CASE_2;
    if (size == 5u + apdu[4])
        return CASE_3;
    if (size == 6u + apdu[4] && apdu[size - 1] == 0)
        return CASE_4;
    return BAD_SIZE;
}

/* "04, 44 need 1; B0, B2, C0 2; SELECT 0C, D6, DC 3; the rest 4." */
static unsigned needed_case(const struct command *command)
{
    switch (command->ins) {
    case DEACTIVATE:
    case ACTIVATE:
        return CASE_1;
    case READ_BINARY:
    case READ_RECORD:
    case GET_RESPONSE:
        return CASE_2;
    case UPDATE_BINARY:
    case UPDATE_RECORD:
        return CASE_3;
    case SELECT:
        return command->p2 == NO_DATA ? CASE_3 : CASE_4;
    default: /* SEARCH, INCREASE */
        return CASE_4;
    }
}

/* "broken form (.. no case's size) 6700; unknown instruction 6D00; class 6E00; .. wrong
 * case, Lc 0, .. 6700". Only case 4 can have Lc 0. */
static unsigned expanded_fault(const struct command *command, unsigned by_size)
{
    if (by_size == BAD_SIZE)
        return WRONG_LENGTH;
    const unsigned fault = instruction_fault(command);
    if (fault != NO_FAULT)
        return fault;
    if (by_size != needed_case(command) || (by_size == CASE_4 && command->p3 == 0))
        return WRONG_LENGTH;
    return NO_FAULT;
}

/* ---- Expanded: answering ----------------------------------------------- */

enum { LAST_R_APDU = 4 /* 23 02 and a status, the one that may pass 1,000 */ };

/* The R-APDUs kept so far, and a last one or a Bad format TLV. */
struct kept {
    size_t length;
    uint8_t bytes[MOST_KEPT + LAST_R_APDU];
};

/* The bytes of a whole R-APDU. */
static size_t r_apdu_size(size_t data_length)
{
    return 1 + length_size(data_length + 2) + data_length + 2;
}

/* "R-APDU: 23, length, data, status." */
static void keep_r_apdu(struct kept *kept, const struct outcome *outcome, unsigned word)
{
    uint8_t *at = kept->bytes + kept->length;

    *at++ = TAG_R_APDU;
    at = put_length(at, outcome->data_length + 2);
    if (outcome->data_length > 0)
        memcpy(at, outcome->data, outcome->data_length);
    put_number(at + outcome->data_length, word);
    kept->length += r_apdu_size(outcome->data_length);
}

/* "Bad format TLV 90 01". */
static void keep_bad_format(struct kept *kept, unsigned code)
{
    uint8_t *at = kept->bytes + kept->length;

    at[0] = TAG_BAD_FORMAT;
    at[1] = 0x01;
    at[2] = (uint8_t)code;
    kept->length += 3;
}

/* One C-APDU, its R-APDU counted against the 1,000 bytes or not; answers the word it gives. */
static unsigned expanded_command(const struct card *card, struct session *session,
                                 const uint8_t *apdu, unsigned by_size, size_t kept_so_far,
                                 bool counted, struct outcome *outcome)
{
    const bool has_p3 = by_size != CASE_1;
    const struct command command = {apdu[0], apdu[1], apdu[2], apdu[3],
                                    has_p3 ? apdu[4] : 0, has_p3 ? apdu + HEADER_SIZE : NULL};
    unsigned word = expanded_fault(&command, by_size);

    if (word == NO_FAULT)
        word = decide(card, session, &command, outcome);
    /* "If R-APDUs kept so far and this one (0 for AA and case 1 or 3 or a bad size) would pass
     * 1,000 bytes, the command changes nothing, gets 6F00 and stops." */
    if (counted && kept_so_far + r_apdu_size(outcome->data_length) > MOST_KEPT) {
        *outcome = unchanged(session);
        return NO_ROOM;
    }
    if (goes_on(word))
        carry_out(card, session, outcome);
    return word;
}

/* "AA answers AB, length, 80, length, count as shortest signed integer (128 is 00 80),
 * R-APDUs". "AE answers AF 80, all R-APDUs, 00 00." The count is at most 170. */
static size_t put_answer(uint8_t *response, bool definite, uint32_t count,
                         const struct kept *kept)
{
    uint8_t *at = response;

    if (definite) {
        const size_t count_size = count < 0x80 ? 1 : 2;
        *at++ = TAG_AB;
        at = put_length(at, 2 + count_size + kept->length);
        *at++ = TAG_COUNT;
        *at++ = (uint8_t)count_size;
        if (count_size == 2)
            *at++ = (uint8_t)(count >> 8);
        *at++ = (uint8_t)count;
    } else {
        *at++ = TAG_AF;
        *at++ = INDEFINITE;
    }
    if (kept->length > 0)
        memcpy(at, kept->bytes, kept->length);
    at += kept->length;
    if (!definite) {
        *at++ = 0x00;
        *at++ = 0x00;
    }
    return (size_t)(at - response);
}

/* "A script is read from front to back, once." AA keeps "R-APDUs of case 2 and 4 commands (by
 * size) and of the last command, once (a Bad format TLV counts as the last command)". */
static uint64_t run_expanded(const struct card *card, struct session *session,
                             struct script *script, uint8_t *response)
{
    struct kept kept;
    uint32_t count = 0;
    bool last_left_out = false;
    unsigned word = WELL;
    struct outcome outcome = unchanged(session);

    kept.length = 0;
    while (goes_on(word) && script->place < script->end) {
        const uint8_t *apdu;
        size_t size;
        const unsigned bad = read_c_apdu(script, &apdu, &size);
        count++;
        if (bad != IS_LENGTH) { /* "It counts and stops." */
            keep_bad_format(&kept, bad);
            last_left_out = false;
            break;
        }
        const unsigned by_size = case_by_size(apdu, size);
        const bool keeps = !script->definite || by_size == CASE_2 || by_size == CASE_4;
        outcome = unchanged(session);
        word = expanded_command(card, session, apdu, by_size, kept.length, keeps, &outcome);
        if (keeps)
            keep_r_apdu(&kept, &outcome, word);
        last_left_out = !keeps;
    }
    if (last_left_out)
        keep_r_apdu(&kept, &outcome, word);
    return answer_of(ACCEPTED, count, put_answer(response, script->definite, count, &kept));
}

/* ---- The three calls --------------------------------------------------- */

/* "application neither 0 (shared files) nor an ADF's entry number". */
static bool is_application(const struct card *card, size_t application)
{
    return application == 0 ||
           (application < card->entries && entry_of(card, application)[AT_KIND] == ADF);
}

/* K1: "a script that starts with AA or AE is expanded, any other compact". The form of a script
 * of 1 byte or more: its format, or with format 2 the one that its first byte shows. */
static uint8_t form_found(uint8_t format, const uint8_t *script)
{
    if (format != DETECT)
        return format;
    return script[0] == TAG_AA || script[0] == TAG_AE ? EXPANDED : COMPACT;
}

/* "One library runs a remote file management script against a lent card". */
uint64_t second_run(uint8_t *table, size_t table_length, uint8_t *files, size_t files_length,
                    uint8_t *journal, size_t journal_length, size_t application,
                    uint8_t domain, uint8_t format, const uint8_t *script,
                    size_t script_length, uint8_t *response, size_t response_length)
{
    struct card card;
    struct session session;
    struct script expanded;

    /* "Checked in this order." */
    if (!lent_card_sound(&card, table, table_length, files, files_length, journal,
                         journal_length))
        return NOT_SOUND;
    /* K1: "number 2's format is now one above 2". */
    if (format > DETECT || !is_application(&card, application) ||
        (domain != DOMAIN_OPEN && domain != DOMAIN_CLOSED))
        return WRONG_ARGUMENT;
    if (script_length < 1 || script_length > MOST_SCRIPT)
        return WRONG_SCRIPT_LENGTH;
    /* K1: "the answer has the form found"; "6 also applies to a script found to be expanded". So
     * from here on nothing asks the format. */
    const uint8_t form = form_found(format, script);
    if (response_length < LEAST_RESPONSE)
        return SMALL_RESPONSE;
    if (journal[AT_SCRIPTS] == MOST_SCRIPTS || number_at(journal) + TAIL_SIZE > MOST_USED)
        return NO_TRIAL_ROOM;
    if (form == EXPANDED && !read_template(script, script_length, &expanded))
        return NO_TEMPLATE;

    append_mark(journal);
    start_session(&session, application, domain);
    if (form == EXPANDED)
        return run_expanded(&card, &session, &expanded, response);
    return run_compact(&card, &session, script, script_length, response);
}

/* "A take-back restores entries newest first to the newest mark, drops it and zeros the freed
 * bytes." */
uint64_t second_take_back(uint8_t *table, size_t table_length, uint8_t *files,
                          size_t files_length, uint8_t *journal, size_t journal_length)
{
    struct card card;

    if (!lent_card_sound(&card, table, table_length, files, files_length, journal,
                         journal_length))
        return NOT_SOUND;
    if (journal[AT_SCRIPTS] == 0)
        return NOTHING_ON_TRIAL;

    uint8_t *entries = journal + JOURNAL_HEAD;
    const size_t used = number_at(journal);
    size_t left = used;
    uint8_t kind;
    do {
        const uint8_t *tail = entries + left - TAIL_SIZE;
        const size_t place = number_at(tail + AT_PLACE);
        const size_t n = number_at(tail + AT_N);
        kind = tail[0];
        if (kind == FILE_BYTES)
            memcpy(files + place, tail - n, n);
        else if (kind == TABLE_BYTE)
            table[place] = tail[-1];
        left -= n + TAIL_SIZE;
    } while (kind != MARK);
    memset(entries + left, 0, used - left);
    put_number(journal, (unsigned)left);
    journal[AT_SCRIPTS]--;
    return ACCEPTED;
}

/* "A confirmation zeros the journal." */
uint64_t second_confirm(uint8_t *table, size_t table_length, uint8_t *files,
                        size_t files_length, uint8_t *journal, size_t journal_length)
{
    struct card card;

    if (!lent_card_sound(&card, table, table_length, files, files_length, journal,
                         journal_length))
        return NOT_SOUND;
    memset(journal, 0, JOURNAL_SIZE);
    return ACCEPTED;
}
