/* The measure: the same calls by the library and by the second program.
 *
 *   measure            makes each call by both, compares all that came out, and prints for each row
 *                      group|call|number|commands|U before|U after|deepest stack of the library|of
 *                      the second program, the stack in bytes; at the desk commands are operations
 *                      or the answer's count, and there is no U
 *   measure ROW SIDE   makes the call of a row (from 0) by a side (0 the library, 1 the second
 *                      program, 2 none of them) */
#include "../second/desk.h"
#include "desk.h"

#include <stdio.h>
#include <stdlib.h>
#include <string.h>
#include <ucontext.h>

static const struct program sides[] = {{rfm_run, rfm_take_back, library_confirm, rfm_build,
                                        rfm_read_answer, rfm_result},
                                       {second_run, second_take_back, second_confirm, second_build,
                                        second_read_answer, second_result}};

/* ---- The rows ---- */

enum content { ZEROS, MIXED }; /* of file memory; mixed bytes are below 80 */
enum { WORKED = 0 };           /* entries of the worked card, by name */
enum place { LAST, MIDDLE };   /* of the odd byte among a command's data */
enum number { OWN, DETECT };   /* the format number: the style's own, or that of detection */

struct row {
    const char *group, *name;
    enum call_kind kind;
    size_t entries;           /* the first ones of the largest card, or the worked card */
    enum content content;
    size_t used, trials, old; /* the journal: U, scripts on trial, old bytes of an entry */
    uint8_t domain;
    enum style style;
    size_t script_length;
    uint8_t ins;              /* SELECT once, or after its file's SELECT this to the end */
    size_t lc;
    uint8_t fill, odd;        /* its data: all bytes but one, and that one */
    enum place place;
    enum number number;
};

#define CALL "call"
#define ENTRIES "one command, by entries"
#define LENGTH "UPDATE of 1 byte on the worked card, by script length"

static const struct row rows[] = {
    {CALL, "run, refused with 2, journal empty",
     RUN, 64, MIXED, 0, 0, 1, 0x01, COMPACT, 1024, UPDATE_BINARY, 1, 0x5A, 0x5A, LAST, OWN},
    {CALL, "run, refused with 5, journal full",
     RUN, 64, MIXED, 2044, 15, 1, 0, COMPACT, 1024, UPDATE_BINARY, 1, 0x5A, 0x5A, LAST, OWN},
    {CALL, "one command on the worked card, compact",
     RUN, WORKED, ZEROS, 0, 0, 0, 0, COMPACT, 7, SELECT, 2, 0, 0, LAST, OWN},
    {CALL, "one command on the worked card, expanded",
     RUN, WORKED, ZEROS, 0, 0, 0, 0, AA, 11, SELECT, 2, 0, 0, LAST, OWN},
    {CALL, "one command on the worked card, compact, detected",
     RUN, WORKED, ZEROS, 0, 0, 0, 0, COMPACT, 7, SELECT, 2, 0, 0, LAST, DETECT},
    {CALL, "one command on the worked card, expanded, detected",
     RUN, WORKED, ZEROS, 0, 0, 0, 0, AA, 11, SELECT, 2, 0, 0, LAST, DETECT},
    {CALL, "UPDATE of 1 byte",
     RUN, 64, MIXED, 523, 15, 1, 0, COMPACT, 1024, UPDATE_BINARY, 1, 0x5A, 0x5A, LAST, OWN},
    {CALL, "UPDATE of 1 byte, expanded (AE)",
     RUN, 64, MIXED, 908, 15, 1, 0, AE, 1024, UPDATE_BINARY, 1, 0x5A, 0x5A, LAST, OWN},
    {CALL, "UPDATE of 1 byte until 6581",
     RUN, 64, MIXED, 1500, 15, 1, 0, COMPACT, 1024, UPDATE_BINARY, 1, 0x5A, 0x5A, LAST, OWN},
    {CALL, "UPDATE of 247 bytes",
     RUN, 64, MIXED, 1015, 15, 1, 0, COMPACT, 1024, UPDATE_BINARY, 247, 0x5A, 0x5A, LAST, OWN},
    {CALL, "SEARCH for 58 bytes, not found",
     RUN, 64, MIXED, 2036, 15, 1, 0, COMPACT, 1024, SEARCH, 58, 0x25, 0x80, LAST, OWN},
    {CALL, "SEARCH for 121 bytes, each place but for the last byte",
     RUN, 64, ZEROS, 2036, 15, 1, 0, COMPACT, 1024, SEARCH, 121, 0x00, 0x01, LAST, OWN},
    {CALL, "SEARCH for 121 bytes, each place but for a byte in the middle",
     RUN, 64, ZEROS, 2036, 15, 1, 0, COMPACT, 1024, SEARCH, 121, 0x00, 0x01, MIDDLE, OWN},
    {CALL, "SEARCH for 1 byte, found first in each record",
     RUN, 64, ZEROS, 2036, 15, 1, 0, COMPACT, 1024, SEARCH, 1, 0x00, 0x00, LAST, OWN},
    {CALL, "INCREASE by 121 bytes",
     RUN, 64, MIXED, 884, 15, 1, 0, COMPACT, 1024, INCREASE, 121, 0x01, 0x01, LAST, OWN},
    {CALL, "take-back of entries of 1 byte, journal full",
     TAKE_BACK, 64, MIXED, 2044, 1, 1, 0, COMPACT, 0, 0, 0, 0, 0, LAST, OWN},
    {CALL, "take-back of entries of 246 bytes, journal full",
     TAKE_BACK, 64, MIXED, 2044, 1, 246, 0, COMPACT, 0, 0, 0, 0, 0, LAST, OWN},
    {CALL, "confirmation, journal full",
     CONFIRM, 64, MIXED, 2044, 16, 1, 0, COMPACT, 0, 0, 0, 0, 0, LAST, OWN},
    {ENTRIES, "1",
     RUN, 1, MIXED, 0, 0, 0, 0, COMPACT, 7, SELECT, 2, 0, 0, LAST, OWN},
    {ENTRIES, "8",
     RUN, 8, MIXED, 0, 0, 0, 0, COMPACT, 7, SELECT, 2, 0, 0, LAST, OWN},
    {ENTRIES, "16",
     RUN, 16, MIXED, 0, 0, 0, 0, COMPACT, 7, SELECT, 2, 0, 0, LAST, OWN},
    {ENTRIES, "32",
     RUN, 32, MIXED, 0, 0, 0, 0, COMPACT, 7, SELECT, 2, 0, 0, LAST, OWN},
    {ENTRIES, "64",
     RUN, 64, MIXED, 0, 0, 0, 0, COMPACT, 7, SELECT, 2, 0, 0, LAST, OWN},
    {LENGTH, "64",
     RUN, WORKED, ZEROS, 0, 0, 0, 0, COMPACT, 64, UPDATE_BINARY, 1, 0x5A, 0x5A, LAST, OWN},
    {LENGTH, "256",
     RUN, WORKED, ZEROS, 0, 0, 0, 0, COMPACT, 256, UPDATE_BINARY, 1, 0x5A, 0x5A, LAST, OWN},
    {LENGTH, "1024",
     RUN, WORKED, ZEROS, 0, 0, 0, 0, COMPACT, 1024, UPDATE_BINARY, 1, 0x5A, 0x5A, LAST, OWN},
};

enum { ROWS = sizeof rows / sizeof rows[0], SIDES = sizeof sides / sizeof sides[0] };

/* ---- Cards ---- */

enum { DIRECTORY_STEP = 5, DIRECTORIES = 12, LARGE_FILE = 63, SMALL_FILES = 51, SMALL_LENGTH = 10 };

/* Sets an entry that is activated and has no NEVER bit. */
static void put_entry(struct card *card, size_t number, unsigned identifier, size_t parent,
                      uint8_t kind, size_t start, size_t length, size_t record_length)
{
    uint8_t *entry = entry_at(card, number);

    memset(entry, 0, ENTRY_SIZE);
    put_number(entry, identifier);
    entry[AT_PARENT] = (uint8_t)parent;
    entry[AT_KIND] = kind;
    put_number(entry + AT_START, start);
    put_number(entry + AT_LENGTH, length);
    entry[AT_RECORD_LENGTH] = (uint8_t)record_length;
    entry[AT_STATE] = ACTIVATED;
}

/* The paper's worked card, but for the bytes in file memory. */
static void make_worked_card(struct card *card)
{
    put_entry(card, 0, ID_MF, 0, MF, 0, 0, 0);
    put_entry(card, 1, 0x7F10, 0, DF, 0, 0, 0);
    put_entry(card, 2, 0x6F46, 1, TRANSPARENT, 0, 17, 0);
    put_entry(card, 3, 0x6F3A, 1, LINEAR, 17, 12, 4);
    put_entry(card, 4, 0x6F39, 1, CYCLIC, 29, 9, 3);
    put_entry(card, 5, ID_ADF, 0, ADF, 0, 0, 0);
    put_entry(card, 6, 0x6F46, 5, TRANSPARENT, 38, 17, 0);
    entry_at(card, 6)[AT_NEVER] = NEVER_UPDATE;
    card->table.length = 7 * ENTRY_SIZE;
    card->files.length = 55;
}

/* Every fifth entry is a directory: the MF, three ADFs, DFs one in another. */
static void put_directory(struct card *card, size_t number)
{
    static const uint8_t parents[DIRECTORIES] = {0, 0, 5, 0, 10, 15, 0, 20, 25, 0, 45, 0};

    if (number == 0)
        put_entry(card, number, ID_MF, 0, MF, 0, 0, 0);
    else if (number % 15 == 0)
        put_entry(card, number, ID_ADF, 0, ADF, 0, 0, 0);
    else
        put_entry(card, number, 0x7F00 + (unsigned)number, parents[number / DIRECTORY_STEP], DF,
                  0, 0, 0);
}

/* A file of ten bytes in some directory and at some place, with some state and NEVER bits. */
static void put_small_file(struct card *card, size_t number)
{
    static const uint8_t record_lengths[] = {[TRANSPARENT] = 0, [LINEAR] = 5, [CYCLIC] = 2};
    const size_t directories = smaller(number / DIRECTORY_STEP + 1, DIRECTORIES); /* before it */
    const size_t place = (number - directories) * 23 % SMALL_FILES;
    const uint8_t kind = (uint8_t)(TRANSPARENT + number % 3);
    uint8_t *entry = entry_at(card, number);

    put_entry(card, number, 0x6F00 + (unsigned)number, number % directories * DIRECTORY_STEP, kind,
              place * SMALL_LENGTH, SMALL_LENGTH, record_lengths[kind]);
    entry[AT_NEWEST] = kind == CYCLIC ? number % 5 : 0;
    entry[AT_STATE] = number % 7 == 0 ? DEACTIVATED : ACTIVATED;
    entry[AT_NEVER] = number % 4 == 0 ? number % 32 : 0;
}

/* The first entries of the largest card: 12 directories, 51 small files and last, made for the
 * instruction, one of 254 times 127 bytes; together they fill file memory. */
static void make_large_card(struct card *card, size_t entries, uint8_t ins)
{
    const uint8_t kind = ins == SEARCH ? LINEAR : ins == INCREASE ? CYCLIC : TRANSPARENT;

    for (size_t number = 0; number < entries; number++) {
        if (number == LARGE_FILE)
            put_entry(card, number, 0x6F00 + LARGE_FILE, 35, kind, SMALL_FILES * SMALL_LENGTH,
                      MOST_RECORDS * 127, kind == TRANSPARENT ? 0 : 127);
        else if (number % DIRECTORY_STEP == 0 && number < DIRECTORIES * DIRECTORY_STEP)
            put_directory(card, number);
        else
            put_small_file(card, number);
    }
    card->table.length = entries * ENTRY_SIZE;
    card->files.length = MOST_FILES;
}

/* ---- Journals ---- */

/* Appends a journal entry with so many equal old bytes. */
static void append(uint8_t *journal, uint8_t kind, size_t place, size_t n, uint8_t old)
{
    const size_t used = number_at(journal);
    uint8_t *tail = journal + JOURNAL_HEAD + used + n;

    memset(tail - n, old, n);
    tail[0] = kind;
    put_number(tail + AT_PLACE, place);
    put_number(tail + AT_N, n);
    put_number(journal, used + n + TAIL_SIZE);
}

/* Fills the journal up to U: each script on trial has one entry, the newest all others too. Entries
 * of one byte are by turns in file memory and in the table; the last one takes what is left. */
static void make_journal_up_to(struct card *card, size_t used, size_t trials, size_t old)
{
    uint8_t *journal = card->journal.at;

    for (size_t i = 0; number_at(journal) < used; i++) {
        if (journal[AT_SCRIPTS] < trials) {
            journal[AT_SCRIPTS]++;
            append(journal, MARK, 0, 0, 0);
        }
        const size_t left = used - number_at(journal), place = i * 499 % (MOST_FILES - MOST_OLD);
        const size_t file = 1 + i % DIRECTORIES * DIRECTORY_STEP;
        if (left < 2 * (old + TAIL_SIZE))
            append(journal, FILE_BYTES, place, left - TAIL_SIZE, 0x11);
        else if (old > 1 || i % 2 == 0)
            append(journal, FILE_BYTES, place, old, 0x11);
        else if (entry_of(card, file)[AT_KIND] == CYCLIC)
            append(journal, TABLE_BYTE, file * ENTRY_SIZE + AT_NEWEST, 1, 1);
        else
            append(journal, TABLE_BYTE, file * ENTRY_SIZE + AT_STATE, 1, ACTIVATED);
    }
}

/* ---- Scripts ---- */

enum { TLV_HEAD = 2, TEMPLATE_HEAD = 2, TEMPLATE_END = 2 };

/* Appends a command, in a C-APDU's TLV of at most 127 bytes if the script is expanded. */
static void add_command(struct call *call, uint8_t ins, uint8_t p1, uint8_t p2,
                        const uint8_t *data, size_t lc)
{
    struct script *script = &call->script;
    const uint8_t tlv[TLV_HEAD] = {0x22, (uint8_t)(HEADER_SIZE + lc)};
    const uint8_t header[HEADER_SIZE] = {ins == INCREASE ? 0x80 : 0x00, ins, p1, p2, (uint8_t)lc};

    if (call->format == 1) {
        memcpy(script->at + script->length, tlv, TLV_HEAD);
        script->length += TLV_HEAD;
    }
    memcpy(script->at + script->length, header, HEADER_SIZE);
    memcpy(script->at + script->length + HEADER_SIZE, data, lc);
    script->length += HEADER_SIZE + lc;
}

/* Selects the file, then has the row's command as often as it fits; the last takes what is left. */
static void add_commands(struct call *call, const struct row *row, size_t end)
{
    static const uint8_t worked_path[] = {0x7F, 0x10, 0x6F, 0x46};
    static const uint8_t large_path[] = {0x7F, 5, 0x7F, 10, 0x7F, 20, 0x7F, 35, 0x6F, LARGE_FILE};
    const size_t head = call->format == 1 ? TLV_HEAD + HEADER_SIZE : HEADER_SIZE;
    uint8_t data[MOST_SCRIPT];

    if (row->entries == WORKED)
        add_command(call, SELECT, PATH_FROM_ROOT, NO_DATA, worked_path, sizeof worked_path);
    else
        add_command(call, SELECT, PATH_FROM_ROOT, NO_DATA, large_path, sizeof large_path);
    memset(data, row->fill, sizeof data);
    while (call->script.length < end) {
        const size_t left = end - call->script.length;
        const size_t lc = left < 2 * (head + row->lc) ? left - head : row->lc;
        const size_t odd = row->place == LAST ? lc - 1 : lc / 2;
        data[odd] = row->odd;
        if (row->ins == SEARCH)
            add_command(call, SEARCH, 1, FORWARD, data, lc);
        else
            add_command(call, row->ins, 0x00, 0x00, data, lc);
        data[odd] = row->fill;
    }
}

/* Makes the row's script: one SELECT, of the DF on the worked card or of the MF on another, or the
 * row's commands. */
static void make_row_script(struct call *call, const struct row *row)
{
    static const uint8_t mf[] = {0x3F, 0x00}, df[] = {0x7F, 0x10};
    struct script *script = &call->script;

    if (row->style != COMPACT) {
        script->at[0] = row->style == AA ? 0xAA : 0xAE;
        script->at[1] = row->style == AA ? (uint8_t)(row->script_length - TEMPLATE_HEAD) : 0x80;
        script->length = TEMPLATE_HEAD;
    }
    if (row->ins == SELECT)
        add_command(call, SELECT, BY_IDENTIFIER, NO_DATA, row->entries == WORKED ? df : mf,
                    sizeof mf);
    else
        add_commands(call, row, row->script_length - (row->style == AE ? TEMPLATE_END : 0));
    script->length = row->script_length; /* AE: the last two bytes are zero */
}

/* ---- Making a call ---- */

/* A call with all that it is lent, on a card or at the desk. */
struct lent {
    struct card card;
    struct call call;
    struct answer answer;
    const struct desk_row *desk_row; /* or NULL */
    struct desk_lent desk;
};

/* Makes all that the call of a row on a card is lent; it was zero before. */
static void lend_card(const struct row *row, struct lent *lent)
{
    struct memory *files = &lent->card.files;

    if (row->entries == WORKED)
        make_worked_card(&lent->card);
    else
        make_large_card(&lent->card, row->entries, row->ins);
    for (size_t i = 0; row->content == MIXED && i < files->length; i++)
        files->at[i] = (uint8_t)((i * 37 + i / 127) & 0x7F);
    lent->card.journal.length = JOURNAL_SIZE;
    make_journal_up_to(&lent->card, row->used, row->trials, row->old);
    lent->call.kind = row->kind;
    lent->call.domain = row->domain;
    lent->call.format = row->style != COMPACT;
    lent->call.response_length = LEAST_RESPONSE;
    if (row->kind == RUN)
        make_row_script(&lent->call, row);
    if (row->number == DETECT)
        lent->call.format = RFM_DETECT;
}

/* Makes all that the call of a row is lent, those of the desk being the last. */
static void lend(size_t row, struct lent *lent)
{
    if (row < ROWS) {
        lend_card(&rows[row], lent);
    } else {
        lent->desk_row = &desk_rows[row - ROWS];
        lend_desk(lent->desk_row, &lent->desk);
    }
}

/* Makes the call on a card by one of the two programs. */
static void make_card_call(const struct program *side, struct lent *lent)
{
    struct card *card = &lent->card;
    const struct call *call = &lent->call;
    uint64_t result;

    if (call->kind == RUN)
        result = side->run(card->table.at, card->table.length, card->files.at, card->files.length,
                           card->journal.at, card->journal.length, call->application, call->domain,
                           call->format, call->script.at, call->script.length,
                           lent->answer.response, call->response_length);
    else
        result = (call->kind == TAKE_BACK ? side->take_back : side->confirm)(
            card->table.at, card->table.length, card->files.at, card->files.length,
            card->journal.at, card->journal.length);
    lent->answer.result = result;
}

/* Makes the call by one of the two programs. */
static void make_call(const struct program *side, struct lent *lent)
{
    if (lent->desk_row != NULL)
        make_desk_call(lent->desk_row, side, &lent->desk);
    else
        make_card_call(side, lent);
}

/* ---- The stack of a call ---- */

enum { STACK_SIZE = 1 << 16, PAGE = 4096, PAINT = 0xC7 };

static _Alignas(PAGE) uint8_t stack[STACK_SIZE];
static uint8_t *stack_top; /* where the caller's own frame begins */
static const struct program *calling; /* or NULL */
static struct lent *lending;

/* What on_own_stack starts. */
static void call_on_own_stack(void)
{
    stack_top = __builtin_frame_address(0);
    if (calling != NULL)
        make_call(calling, lending);
}

/* Makes the call, or none, on a stack that always lies alike, as the instructions of a copy depend
 * on where it goes. */
static void on_own_stack(const struct program *side, struct lent *lent)
{
    ucontext_t here, there;

    calling = side;
    lending = lent;
    getcontext(&there);
    there.uc_stack.ss_sp = stack;
    there.uc_stack.ss_size = sizeof stack;
    there.uc_link = &here;
    makecontext(&there, call_on_own_stack, 0);
    swapcontext(&here, &there);
}

/* Makes the call on a painted stack; answers how far the paint is gone, from its caller's frame. */
static size_t deepest_stack(const struct program *side, struct lent *lent)
{
    size_t untouched = 0;

    memset(stack, PAINT, sizeof stack);
    on_own_stack(side, lent);
    while (stack[untouched] == PAINT)
        untouched++;
    return (size_t)(stack_top - stack) - untouched;
}

/* ---- The two uses ---- */

static _Alignas(PAGE) struct lent lents[2];

/* Makes the row's call by both sides and prints its line; answers whether all came out equal. */
static bool compare_row(size_t row)
{
    memset(lents, 0, sizeof lents);
    lend(row, &lents[0]);
    lend(row, &lents[1]);
    const unsigned before = number_at(lents[0].card.journal.at);
    const size_t library = deepest_stack(&sides[0], &lents[0]);
    const size_t second = deepest_stack(&sides[1], &lents[1]);
    const uint64_t result = row < ROWS ? lents[0].answer.result : lents[0].desk.result;
    const unsigned number = RFM_NUMBER(result), count = RFM_COUNT(result);

    if (row < ROWS)
        printf("%s|%s|%u|%u|%u|%u|%zu|%zu\n", rows[row].group, rows[row].name, number, count,
               before, number_at(lents[0].card.journal.at), library, second);
    else
        printf("at the desk|%s|%u|%u|-|-|%zu|%zu\n", lents[0].desk_row->name, number, count,
               library, second);
    return memcmp(&lents[0], &lents[1], sizeof lents[0]) == 0;
}

int main(int arguments, char **argument)
{
    if (arguments == 3) {
        const int side = atoi(argument[2]);
        lend((size_t)atoi(argument[1]), &lents[0]);
        on_own_stack(side < SIDES ? &sides[side] : NULL, &lents[0]);
        return 0;
    }
    for (size_t i = 0; i < ROWS + DESK_ROWS; i++)
        if (!compare_row(i)) {
            printf("measure: a difference in this row\n");
            return 1;
        }
    return 0;
}
