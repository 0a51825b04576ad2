/* The desk's side of the second program: request K2. What stands in quotation marks is the
 * request's; the rest is how its open points are read. */
#include "desk.h"

#include "rules.h"

/* ---- Building: operations ---------------------------------------------- */

/* The bytes of an operation's row. */
enum { AT_KIND = 0, AT_MODE = 1, AT_NUMBER = 2, AT_FROM = 4, AT_COUNT = 6 };

enum { MOST_DATA = 255, MOST_RECORD_NUMBER = 255, MOST_OFFSET = 0x7FFF };

/* "Refusals, in this order: not 1 to 40 operations, one that the format can't carry (a read that
 * isn't last in compact), a script above the engine's length." After the three: lent memory that is
 * shorter than the script. */
enum { BUILT = 0, NOT_1_TO_40 = 1, NOT_CARRIED = 2, TOO_LONG = 3, SMALL_SCRIPT = 4 };

/* A row taken apart. */
struct operation {
    uint8_t kind, mode;
    unsigned number; /* an offset or a record number */
    size_t from, count;
};

/* The operation of a row. */
static struct operation operation_at(const uint8_t *row)
{
    return (struct operation){row[AT_KIND], row[AT_MODE], number_at(row + AT_NUMBER),
                              number_at(row + AT_FROM), number_at(row + AT_COUNT)};
}

/* Whether an operation reads, and so has no bytes in the data. */
static bool reads(const struct operation *operation)
{
    return operation->kind == OPERATION_READ || operation->kind == OPERATION_READ_RECORD;
}

/* Whether the operation has bytes, at most so many, and they lie inside the data. */
static bool has_bytes(const struct operation *operation, size_t most, size_t data_length)
{
    return operation->count >= 1 && operation->count <= most &&
           operation->from + operation->count <= data_length;
}

/* Whether mode and number name a record: next and previous go without a number. */
static bool names_record(const struct operation *operation)
{
    if (operation->mode == ABSOLUTE)
        return operation->number <= MOST_RECORD_NUMBER;
    return (operation->mode == NEXT || operation->mode == PREVIOUS) && operation->number == 0;
}

/* Whether mode and number name a search's way and its first record. */
static bool names_way(const struct operation *operation)
{
    return (operation->mode == FORWARD || operation->mode == BACKWARD) &&
           operation->number <= MOST_RECORD_NUMBER;
}

/* Whether the number is an offset that P1P2 can have, and there is no mode. */
static bool names_offset(const struct operation *operation)
{
    return operation->mode == 0 && operation->number <= MOST_OFFSET;
}

/* Whether there is neither a mode nor a number, as for select and increase. */
static bool names_nothing(const struct operation *operation)
{
    return operation->mode == 0 && operation->number == 0;
}

/* Whether a command has room for all that the operation says, a read's place in the list aside. */
static bool has_room(const struct operation *operation, size_t data_length)
{
    const bool data = has_bytes(operation, MOST_DATA, data_length);
    const bool wanted = operation->from == 0 && operation->count <= MOST_DATA;

    switch (operation->kind) {
    case OPERATION_SELECT:
        return names_nothing(operation) && operation->count % 2 == 0 &&
               has_bytes(operation, MOST_PATH, data_length);
    case OPERATION_UPDATE:
        return names_offset(operation) && data;
    case OPERATION_READ:
        return names_offset(operation) && wanted;
    case OPERATION_UPDATE_RECORD:
        return names_record(operation) && data;
    case OPERATION_READ_RECORD:
        return names_record(operation) && wanted;
    case OPERATION_INCREASE:
        return names_nothing(operation) && data;
    case OPERATION_SEARCH:
        return names_way(operation) && data;
    default:
        return false;
    }
}

/* The number, from 1, of the first operation that is not carried, 0 if all are: "a read that isn't
 * last in compact", or one that no command has room for. Another format carries none. */
static uint32_t first_not_carried(uint8_t format, const uint8_t *operations, size_t count,
                                  size_t data_length)
{
    if (format != COMPACT && format != EXPANDED)
        return 1;
    for (size_t i = 0; i < count; i++) {
        const struct operation operation = operation_at(operations + i * ROW_SIZE);
        if (!has_room(&operation, data_length) ||
            (format == COMPACT && reads(&operation) && i + 1 < count))
            return (uint32_t)i + 1;
    }
    return 0;
}

/* ---- Building: commands ------------------------------------------------ */

/* Whether Le stands behind the data: increase and search are case 4 where the script is expanded. */
static bool has_le(const struct operation *operation, uint8_t format)
{
    return format == EXPANDED &&
           (operation->kind == OPERATION_INCREASE || operation->kind == OPERATION_SEARCH);
}

/* The bytes of an operation's command. */
static size_t command_size(const struct operation *operation, uint8_t format)
{
    return HEADER_SIZE + (reads(operation) ? 0 : operation->count) + has_le(operation, format);
}

/* P1 and P2: a path from the root without data; a record number and a mode; an offset, or 0000. */
static unsigned p1p2_of(const struct operation *operation)
{
    switch (operation->kind) {
    case OPERATION_SELECT:
        return PATH_FROM_ROOT << 8 | NO_DATA;
    case OPERATION_UPDATE_RECORD:
    case OPERATION_READ_RECORD:
    case OPERATION_SEARCH:
        return operation->number << 8 | operation->mode;
    default:
        return operation->number;
    }
}

/* Writes an operation's command; answers the place behind it. */
static uint8_t *put_command(uint8_t *at, const struct operation *operation, uint8_t format,
                            const uint8_t *data)
{
    static const uint8_t instructions[] = {
        [OPERATION_SELECT] = SELECT, [OPERATION_UPDATE] = UPDATE_BINARY,
        [OPERATION_READ] = READ_BINARY, [OPERATION_UPDATE_RECORD] = UPDATE_RECORD,
        [OPERATION_READ_RECORD] = READ_RECORD, [OPERATION_INCREASE] = INCREASE,
        [OPERATION_SEARCH] = SEARCH};

    at[0] = operation->kind == OPERATION_INCREASE ? 0x80 : 0x00;
    at[1] = instructions[operation->kind];
    put_number(at + 2, p1p2_of(operation));
    at[4] = (uint8_t)operation->count;
    at += HEADER_SIZE;
    if (!reads(operation)) {
        memcpy(at, data + operation->from, operation->count);
        at += operation->count;
    }
    if (has_le(operation, format))
        *at++ = 0x00;
    return at;
}

/* The bytes of a TLV, or of a template, with so many bytes of value. */
static size_t tlv_size(size_t size) { return 1 + length_size(size) + size; }

/* The bytes of all commands, in expanded each as a C-APDU's TLV. */
static size_t commands_size(uint8_t format, const uint8_t *operations, size_t count)
{
    size_t size = 0;

    for (size_t i = 0; i < count; i++) {
        const struct operation operation = operation_at(operations + i * ROW_SIZE);
        const size_t one = command_size(&operation, format);
        size += format == EXPANDED ? tlv_size(one) : one;
    }
    return size;
}

/* Writes the script, in expanded as AA with a C-APDU of tag 22 for each operation. */
static void put_script(uint8_t *at, uint8_t format, const uint8_t *operations, size_t count,
                       const uint8_t *data, size_t size)
{
    if (format == EXPANDED) {
        *at++ = TAG_AA;
        at = put_length(at, size);
    }
    for (size_t i = 0; i < count; i++) {
        const struct operation operation = operation_at(operations + i * ROW_SIZE);
        if (format == EXPANDED) {
            *at++ = TAG_C_APDU;
            at = put_length(at, command_size(&operation, format));
        }
        at = put_command(at, &operation, format, data);
    }
}

/* "a builder that takes a list of file operations .. and writes a compact or expanded script". The
 * whole list is tested for the first refusal, then for the second, then for the third; a refused
 * build changes nothing. */
uint64_t second_build(uint8_t format, const uint8_t *operations, size_t operations_length,
                      const uint8_t *data, size_t data_length,
                      uint8_t *script, size_t script_length)
{
    const size_t count = operations_length / ROW_SIZE;

    /* A list that is no whole number of rows has not 1 to 40 operations either. */
    if (operations_length % ROW_SIZE != 0 || count < 1 || count > MOST_OPERATIONS)
        return answer_of(NOT_1_TO_40, 0, 0);
    const uint32_t at_fault = first_not_carried(format, operations, count, data_length);
    if (at_fault != 0)
        return answer_of(NOT_CARRIED, at_fault, 0);
    const size_t size = commands_size(format, operations, count);
    const size_t length = format == EXPANDED ? tlv_size(size) : size;
    if (length > MOST_SCRIPT)
        return answer_of(TOO_LONG, 0, 0);
    if (length > script_length)
        return answer_of(SMALL_SCRIPT, 0, 0);
    put_script(script, format, operations, count, data, size);
    return answer_of(BUILT, (uint32_t)count, length);
}

/* ---- Reading: words and lengths ---------------------------------------- */

enum { READ = 0, DAMAGED = 1, ANSWER_TOO_LONG = 2 };

/* The most bytes that are read: a count has three bytes in what a call answers. */
enum { MOST_ANSWER = 16777215 };

/* An answer that is read once, from front to back. */
struct reading {
    const uint8_t *at;
    size_t length;
    size_t place; /* of the next byte; where reading stops, of the first bad byte */
};

/* A status word with its data; for a Bad format TLV its code, and no data at place 0. */
struct result {
    unsigned word;
    size_t data, data_length;
};

/* Moves over the next byte, if it is there and is this one. */
static bool take(struct reading *reading, uint8_t byte)
{
    if (reading->place == reading->length || reading->at[reading->place] != byte)
        return false;
    reading->place++;
    return true;
}

/* Stops at a place; answers false. */
static bool stop_at(struct reading *reading, size_t place)
{
    reading->place = place;
    return false;
}

/* Whether a command that ends with this word can have data. */
static bool may_have_data(unsigned word)
{
    return word == WELL || word == SHORT_OR_NONE || word == WELL_DEACTIVATED;
}

/* Where a word stands: compact has no 6F00, expanded no 61xx, and behind data stands a word that
 * can have them. */
enum context { IN_COMPACT, IN_EXPANDED, BEHIND_DATA };

/* Whether a command can end with this word there; with the mask FF00 whether with some word that
 * has this first byte. */
static bool is_word(enum context context, unsigned word, unsigned mask)
{
    static const uint16_t words[] = {
        WELL, SHORT_OR_NONE, WELL_DEACTIVATED, JOURNAL_FULL, WRONG_LENGTH, WRONG_KIND, NOT_ALLOWED,
        IS_DEACTIVATED, NOT_NOW, NO_FILE_CURRENT, NOT_FOUND, NO_RECORD, WRONG_P1P2, WRONG_OFFSET,
        UNKNOWN_INSTRUCTION, WRONG_CLASS, SUM_TOO_LONG, NO_ROOM};

    if (context == IN_COMPACT && (word & 0xFF00) == WAITS)
        return (word & mask) != WAITS || mask == 0xFF00;
    for (size_t i = 0; i < sizeof words / sizeof words[0]; i++)
        if ((words[i] & mask) == (word & mask))
            return (context != IN_COMPACT || words[i] != NO_ROOM) &&
                   (context != BEHIND_DATA || may_have_data(words[i]));
    return false;
}

/* A word is read byte by byte. Bad is a first byte that is the first of no word, then a second one
 * that is none's behind it; or the end, where one is missing. */
static bool read_word(struct reading *reading, enum context context, unsigned *word)
{
    const uint8_t *at = reading->at + reading->place;

    if (reading->place == reading->length || !is_word(context, at[0] * 256u, 0xFF00))
        return false;
    reading->place++;
    if (reading->place == reading->length || !is_word(context, number_at(at), 0xFFFF))
        return false;
    reading->place++;
    *word = number_at(at);
    return true;
}

/* No end of a value: lengths are not compared. */
#define NO_END SIZE_MAX

/* A length that does not pass the end. Bad is a first byte of 80 or above 82; the end of the answer,
 * where a byte is missing; the last byte of a length that is not in its shortest form or passes the
 * end. */
static bool read_length(struct reading *reading, size_t end, size_t *length)
{
    const uint8_t *at = reading->at + reading->place;
    const size_t left = reading->length - reading->place;

    if (left == 0 || at[0] == 0x80 || at[0] > 0x82)
        return false;
    const size_t size = at[0] < 0x80 ? 1 : at[0] - 0x7Fu;
    if (left < size)
        return stop_at(reading, reading->length);
    *length = size < 3 ? at[size - 1] : number_at(at + 1);
    reading->place += size;
    if (length_size(*length) != size || reading->place + *length > end)
        return stop_at(reading, reading->place - 1);
    return true;
}

/* ---- Reading: results -------------------------------------------------- */

/* A Bad format TLV behind its tag. Bad is the last byte of a length other than 1, or a code that is
 * not 01 to 03. */
static bool read_bad_format(struct reading *reading, size_t end, struct result *result)
{
    size_t length;

    if (!read_length(reading, end, &length))
        return false;
    if (length != 1)
        return stop_at(reading, reading->place - 1);
    if (reading->place == reading->length)
        return false;
    const uint8_t code = reading->at[reading->place];
    if (code < OTHER_TAG || code > NO_LENGTH)
        return false;
    reading->place++;
    *result = (struct result){code, 0, 0};
    return true;
}

/* An R-APDU behind its tag. Bad is the last byte of a length that has no room for a word; the end,
 * where data are missing; the word. */
static bool read_r_apdu(struct reading *reading, size_t end, struct result *result)
{
    size_t length;

    if (!read_length(reading, end, &length))
        return false;
    if (length < 2)
        return stop_at(reading, reading->place - 1);
    *result = (struct result){0, reading->place, length - 2};
    if (result->data_length > reading->length - reading->place)
        return stop_at(reading, reading->length);
    reading->place += result->data_length;
    return read_word(reading, result->data_length > 0 ? BEHIND_DATA : IN_EXPANDED, &result->word);
}

/* An R-APDU or a Bad format TLV; another tag is bad itself. */
static bool read_result(struct reading *reading, size_t end, struct result *result)
{
    if (take(reading, TAG_BAD_FORMAT))
        return read_bad_format(reading, end, result);
    return take(reading, TAG_R_APDU) && read_r_apdu(reading, end, result);
}

/* Whether nothing may follow: a word that stops the script, or a code, as none goes on. */
static bool is_last(const struct result *result) { return !goes_on(result->word); }

/* The one result of a compact answer: a word, and data to the answer's end. Bad is the first byte of
 * data behind a word that has none, or the first one above the most that a command reads. */
static bool read_compact_result(struct reading *reading, struct result *result)
{
    if (!read_word(reading, IN_COMPACT, &result->word))
        return false;
    result->data = reading->place;
    result->data_length = reading->length - reading->place;
    if (result->data_length > 0 && !may_have_data(result->word))
        return false;
    if (result->data_length > MOST_READ)
        return stop_at(reading, reading->place + MOST_READ);
    return true;
}

/* ---- Reading: answers -------------------------------------------------- */

enum { COMPACT_RESULT = 1 /* the place of the one result, behind the count */ };

/* What a good answer says. */
struct summary {
    uint32_t count;
    size_t first; /* place of the first result */
};

/* A compact answer: the count, which is not 0, and the result. */
static bool read_compact(struct reading *reading, struct summary *summary)
{
    struct result result;

    if (reading->length == 0 || reading->at[0] == 0)
        return false;
    *summary = (struct summary){reading->at[0], COMPACT_RESULT};
    reading->place = COMPACT_RESULT;
    return read_compact_result(reading, &result);
}

/* The count of AB behind its tag, a shortest integer that is not negative. Bad is the last byte of a
 * length other than 1 or 2; a first byte above 7F; a second one below 80 behind 00. */
static bool read_count(struct reading *reading, size_t end, uint32_t *count)
{
    size_t length;

    if (!read_length(reading, end, &length))
        return false;
    if (length != 1 && length != 2)
        return stop_at(reading, reading->place - 1);
    if (reading->place == reading->length || reading->at[reading->place] > 0x7F)
        return false;
    *count = reading->at[reading->place++];
    if (length == 1)
        return true;
    if (reading->place == reading->length ||
        (*count == 0 && reading->at[reading->place] < 0x80))
        return false;
    *count = *count << 8 | reading->at[reading->place++];
    return true;
}

/* AB behind its tag: a length, which is not compared with the answer's size, and in the value the
 * count and at most so many results. Bad is the last byte of a length 0; a tag with which the value
 * ends, or behind a last result; a byte behind the value; the value's end where a count above 0 has
 * no result. */
static bool read_ab(struct reading *reading, struct summary *summary)
{
    struct result result = {WELL, 0, 0};
    size_t length;
    uint32_t results = 0;

    if (!read_length(reading, NO_END, &length))
        return false;
    if (length == 0)
        return stop_at(reading, reading->place - 1);
    const size_t end = reading->place + length;
    if (!take(reading, TAG_COUNT))
        return false;
    if (reading->place == end)
        return stop_at(reading, reading->place - 1);
    if (!read_count(reading, end, &summary->count))
        return false;
    summary->first = reading->place;
    for (; reading->place < end; results++)
        if (is_last(&result) || results == summary->count || reading->place + 1 == end ||
            !read_result(reading, end, &result))
            return false;
    return reading->place == reading->length && (results > 0 || summary->count == 0);
}

/* AF behind its tag: 80, the results, 00 00, and nothing behind it. The count is that of the
 * results. */
static bool read_af(struct reading *reading, struct summary *summary)
{
    struct result result = {WELL, 0, 0};

    if (!take(reading, INDEFINITE))
        return false;
    *summary = (struct summary){0, reading->place};
    for (; !take(reading, 0x00); summary->count++)
        if (is_last(&result) || !read_result(reading, NO_END, &result))
            return false;
    return take(reading, 0x00) && reading->place == reading->length;
}

/* An answer of the form that is told, since a compact count can be AB or AF. Another format has no
 * good answer: place 0, as for a first byte that is neither. */
static bool read_answer(uint8_t format, struct reading *reading, struct summary *summary)
{
    if (format == COMPACT)
        return read_compact(reading, summary);
    if (format != EXPANDED)
        return false;
    if (take(reading, TAG_AB))
        return read_ab(reading, summary);
    return take(reading, TAG_AF) && read_af(reading, summary);
}

/* "a damaged answer is refused with the place of its first bad byte." */
uint64_t second_read_answer(uint8_t format, const uint8_t *answer, size_t answer_length)
{
    struct reading reading = {answer, answer_length, 0};
    struct summary summary;

    if (answer_length > MOST_ANSWER)
        return answer_of(ANSWER_TOO_LONG, 0, 0);
    if (!read_answer(format, &reading, &summary))
        return answer_of(DAMAGED, 0, reading.place);
    return answer_of(READ, summary.count, summary.first);
}

/* What the place alone shows: a result that the reader would take there, or none. */
uint64_t second_result(uint8_t format, const uint8_t *answer, size_t answer_length, size_t place)
{
    struct reading reading = {answer, answer_length, place};
    struct result result;

    if (answer_length > MOST_ANSWER || place >= answer_length)
        return 0;
    const bool found = format == COMPACT
                           ? place == COMPACT_RESULT && read_compact_result(&reading, &result)
                           : format == EXPANDED && read_result(&reading, NO_END, &result);
    if (!found)
        return 0;
    return result.word | (uint64_t)result.data_length << 16 | (uint64_t)result.data << 32;
}
