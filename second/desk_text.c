/* The text of the desk's two programs. A line is not as asked as soon as one of its signs is not. */
#include "desk_text.h"

#include <stdio.h>

#include "desk.h"
#include "rules.h"

/* ---- Lines and fields -------------------------------------------------- */

/* A text that is read from front to back, line by line. */
struct text {
    const char *at;
    size_t length, place;
    unsigned line; /* the number of the line that was read last */
};

/* What is left of a line. */
struct line {
    const char *at;
    size_t left;
};

/* Takes the next line; only a line feed ends one, and that of the last may be missing. */
static bool next_line(struct text *text, struct line *line)
{
    size_t end = text->place;

    text->line++;
    if (text->place == text->length)
        return false;
    while (end < text->length && text->at[end] != '\n')
        end++;
    *line = (struct line){text->at + text->place, end - text->place};
    text->place = end < text->length ? end + 1 : end;
    return true;
}

/* Takes a word, if the line goes on with it. */
static bool take_word(struct line *line, const char *word)
{
    const size_t length = strlen(word);

    if (line->left < length || memcmp(line->at, word, length) != 0)
        return false;
    line->at += length;
    line->left -= length;
    return true;
}

/* Whether the line goes on with a decimal digit. */
static bool has_digit(const struct line *line)
{
    return line->left > 0 && line->at[0] >= '0' && line->at[0] <= '9';
}

/* Takes a decimal number without leading zeros, at most 65,535. */
static bool take_number(struct line *line, unsigned *number)
{
    *number = 0;
    if (!has_digit(line))
        return false;
    if (take_word(line, "0"))
        return !has_digit(line);
    while (has_digit(line)) {
        *number = *number * 10 + (unsigned)(line->at[0] - '0');
        if (*number > 0xFFFF)
            return false;
        line->at++;
        line->left--;
    }
    return true;
}

/* The value of an upper-case hexadecimal digit, 16 for another sign. */
static unsigned digit_of(char sign)
{
    static const char digits[] = "0123456789ABCDEF";
    const char *digit = sign == '\0' ? NULL : strchr(digits, sign);

    return digit == NULL ? 16 : (unsigned)(digit - digits);
}

/* Takes the rest of the line as bytes, two digits each. */
static bool take_bytes(struct line *line, uint8_t *bytes, size_t *length)
{
    if (line->left % 2 != 0)
        return false;
    for (*length = 0; line->left > 0; line->at += 2, line->left -= 2) {
        const unsigned high = digit_of(line->at[0]), low = digit_of(line->at[1]);
        if (high > 15 || low > 15)
            return false;
        bytes[(*length)++] = (uint8_t)(high * 16 + low);
    }
    return true;
}

/* Takes the whole first line: format= and one digit. */
static bool take_format(struct text *text, uint8_t *format)
{
    struct line line;

    if (!next_line(text, &line) || !take_word(&line, "format=") || line.left != 1 ||
        !has_digit(&line))
        return false;
    *format = (uint8_t)(line.at[0] - '0');
    return true;
}

/* ---- Building ---------------------------------------------------------- */

/* The list that a text says; of one that is too long only so much as shows that. */
struct list {
    size_t operations, data_length;
    uint8_t rows[(MOST_OPERATIONS + 1) * ROW_SIZE];
    uint8_t data[MOST_BUILD_TEXT / 2];
};

/* Adds an operation; its bytes, if it has some, stand last in the data. */
static void add_row(struct list *list, uint8_t kind, unsigned mode, unsigned number, size_t from,
                    size_t count)
{
    uint8_t *row = list->rows + list->operations * ROW_SIZE;

    if (list->operations > MOST_OPERATIONS)
        return;
    list->operations++;
    row[0] = kind;
    row[1] = (uint8_t)mode;
    put_number(row + 2, number);
    put_number(row + 4, (unsigned)from);
    put_number(row + 6, (unsigned)count);
}

/* Adds an operation with the rest of the line as its bytes. */
static bool add_with_bytes(struct list *list, struct line *line, uint8_t kind, unsigned mode,
                           unsigned number)
{
    size_t count;

    if (!take_bytes(line, list->data + list->data_length, &count))
        return false;
    add_row(list, kind, mode, number, list->data_length, count);
    list->data_length += count;
    return true;
}

/* Adds a read with the rest of the line as how many bytes are wanted. */
static bool add_read(struct list *list, struct line *line, uint8_t kind, unsigned mode,
                     unsigned number)
{
    unsigned count;

    if (!take_number(line, &count) || line->left > 0)
        return false;
    add_row(list, kind, mode, number, 0, count);
    return true;
}

/* Takes which record is meant, and a comma: next, previous or its number. */
static bool take_which(struct line *line, unsigned *mode, unsigned *number)
{
    *number = 0;
    if (take_word(line, "next"))
        *mode = NEXT;
    else if (take_word(line, "previous"))
        *mode = PREVIOUS;
    else if (take_number(line, number))
        *mode = ABSOLUTE;
    else
        return false;
    return take_word(line, ",");
}

/* Takes a search's way, a comma, its first record's number, and a comma. */
static bool take_way(struct line *line, unsigned *mode, unsigned *number)
{
    if (take_word(line, "forward,"))
        *mode = FORWARD;
    else if (take_word(line, "backward,"))
        *mode = BACKWARD;
    else
        return false;
    return take_number(line, number) && take_word(line, ",");
}

/* Takes a line that says an operation. */
static bool take_operation(struct line *line, struct list *list)
{
    unsigned mode, number;

    if (take_word(line, "select="))
        return add_with_bytes(list, line, OPERATION_SELECT, 0, 0);
    if (take_word(line, "update="))
        return take_number(line, &number) && take_word(line, ",") &&
               add_with_bytes(list, line, OPERATION_UPDATE, 0, number);
    if (take_word(line, "read="))
        return take_number(line, &number) && take_word(line, ",") &&
               add_read(list, line, OPERATION_READ, 0, number);
    if (take_word(line, "update-record="))
        return take_which(line, &mode, &number) &&
               add_with_bytes(list, line, OPERATION_UPDATE_RECORD, mode, number);
    if (take_word(line, "read-record="))
        return take_which(line, &mode, &number) &&
               add_read(list, line, OPERATION_READ_RECORD, mode, number);
    if (take_word(line, "increase="))
        return add_with_bytes(list, line, OPERATION_INCREASE, 0, 0);
    if (take_word(line, "search="))
        return take_way(line, &mode, &number) &&
               add_with_bytes(list, line, OPERATION_SEARCH, mode, number);
    return false;
}

/* ---- Printing ---------------------------------------------------------- */

/* Prints a name and a number in a line; answers the place behind it. */
static char *print_number(char *at, const char *name, unsigned long number)
{
    return at + sprintf(at, "%s=%lu\n", name, number);
}

/* Prints a name and bytes in a line; answers the place behind it. */
static char *print_bytes(char *at, const char *name, const uint8_t *bytes, size_t length)
{
    static const char digits[] = "0123456789ABCDEF";

    at += sprintf(at, "%s=", name);
    for (size_t i = 0; i < length; i++) {
        *at++ = digits[bytes[i] >> 4];
        *at++ = digits[bytes[i] & 15];
    }
    *at++ = '\n';
    return at;
}

/* Prints the results of a good answer; answers the place behind them. */
static char *print_results(char *at, uint8_t format, const uint8_t *answer, size_t length,
                           size_t place)
{
    uint64_t result;

    while ((result = second_result(format, answer, length, place)) != 0) {
        const unsigned word = SECOND_WORD(result);
        if (word <= NO_LENGTH)
            return at + sprintf(at, "code=%02X\n", word);
        at += sprintf(at, "status=%04X\n", word);
        at = print_bytes(at, "data", answer + SECOND_DATA(result), SECOND_DATA_LENGTH(result));
        place = SECOND_DATA(result) + SECOND_DATA_LENGTH(result) + 2;
    }
    return at;
}

/* ---- The two programs -------------------------------------------------- */

size_t second_build_text(const char *signs, size_t length, char *printed)
{
    static struct list list;
    struct text text = {signs, length, 0, 0};
    struct line line;
    uint8_t format, script[MOST_SCRIPT];
    char *at = printed;

    list.operations = list.data_length = 0;
    if (!take_format(&text, &format))
        return (size_t)(print_number(at, "line", text.line) - printed);
    while (next_line(&text, &line))
        if (text.place > MOST_BUILD_TEXT || !take_operation(&line, &list))
            return (size_t)(print_number(at, "line", text.line) - printed);
    const uint64_t built = second_build(format, list.rows, list.operations * ROW_SIZE, list.data,
                                        list.data_length, script, sizeof script);
    at = print_number(at, "refusal", SECOND_NUMBER(built));
    at = print_number(at, "operations", SECOND_COUNT(built));
    at = print_bytes(at, "script", script, SECOND_LENGTH(built));
    return (size_t)(at - printed);
}

/* Takes the whole second line, the answer, and sees that there is no third. */
static bool take_answer(struct text *text, uint8_t *answer, size_t *length)
{
    struct line line;

    return next_line(text, &line) && take_word(&line, "answer=") && line.left <= MOST_DIGITS &&
           take_bytes(&line, answer, length) && !next_line(text, &line);
}

size_t second_read_text(const char *signs, size_t length, char *printed)
{
    static uint8_t answer[MOST_DIGITS / 2];
    struct text text = {signs, length, 0, 0};
    uint8_t format;
    size_t answer_length;
    char *at = printed;

    if (!take_format(&text, &format) || !take_answer(&text, answer, &answer_length))
        return (size_t)(print_number(at, "line", text.line) - printed);
    const uint64_t read = second_read_answer(format, answer, answer_length);
    if (SECOND_NUMBER(read) != 0)
        return (size_t)(print_number(at, "place", SECOND_LENGTH(read)) - printed);
    at = print_number(at, "count", SECOND_COUNT(read));
    at = print_results(at, format, answer, answer_length, SECOND_LENGTH(read));
    return (size_t)(at - printed);
}
