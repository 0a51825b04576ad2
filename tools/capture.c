/* Runs a script on a card and writes a capture file for Wireshark, with one packet for each command that ran: the
 * command with its data, what it answered, its status word. The script tools/capture has how it is called.
 *
 * An answer has not all of that: a compact one has the word and the data of the last command alone, and one in AB
 * leaves out commands of case 1 and 3. So each command is looked at as the last one of a shorter script: the script
 * up to and with it, run on a copy of the card. It ends as in the whole script, because a command depends on what
 * stands before it and not on what comes after. There is one exception, the 6985 of a compact reading command with
 * bytes after it; it stops the script, and the last command that ran is taken from the run of the whole script. */
#include <ctype.h>
#include <stdarg.h>
#include <stdbool.h>
#include <stdio.h>
#include <stdlib.h>
#include <string.h>

#include "rfm.h"

enum { MOST_BYTES = 32768, HEADER_SIZE = 5, RESPONSE_SIZE = 1024 };
enum { TAG_AE = 0xAE, TAG_AF = 0xAF, TAG_R_APDU = 0x23 };

struct bytes {
    size_t length;
    uint8_t at[MOST_BYTES];
};

/* What a command answered. */
struct outcome {
    const uint8_t *data;
    size_t length;
    unsigned word;   /* its status word; or a Bad format code, */
    bool no_command; /* where a TLV was no command */
};

/* The card, the script with how it is run, and its form. */
static struct bytes table, files, journal, script;
static size_t application;
static uint8_t domain, format;
static enum rfm_format form;

/* Says what is wrong and ends. */
static _Noreturn void fail(const char *what, ...)
{
    va_list values;

    va_start(values, what);
    fputs("capture: ", stderr);
    vfprintf(stderr, what, values);
    fputc('\n', stderr);
    va_end(values);
    exit(1);
}

/* ---- Bytes ---- */

/* Adds a number at the end, in so many bytes. */
static void add_number(struct bytes *to, size_t number, unsigned size)
{
    while (size-- > 0)
        to->at[to->length++] = size < sizeof number ? (uint8_t)(number >> 8 * size) : 0;
}

static void add_bytes(struct bytes *to, const uint8_t *from, size_t length)
{
    memcpy(to->at + to->length, from, length);
    to->length += length;
}

static void print_hex(const char *name, const uint8_t *at, size_t length)
{
    fputs(name, stdout);
    for (size_t i = 0; i < length; i++)
        printf("%02X", at[i]);
}

/* ---- What is given ---- */

/* "Entries: 0 MF; 1 DF 7F10 in 0; 2 transparent 6F46 in 1, start 0, length 17; 3 linear 6F3A in 1, start 17, 3
 * records of 4; 4 cyclic 6F39 in 1, start 29, 3 records of 3; 5 ADF; 6 transparent 6F46 in 5, start 38, length 17,
 * NEVER 2. File memory is 55 bytes, all FF, cyclic 00 with newest 0; activated, journal zero." */
static void take_worked_card(void)
{
    static const uint8_t entries[][16] = {
        {0x3F, 0x00, 0, 1, 0,  0, 0,  0, 0, 0, 5, 0, 0},
        {0x7F, 0x10, 0, 2, 0,  0, 0,  0, 0, 0, 5, 0, 0},
        {0x6F, 0x46, 1, 4, 0,  0, 0, 17, 0, 0, 5, 0, 0},
        {0x6F, 0x3A, 1, 5, 0, 17, 0, 12, 4, 0, 5, 0, 0},
        {0x6F, 0x39, 1, 6, 0, 29, 0,  9, 3, 0, 5, 0, 0},
        {0x7F, 0xFF, 0, 3, 0,  0, 0,  0, 0, 0, 5, 0, 0},
        {0x6F, 0x46, 5, 4, 0, 38, 0, 17, 0, 0, 5, 0, 2},
    };

    add_bytes(&table, entries[0], sizeof entries);
    files.length = 55;
    memset(files.at, 0xFF, 55);
    memset(files.at + 29, 0x00, 9);
    journal.length = 2048;
}

static void read_memory(struct bytes *to, const char *name)
{
    FILE *file = fopen(name, "rb");

    if (file == NULL)
        fail("cannot open %s", name);
    to->length = fread(to->at, 1, MOST_BYTES, file);
    if (ferror(file) || fgetc(file) != EOF)
        fail("%s cannot be read, or has more than %d bytes", name, MOST_BYTES);
    fclose(file);
}

static void read_hex(struct bytes *to, const char *digits)
{
    unsigned byte;

    for (to->length = 0; *digits != '\0'; digits++) {
        if (isspace((unsigned char)*digits))
            continue;
        if (!isxdigit((unsigned char)digits[0]) || !isxdigit((unsigned char)digits[1]))
            fail("no two hex digits in the script after %zu bytes", to->length);
        if (to->length == MOST_BYTES)
            fail("the script has more than %d bytes", MOST_BYTES);
        sscanf(digits++, "%2x", &byte);
        add_number(to, byte, 1);
    }
}

/* Returns a number of this base that is at most `most`. */
static size_t read_number(const char *name, const char *digits, int base, size_t most)
{
    char *end;
    const unsigned long long number = strtoull(digits, &end, base);

    if (!isxdigit((unsigned char)digits[0]) || *end != '\0' || number > most)
        fail("%s is no number here: %s", name, digits);
    return (size_t)number;
}

static void read_argument(char *argument)
{
    char *value = strchr(argument, '=');

    if (value == NULL)
        fail("no NAME=VALUE: %s", argument);
    *value++ = '\0';
    if (strcmp(argument, "script") == 0)
        read_hex(&script, value);
    else if (strcmp(argument, "application") == 0)
        application = read_number(argument, value, 10, SIZE_MAX);
    else if (strcmp(argument, "domain") == 0)
        domain = (uint8_t)read_number(argument, value, 16, 0xFF);
    else if (strcmp(argument, "format") == 0)
        format = (uint8_t)read_number(argument, value, 10, 0xFF);
    else if (strcmp(argument, "table") == 0)
        read_memory(&table, value);
    else if (strcmp(argument, "files") == 0)
        read_memory(&files, value);
    else if (strcmp(argument, "journal") == 0)
        read_memory(&journal, value);
    else
        fail("no such name: %s", argument);
}

/* ---- Runs ---- */

/* Runs a script on a copy of the card and returns the number of its commands. */
static uint32_t run(const struct bytes *this_script, struct bytes *answer)
{
    static struct bytes table_copy, files_copy, journal_copy;

    table_copy = table;
    files_copy = files;
    journal_copy = journal;
    const uint64_t result = rfm_run(table_copy.at, table.length, files_copy.at, files.length, journal_copy.at,
                                    journal.length, application, domain, format, this_script->at,
                                    this_script->length, answer->at, RESPONSE_SIZE);
    if (RFM_NUMBER(result) != 0)
        fail("the run is refused with call number %u; README.md has what it means", RFM_NUMBER(result));
    answer->length = RFM_LENGTH(result);
    return RFM_COUNT(result);
}

/* Returns the place of the value of the TLV at a place, and its length. */
static size_t value_of(const struct bytes *in, size_t place, size_t *length)
{
    const uint8_t first = in->at[place + 1];
    const unsigned size = first < 0x80 ? 0 : first - 0x80u;

    *length = size == 0 ? first : 0;
    for (unsigned i = 0; i < size; i++)
        *length = *length * 256 + in->at[place + 2 + i];
    place += 2 + size;
    if (place > in->length || *length > in->length - place)
        fail("a TLV that ends behind the last byte");
    return place;
}

/* Returns the place of the first command in the script. */
static size_t first_place(void)
{
    size_t length;

    if (form == RFM_COMPACT)
        return 0;
    return script.at[0] == TAG_AE ? 2 : value_of(&script, 0, &length);
}

/* Returns the place behind the command at a place, and the command itself. */
static size_t take_command(size_t place, struct bytes *command)
{
    static const uint8_t with_data[] = {0xA4, 0xD6, 0xDC, 0xA2, 0x32};
    size_t length = HEADER_SIZE;

    if (place >= script.length)
        fail("the answer counts more commands than the script has");
    if (form == RFM_EXPANDED)
        place = value_of(&script, place, &length);
    else if (memchr(with_data, script.at[place + 1], sizeof with_data) != NULL)
        length += script.at[place + 4];
    if (length > script.length - place)
        length = script.length - place;
    command->length = 0;
    add_bytes(command, script.at + place, length);
    return place + length;
}

/* Makes the script that ends at a place, behind a command. */
static void cut_script(size_t end, struct bytes *shorter)
{
    const size_t first = first_place(), length = end - first;

    shorter->length = 0;
    if (form == RFM_EXPANDED && script.at[0] != TAG_AE) {
        add_number(shorter, script.at[0], 1);
        if (length >= 0x80)
            add_number(shorter, length < 0x100 ? 0x81 : 0x82, 1);
        add_number(shorter, length, length < 0x100 ? 1 : 2);
        add_bytes(shorter, script.at + first, length);
    } else {
        add_bytes(shorter, script.at, end);
        if (form == RFM_EXPANDED)
            add_number(shorter, 0x0000, 2);
    }
}

/* Returns what the last command answered: in a compact answer after the count, in an expanded one the last TLV. */
static struct outcome last_outcome(const struct bytes *answer)
{
    const uint8_t *at = answer->at;

    if (form == RFM_COMPACT)
        return (struct outcome){at + 3, answer->length - 3, at[1] * 256u + at[2], false};
    const size_t end = answer->length - (at[0] == TAG_AF ? 2 : 0);
    size_t last = 2, length = 0, place = 2; /* in AF */
    if (at[0] != TAG_AF)
        place = value_of(answer, 0, &length); /* in AB, where the first TLV is the count */
    while (place < end) {
        last = place;
        place = value_of(answer, place, &length) + length;
    }
    if (at[last] != TAG_R_APDU)
        return (struct outcome){at, 0, at[place - 1], true};
    return (struct outcome){at + place - length, length - 2, at[place - 2] * 256u + at[place - 1], false};
}

/* ---- The capture file ---- */

/* Numbers of a header, each with its size in bytes. */
struct field {
    size_t number;
    unsigned size;
};

static void add_fields(struct bytes *to, const struct field *fields, size_t count)
{
    for (size_t i = 0; i < count; i++)
        add_number(to, fields[i].number, fields[i].size);
}

/* Starts a file of packets that begin with an IPv4 header. */
static void start_capture(struct bytes *to)
{
    enum { MOST_PACKET = 0xFFFF, RAW_IP = 101 };
    const struct field fields[] = {{0xA1B2C3D4, 4}, {2, 2}, {4, 2}, {0, 8}, {MOST_PACKET, 4}, {RAW_IP, 4}};

    to->length = 0;
    add_fields(to, fields, sizeof fields / sizeof fields[0]);
}

/* Adds a packet: GSMTAP, type SIM, in UDP from this machine to itself. There is no clock in a run, so the time in
 * seconds is the command's number. The command stands as a T=0 line carries it, which is how Wireshark reads it: one
 * of four bytes gets the P3 00, and one of case 4 has no Le. */
static void add_packet(struct bytes *to, uint32_t number, const struct bytes *command, const struct outcome *outcome)
{
    enum { LOCALHOST = 0x7F000001, PORT = 4729, IP_SIZE = 20, UDP_SIZE = 8, GSMTAP_SIZE = 16 };
    enum { WORDS = 0x8314 }; /* the IPv4 header but size and checksum, two bytes each, added up with the carry */
    size_t bytes = command->length;

    if (bytes > HEADER_SIZE && bytes == HEADER_SIZE + command->at[4] + 1u && command->at[bytes - 1] == 0)
        bytes--;
    const size_t size = IP_SIZE + UDP_SIZE + GSMTAP_SIZE + bytes + (bytes == 4) + outcome->length + 2;
    const struct field fields[] = {
        {number, 4}, {0, 4}, {size, 4}, {size, 4}, /* the time; the size twice */
        {0x4500, 2}, {size, 2}, {0, 4}, {0x4011, 2}, {0xFFFF - WORDS - size, 2}, /* IPv4, with UDP in it */
        {LOCALHOST, 4}, {LOCALHOST, 4},
        {PORT, 2}, {PORT, 2}, {size - IP_SIZE, 2}, {0, 2}, /* UDP, which needs no checksum */
        {0x02040400, 4}, {0, 12}, /* GSMTAP: version 2, four words of header, type SIM */
    };

    if (to->length + size + 16 > MOST_BYTES)
        fail("no room for the packet of command %lu", (unsigned long)number);
    add_fields(to, fields, sizeof fields / sizeof fields[0]);
    add_bytes(to, command->at, bytes);
    add_number(to, 0x00, bytes == 4);
    add_bytes(to, outcome->data, outcome->length);
    add_number(to, outcome->word, 2);
}

static void write_capture(const struct bytes *capture, const char *name)
{
    FILE *file = fopen(name, "wb");

    if (file == NULL)
        fail("cannot write %s", name);
    const bool written = fwrite(capture->at, 1, capture->length, file) == capture->length;
    if (fclose(file) != 0 || !written)
        fail("cannot write %s", name);
}

/* ---- All of it ---- */

/* Prints a command with what it answered and adds its packet. */
static void show(struct bytes *capture, uint32_t number, const struct bytes *command, const struct outcome *outcome)
{
    print_hex("command=", command->at, command->length);
    print_hex(" data=", outcome->data, outcome->length);
    printf(" status=%04X\n", outcome->word);
    add_packet(capture, number, command, outcome);
}

int main(int count, char **arguments)
{
    static struct bytes whole, shorter, answer, command, capture;
    struct outcome outcome;

    if (count < 2)
        fail("no file to write");
    take_worked_card();
    for (int i = 2; i < count; i++)
        read_argument(arguments[i]);
    form = rfm_form(&(struct rfm_script){.bytes = script.at, .length = script.length, .format = format});

    const uint32_t commands = run(&script, &whole);
    size_t place = first_place();
    start_capture(&capture);
    for (uint32_t number = 1; number < commands; number++) {
        place = take_command(place, &command);
        cut_script(place, &shorter);
        run(&shorter, &answer);
        outcome = last_outcome(&answer);
        show(&capture, number, &command, &outcome);
    }
    if (commands > 0) {
        outcome = last_outcome(&whole);
        if (outcome.no_command) {
            printf("no command: Bad format %02X\n", outcome.word);
        } else {
            take_command(place, &command);
            show(&capture, commands, &command, &outcome);
        }
    }
    print_hex("answer=", whole.at, whole.length);
    printf("\n");
    if (fflush(stdout) != 0)
        fail("cannot print");
    write_capture(&capture, arguments[1]);
    return 0;
}
