/* Request K2: the builder and the reader. Lists are written as rows, a row being kind and mode (one
 * byte each), number, where the bytes begin and how many they are (two bytes each). */
#include "test_kit.h"

#include <stdio.h>
#include <stdlib.h>
#include <string.h>

#include "desk.h"

/* ---- Building ---- */

/* Script memory of a build that is not to be refused for it. */
enum { ROOM = 1100 };

/* Builds from memory of exactly these lengths: the lists are kept, the script memory behind the
 * script is too, and all of it where the build is refused. The script goes to the last argument. */
static uint64_t build(uint8_t format, const struct bytes *rows, const struct bytes *data,
                      size_t script_length, uint8_t *script)
{
    uint8_t pattern[ROOM];

    for (size_t i = 0; i < sizeof pattern; i++)
        pattern[i] = (uint8_t)(i * 37 + 0x5A);
    uint8_t *const r = lend(rows->at, rows->length), *const d = lend(data->at, data->length);
    uint8_t *const s = lend(pattern, script_length);
    const uint64_t built = second_build(format, r, rows->length, d, data->length, s, script_length);
    const size_t length = SECOND_LENGTH(built);

    check(rows->length == 0 || memcmp(r, rows->at, rows->length) == 0, "operations changed");
    check(data->length == 0 || memcmp(d, data->at, data->length) == 0, "data changed");
    check(length <= script_length, "script longer than its memory");
    if (script_length > length)
        check(memcmp(s + length, pattern + length, script_length - length) == 0,
              "script memory behind the script changed");
    if (length > 0)
        memcpy(script, s, length);
    free(r);
    free(d);
    free(s);
    return built;
}

/* A list that is refused with this number, at this operation (0 but for number 2). */
static void refused_list(const char *name, uint8_t format, const struct bytes *rows,
                         const struct bytes *data, unsigned number, uint32_t operation)
{
    uint8_t script[ROOM];

    start_case(name);
    const uint64_t built = build(format, rows, data, ROOM, script);
    check_number("number", number, SECOND_NUMBER(built));
    check_number("operation", operation, SECOND_COUNT(built));
    check_number("length", 0, SECOND_LENGTH(built));
}

/* A list of these bytes that is refused. */
static void not_built(const char *name, uint8_t format, const char *rows_hex, const char *data_hex,
                      unsigned number, uint32_t operation)
{
    static struct bytes rows, data;

    set_hex(&rows, rows_hex);
    set_hex(&data, data_hex);
    refused_list(name, format, &rows, &data, number, operation);
}

/* A list of one operation that no format carries. */
static void not_carried(const char *name, const char *row, const char *data)
{
    not_built(name, COMPACT, row, data, 2, 1);
    not_built(name, EXPANDED, row, data, 2, 1);
}

/* A list that becomes this script; with one byte less of script memory it is refusal 4. */
static void built_list(const char *name, uint8_t format, const struct bytes *rows,
                       const struct bytes *data, const struct bytes *expected)
{
    uint8_t script[ROOM];

    start_case(name);
    uint64_t built = build(format, rows, data, ROOM, script);
    check_number("number", 0, SECOND_NUMBER(built));
    check_number("operations", rows->length / 8, SECOND_COUNT(built));
    check_bytes("script", expected->at, expected->length, script, SECOND_LENGTH(built));
    built = build(format, rows, data, expected->length, script);
    check_bytes("script in its own length", expected->at, expected->length, script,
                SECOND_LENGTH(built));
    check_number("script memory of one byte less", 4,
                 build(format, rows, data, expected->length - 1, script));
    check_number("no script memory", 4, build(format, rows, data, 0, script));
}

/* A list of these bytes that becomes this script. */
static void is_built(const char *name, uint8_t format, const char *rows_hex, const char *data_hex,
                     const char *script_hex)
{
    static struct bytes rows, data, script;

    set_hex(&rows, rows_hex);
    set_hex(&data, data_hex);
    set_hex(&script, script_hex);
    built_list(name, format, &rows, &data, &script);
}

/* One operation: its command in compact, and what stands in AA's TLV in expanded. */
static void one_operation(const char *name, const char *row, const char *data, const char *command,
                          const char *le)
{
    static struct bytes rows, bytes, script, apdu;

    set_hex(&rows, row);
    set_hex(&bytes, data);
    set_hex(&script, command);
    built_list(name, COMPACT, &rows, &bytes, &script);
    add_hex(&script, le);
    set_hex(&apdu, "22"); /* all are shorter than 128 bytes */
    add_byte(&apdu, (unsigned)script.length);
    add_bytes(&apdu, script.at, script.length);
    wrap_aa(&apdu);
    built_list(name, EXPANDED, &rows, &bytes, &apdu);
}

/* Each kind, with each field at its limits. */
static void each_kind(void)
{
    is_built("K2: example, compact", COMPACT,
             "0100000000000004 0200000000040002 0300000000000000", "7F106F46 0141",
             "00A4080C047F106F4600D6000002014100B0000000");
    is_built("K2: example, expanded", EXPANDED,
             "0100000000000004 0404000200040004 0704000100080002 0502000000000000",
             "7F106F3A 01020304 0203",
             "AA27220900A4080C047F106F3A220900DC02040401020304220800A2010402020300220500B2000200");
    one_operation("K2: 1 identifier", "0100000000000002", "7F10", "00A4080C027F10", "");
    one_operation("K2: 8 identifiers", "0100000000010010",
                  "FF 00010203 04050607 08090A0B 0C0D0E0F",
                  "00A4080C10 00010203 04050607 08090A0B 0C0D0E0F", "");
    one_operation("K2: update at 7FFF", "02007FFF00000001", "41", "00D67FFF0141", "");
    one_operation("K2: read at 7FFF", "03007FFF00000001", "", "00B07FFF01", "");
    one_operation("K2: read all", "0300000000000000", "", "00B0000000", "");
    one_operation("K2: read 255", "03000102000000FF", "", "00B00102FF", "");
    one_operation("K2: update next", "0402000000000001", "41", "00DC00020141", "");
    one_operation("K2: update previous", "0403000000000001", "41", "00DC00030141", "");
    one_operation("K2: update the current record", "0404000000000001", "41", "00DC00040141", "");
    one_operation("K2: update record 255", "040400FF00000001", "41", "00DCFF040141", "");
    one_operation("K2: read next", "0502000000000000", "", "00B2000200", "");
    one_operation("K2: read previous", "0503000000000007", "", "00B2000307", "");
    one_operation("K2: read record 255", "050400FF000000FF", "", "00B2FF04FF", "");
    one_operation("K2: increase", "0600000000000003", "000005", "8032000003000005", "00");
    one_operation("K2: search forward", "0704000000000002", "0203", "00A20004020203", "00");
    one_operation("K2: search backward", "070500FF00000002", "0203", "00A2FF05020203", "00");
    one_operation("K2: the data's last bytes", "0600000000020001", "AABBCC", "8032000001CC", "00");
}

/* What no command has room for. */
static void each_limit(void)
{
    static const char *const zeros[] = {
        "0101000000000002", "0100010000000002", "0100000100000002", /* select */
        "0601000000000002", "0600010000000002", "0600000100000002", /* increase */
        "0202000000000002", "0304000000000002",                     /* byte 1 of update and read */
        "0300000001000002", "0300000000010002",                     /* bytes 4-5 of the reads */
        "0504000101000002", "0504000100010002"};
    static const char *const unknown[] = {
        "0000000000000002", "0800000000000002", "FF00000000000002", /* kinds */
        "0400000100000002", "0401000000000002", "0405000100000002", "04FF000000000002", /* modes */
        "0500000000000002", "0501000000000002", "0505000100000002",
        "0700000100000002", "0703000100000002", "0706000100000002"};
    static char name[64];

    for (size_t i = 0; i < sizeof zeros / sizeof zeros[0]; i++) {
        snprintf(name, sizeof name, "K2: not 0 in %s", zeros[i]);
        not_carried(name, zeros[i], "7F107F10");
    }
    for (size_t i = 0; i < sizeof unknown / sizeof unknown[0]; i++) {
        snprintf(name, sizeof name, "K2: unknown in %s", unknown[i]);
        not_carried(name, unknown[i], "7F107F10");
    }
    not_carried("K2: 0 identifiers", "0100000000000000", "7F10");
    not_carried("K2: half an identifier", "0100000000000001", "7F10");
    not_carried("K2: 1 identifier and a half", "0100000000000003", "7F106F");
    not_carried("K2: 9 identifiers", "0100000000000012", "00000000000000000000 0000000000000000");
    not_carried("K2: update, empty", "0200000000000000", "");
    not_carried("K2: update record, empty", "0404000100000000", "41");
    not_carried("K2: increase, empty", "0600000000000000", "41");
    not_carried("K2: search, empty", "0704000100000000", "41");
    not_carried("K2: update at 8000", "0200800000000001", "41");
    not_carried("K2: read at 8000", "0300800000000001", "");
    not_carried("K2: read at FFFF", "0300FFFF00000001", "");
    not_carried("K2: 256 bytes wanted", "0300000000000100", "");
    not_carried("K2: 256 bytes of a record wanted", "0504000100000100", "");
    not_carried("K2: next with a number", "0402000100000001", "41");
    not_carried("K2: previous with a number", "0403000100000001", "41");
    not_carried("K2: read next with a number", "0502000100000000", "");
    not_carried("K2: read previous with a number", "0503010000000000", "");
    not_carried("K2: update record 256", "0404010000000001", "41");
    not_carried("K2: read record 256", "0504010000000001", "");
    not_carried("K2: search from 256", "0704010000000001", "41");
    not_carried("K2: data one byte outside", "0200000000010002", "0141");
    not_carried("K2: path one byte outside", "0100000000010002", "7F10");
    not_carried("K2: data behind the data", "0600000000030001", "0141");
    not_carried("K2: data from FFFF", "06000000FFFF00FF", "0141");
    not_carried("K2: no data at all", "0600000000000001", "");
}

/* Data of 255 and 256 bytes, and far behind the beginning. */
static void long_data(void)
{
    static struct bytes rows, data, script;

    data.length = 0;
    while (data.length < 65535 + 255)
        add_byte(&data, data.length / 256 + data.length);
    set_hex(&rows, "02000000FFFF00FF");
    set_hex(&script, "00D60000FF");
    add_bytes(&script, data.at + 65535, 255);
    built_list("K2: 255 bytes from 65,535", COMPACT, &rows, &data, &script);
    data.length--;
    refused_list("K2: one of them missing", COMPACT, &rows, &data, 2, 1);
    set_hex(&rows, "0200000000000100");
    refused_list("K2: 256 bytes", COMPACT, &rows, &data, 2, 1);
    refused_list("K2: 256 bytes, expanded", EXPANDED, &rows, &data, 2, 1);
    set_hex(&rows, "0200000000000101");
    refused_list("K2: 257 bytes", EXPANDED, &rows, &data, 2, 1);

    /* Lengths in each form: C-APDUs of 127, 128, 255, 256 and 261 bytes. */
    static const struct {
        uint8_t kind, count;
        const char *head;
    } forms[] = {{2, 122, "AA8181 227F 00D600007A"},     {2, 123, "AA8183 228180 00D600007B"},
                 {2, 250, "AA820102 2281FF 00D60000FA"}, {2, 251, "AA820104 22820100 00D60000FB"},
                 {6, 255, "AA820109 22820105 80320000FF"}};
    for (size_t i = 0; i < sizeof forms / sizeof forms[0]; i++) {
        const uint8_t row[] = {forms[i].kind, 0, 0, 0, 0, 0, 0, forms[i].count};
        rows.length = 0;
        add_bytes(&rows, row, sizeof row);
        set_hex(&script, forms[i].head);
        add_bytes(&script, data.at, forms[i].count);
        if (forms[i].kind == 6)
            add_byte(&script, 0x00);
        built_list("K2: a length's form", EXPANDED, &rows, &data, &script);
    }
}

/* The list, the format, and which refusal comes first. */
static void order_of_refusals(void)
{
    static struct bytes rows, data;

    not_built("K2: no operation", COMPACT, "", "", 1, 0);
    not_built("K2: no operation, no format", 2, "", "", 1, 0);
    not_built("K2: 7 bytes", COMPACT, "03000000000000", "", 1, 0);
    not_built("K2: 9 bytes", EXPANDED, "0300000000000000 03", "", 1, 0);
    not_built("K2: format 2", 2, "0300000000000000", "", 2, 1);
    not_built("K2: format 255", 255, "0100000000000002 FF00000000000000", "7F10", 2, 1);
    not_built("K2: compact, a read first", COMPACT, "0300000000000000 0300000000000000", "", 2, 1);
    not_built("K2: compact, a record read second", COMPACT,
              "0600000000000001 0504000100000000 0600000000000001", "41", 2, 2);
    is_built("K2: expanded, a read first", EXPANDED, "0300000000000000 0300000000000001", "",
             "AA0E 220500B0000000 220500B0000001");
    not_built("K2: the first of two at fault", EXPANDED,
              "0300000000000000 0800000000000000 0900000000000000", "", 2, 2);

    rows.length = data.length = 0;
    for (unsigned i = 0; i < 41; i++)
        add_hex(&rows, "0000000000000000");
    refused_list("K2: 41 operations, all bad", COMPACT, &rows, &data, 1, 0);
    refused_list("K2: 41 operations, format 2", 2, &rows, &data, 1, 0);
    rows.length -= 8;
    refused_list("K2: 40 operations, all bad", COMPACT, &rows, &data, 2, 1);
    rows.length++;
    refused_list("K2: 40 operations and a byte", COMPACT, &rows, &data, 1, 0);
}

/* Adds an update of so many bytes from the data's beginning. */
static void add_update(struct bytes *rows, unsigned count)
{
    add_hex(rows, "020000000000 00");
    add_byte(rows, count);
}

/* Scripts of 1,024 and of 1,025 bytes; 40 operations. */
static void longest_scripts(void)
{
    static struct bytes rows, data, script;

    data.length = 0;
    for (unsigned i = 0; i < 255; i++)
        add_byte(&data, i);
    rows.length = script.length = 0;
    for (unsigned i = 0; i < 4; i++) {
        add_update(&rows, 251);
        add_hex(&script, "00D60000FB");
        add_bytes(&script, data.at, 251);
    }
    built_list("K2: 1,024 bytes, compact", COMPACT, &rows, &data, &script);
    rows.at[7]++;
    refused_list("K2: 1,025 bytes, compact", COMPACT, &rows, &data, 3, 0);
    add_hex(&rows, "0000000000000000");
    refused_list("K2: 2 before 3", COMPACT, &rows, &data, 2, 5);

    rows.length = 0;
    set_hex(&script, "AA8203FC"); /* four TLVs of 255 bytes */
    for (unsigned i = 0; i < 4; i++) {
        add_update(&rows, 247);
        add_hex(&script, "2281FC 00D60000F7");
        add_bytes(&script, data.at, 247);
    }
    built_list("K2: 1,024 bytes, expanded", EXPANDED, &rows, &data, &script);
    rows.at[7]++;
    refused_list("K2: 1,025 bytes, expanded", EXPANDED, &rows, &data, 3, 0);
    start_case("K2: 3 before 4");
    check_number("answer", 3, build(EXPANDED, &rows, &data, 0, script.at));

    rows.length = script.length = 0;
    for (unsigned i = 0; i < 40; i++) {
        add_update(&rows, 20);
        add_hex(&script, "00D6000014");
        add_bytes(&script, data.at, 20);
    }
    built_list("K2: 40 operations", COMPACT, &rows, &data, &script);
    add_update(&rows, 20);
    refused_list("K2: 41 operations", COMPACT, &rows, &data, 1, 0);
}

/* ---- Reading ---- */

/* Reads an answer on memory of exactly its length. */
static uint64_t read_answer(uint8_t format, const struct bytes *answer)
{
    uint8_t *const lent = lend(answer->at, answer->length);
    const uint64_t read = second_read_answer(format, lent, answer->length);

    free(lent);
    return read;
}

/* The result at a place of it. */
static uint64_t result_at(uint8_t format, const struct bytes *answer, size_t place)
{
    uint8_t *const lent = lend(answer->at, answer->length);
    const uint64_t result = second_result(format, lent, answer->length, place);

    free(lent);
    return result;
}

/* A damaged answer, with the place of its first bad byte. */
static void bad_answer(const char *name, uint8_t format, const struct bytes *answer, size_t place)
{
    const uint64_t read = read_answer(format, answer);

    start_case(name);
    check_number("number", 1, SECOND_NUMBER(read));
    check_number("count", 0, SECOND_COUNT(read));
    check_number("place", place, SECOND_LENGTH(read));
}

/* A good one, with its count and the place of its first result. */
static void good_answer(const char *name, uint8_t format, const struct bytes *answer,
                        uint32_t count, size_t first)
{
    const uint64_t read = read_answer(format, answer);

    start_case(name);
    check_number("number", 0, SECOND_NUMBER(read));
    check_number("count", count, SECOND_COUNT(read));
    check_number("first", first, SECOND_LENGTH(read));
}

/* The same by digits. */
static void bad(uint8_t format, const char *hex, size_t place)
{
    static struct bytes answer;

    set_hex(&answer, hex);
    bad_answer(hex, format, &answer, place);
}

static void good(uint8_t format, const char *hex, uint32_t count, size_t first)
{
    static struct bytes answer;

    set_hex(&answer, hex);
    good_answer(hex, format, &answer, count, first);
    if (format == EXPANDED) /* each beginning of it is bad at its end */
        while (answer.length-- > 0)
            bad_answer(hex, format, &answer, answer.length);
}

/* The examples, and compact answers. */
static void compact_answers(void)
{
    static struct bytes answer;

    bad(COMPACT, "", 0);
    bad(COMPACT, "00", 0);
    bad(COMPACT, "009000", 0);
    bad(COMPACT, "01", 1);
    bad(COMPACT, "0190", 2);
    bad(COMPACT, "019001", 2);
    bad(COMPACT, "026100", 2);
    bad(COMPACT, "03698200", 3);
    bad(COMPACT, "01610500", 3);
    bad(COMPACT, "016F00", 1);
    good(COMPACT, "016105", 1, 1);
    good(COMPACT, "AB9000", 0xAB, 1);
    good(COMPACT, "FF9850", 0xFF, 1);
    good(COMPACT, "039000FFFFFF", 3, 1);
    set_hex(&answer, "056282");
    while (answer.length < 3 + 256)
        add_byte(&answer, answer.length);
    good_answer("K2: 256 bytes of data", COMPACT, &answer, 5, 1);
    add_byte(&answer, 0);
    bad_answer("K2: 257 bytes of data", COMPACT, &answer, 3 + 256);
    while (answer.length < 1024)
        add_byte(&answer, 0);
    bad_answer("K2: 1,021 bytes of data", COMPACT, &answer, 3 + 256);
    bad(2, "019000", 0);
    bad(255, "AB03800100", 0);
}

/* Expanded answers: AB. */
static void ab_answers(void)
{
    bad(EXPANDED, "", 0);
    bad(EXPANDED, "019000", 0);
    bad(EXPANDED, "AA00", 0);
    bad(EXPANDED, "AB07800101230290", 8);
    bad(EXPANDED, "AB0780010123029000FF", 9);
    bad(EXPANDED, "AB0680010123029000", 6);
    bad(EXPANDED, "AB0880010123029000", 9);
    bad(EXPANDED, "AB03800101", 5);
    bad(EXPANDED, "AB0380010100", 5);
    bad(EXPANDED, "AB0780010123039000", 6);
    bad(EXPANDED, "AB00", 1);
    bad(EXPANDED, "AB0180", 2);
    bad(EXPANDED, "AB028001", 3);
    bad(EXPANDED, "AB0B8001022302698223029000", 9);
    bad(EXPANDED, "AB09800101230490000000", 9);
    bad(EXPANDED, "AB06800101900104", 7);
    bad(EXPANDED, "AB06800101900100", 7);
    bad(EXPANDED, "AB0680010190020102", 6);
    good(EXPANDED, "AB03800100", 0, 5);
    good(EXPANDED, "AB0780010123029000", 1, 5);
    good(EXPANDED, "AB06800101900103", 1, 5);
    good(EXPANDED, "AB0F800103 23029000 2303416282 900102", 3, 5);
    good(EXPANDED, "AB0E80020080 23029000 2304414290 00", 0x80, 6);
    good(EXPANDED, "AB0880027FFF 23026F00", 0x7FFF, 6);
    good(EXPANDED, "AB0780017F 23026700", 0x7F, 5);
    bad(EXPANDED, "AB0780018023029000", 4);
    bad(EXPANDED, "AB088002007F23029000", 5);
    bad(EXPANDED, "AB088002800023029000", 4);
    bad(EXPANDED, "AB0880020000", 5);
    bad(EXPANDED, "AB06800023029000", 3);
    bad(EXPANDED, "AB09800300000123029000", 3);
    bad(EXPANDED, "AB088081010123029000", 4);
    bad(EXPANDED, "AB0880800123029000", 3);
    bad(EXPANDED, "AB07810101", 2);
    bad(EXPANDED, "AB0781010123029000", 2);
    /* AB's own length. */
    bad(EXPANDED, "AB", 1);
    bad(EXPANDED, "AB80", 1);
    bad(EXPANDED, "AB83000007", 1);
    bad(EXPANDED, "ABFF", 1);
    bad(EXPANDED, "AB81", 2);
    bad(EXPANDED, "AB810780010123029000", 2);
    bad(EXPANDED, "AB82", 2);
    bad(EXPANDED, "AB8200", 3);
    bad(EXPANDED, "AB82000780010123029000", 3);
    bad(EXPANDED, "AB82FFFF", 4);
    /* A further tag, a tag alone, another tag. */
    bad(EXPANDED, "AB0780010023029000", 5);
    bad(EXPANDED, "AB0B8001012302900023029000", 9);
    bad(EXPANDED, "AB0A80010290010123029000", 8);
    bad(EXPANDED, "AB04800101 23", 5);
    bad(EXPANDED, "AB04800101 90 01", 5);
    bad(EXPANDED, "AB0780010122029000", 5);
    bad(EXPANDED, "AB07800101A3029000", 5);
    bad(EXPANDED, "AB0780010100029000", 5);
    /* A result's length: missing, of no form, not the shortest, across the value's end. */
    bad(EXPANDED, "AB0780010123", 6);
    bad(EXPANDED, "AB0780010123809000", 6);
    bad(EXPANDED, "AB0880010123810290 00", 7);
    bad(EXPANDED, "AB0980010123820002 9000", 8);
    bad(EXPANDED, "AB05800101 2381", 7);
    bad(EXPANDED, "AB05800101 2381 80", 7);
    bad(EXPANDED, "AB05800101 2382 01", 8);
    bad(EXPANDED, "AB05800101 2382 0100", 8);
    bad(EXPANDED, "AB0780010123009000", 6);
    bad(EXPANDED, "AB0780010123019000", 6);
    bad(EXPANDED, "AB05800101 9001", 6);
    bad(EXPANDED, "AB06800101 9001", 7);
    bad(EXPANDED, "AB06800101 9000 01", 6);
    /* The word behind no data, and behind data. */
    bad(EXPANDED, "AB0780010123026105", 7);
    bad(EXPANDED, "AB0780010123029001", 8);
    bad(EXPANDED, "AB0880010123034169 82", 8);
    bad(EXPANDED, "AB0880010123034162 81", 9);
    bad(EXPANDED, "AB0880010123034190 01", 9);
    bad(EXPANDED, "AB09800101 230441", 8);
    bad(EXPANDED, "AB09800101 23044142", 9);
}

/* Expanded answers: AF, and longer data than a run has. */
static void af_answers(void)
{
    static struct bytes answer;

    bad(EXPANDED, "AF", 1);
    bad(EXPANDED, "AF81", 1);
    bad(EXPANDED, "AF00", 1);
    bad(EXPANDED, "AF80", 2);
    bad(EXPANDED, "AF8000", 3);
    bad(EXPANDED, "AF80230590000000", 7);
    bad(EXPANDED, "AF80230290000001", 7);
    bad(EXPANDED, "AF8023029000", 6);
    bad(EXPANDED, "AF80000000", 4);
    bad(EXPANDED, "AF80230290000000 23", 8);
    bad(EXPANDED, "AF8023026982 23029000 0000", 6);
    bad(EXPANDED, "AF80900101 23029000 0000", 5);
    bad(EXPANDED, "AF80900101 900101 0000", 5);
    bad(EXPANDED, "AF8022029000 0000", 2);
    bad(EXPANDED, "AF80 23", 3);
    bad(EXPANDED, "AF80 90", 3);
    bad(EXPANDED, "AF80 9001", 4);
    bad(EXPANDED, "AF80 23FF", 3);
    bad(EXPANDED, "AF80 2381", 4);
    bad(EXPANDED, "AF80 23820000", 5);
    bad(EXPANDED, "AF80 237F 9000 0000", 8);
    good(EXPANDED, "AF800000", 0, 2);
    good(EXPANDED, "AF80230290000000", 1, 2);
    good(EXPANDED, "AF80 23029000 2304FFFF6283 23026282 900101 0000", 4, 2);
    set_hex(&answer, "AF80 2382FFFF");
    while (answer.length < 6 + 65533)
        add_byte(&answer, answer.length);
    add_hex(&answer, "9000 0000");
    good_answer("K2: 65,533 bytes of data", EXPANDED, &answer, 1, 2);
    start_case("K2: 65,533 bytes of data, the result");
    const uint64_t result = result_at(EXPANDED, &answer, 2);
    check_number("word", 0x9000, SECOND_WORD(result));
    check_number("data's length", 65533, SECOND_DATA_LENGTH(result));
    check_number("data", 6, SECOND_DATA(result));
}

/* The words of a command, those that can have data first. */
static const uint16_t words[] = {0x9000, 0x6282, 0x6283, 0x6581, 0x6700, 0x6981, 0x6982, 0x6984,
                                 0x6985, 0x6986, 0x6A82, 0x6A83, 0x6A86, 0x6B00, 0x6D00, 0x6E00,
                                 0x9850, 0x6F00};
enum { WORDS = sizeof words / sizeof words[0], WITH_DATA = 3 };

/* The bytes of a word that are good where these words may stand: 0, 1 or 2. */
static size_t good_bytes(unsigned word, size_t allowed, bool waits)
{
    size_t most = 0;

    if (waits && word >> 8 == 0x61)
        return word == 0x6100 ? 1 : 2;
    for (size_t i = 0; i < allowed; i++) {
        if (words[i] == word)
            return 2;
        if (words[i] >> 8 == word >> 8)
            most = 1;
    }
    return most;
}

/* An answer with each of the 65,536 words, the word beginning at this place: it is read, or bad
 * where the word is. */
static void each_word(const char *name, uint8_t format, const char *hex, size_t at, size_t allowed,
                      bool waits)
{
    static struct bytes answer;

    start_case(name);
    set_hex(&answer, hex);
    for (unsigned word = 0; word <= 0xFFFF; word++) {
        answer.at[at] = (uint8_t)(word >> 8);
        answer.at[at + 1] = (uint8_t)word;
        const size_t bytes = good_bytes(word, allowed, waits);
        const uint64_t read = second_read_answer(format, answer.at, answer.length);
        check_number("number", bytes < 2, SECOND_NUMBER(read));
        if (bytes < 2)
            check_number("place", at + bytes, SECOND_LENGTH(read));
    }
}

static void all_words(void)
{
    each_word("K2: words of compact", COMPACT, "01 0000", 1, WORDS - 1, true);
    each_word("K2: words of AB", EXPANDED, "AB07800101 23020000", 7, WORDS, false);
    each_word("K2: words of AB behind data", EXPANDED, "AB08800101 2303410000", 8, WITH_DATA, false);
    each_word("K2: words of AF", EXPANDED, "AF80 23020000 0000", 4, WORDS, false);
    each_word("K2: words of AF behind data", EXPANDED, "AF80 2303410000 0000", 5, WITH_DATA, false);
}

/* ---- Results ---- */

/* The result at a place: its word, its data's place and length. */
static void result(uint8_t format, const char *hex, size_t place, unsigned word, size_t data,
                   size_t data_length)
{
    static struct bytes answer;

    start_case(hex);
    set_hex(&answer, hex);
    const uint64_t told = result_at(format, &answer, place);
    check_number("word", word, SECOND_WORD(told));
    check_number("data", data, SECOND_DATA(told));
    check_number("data's length", data_length, SECOND_DATA_LENGTH(told));
}

/* No result at each place from one to another. */
static void no_result(uint8_t format, const char *hex, size_t from, size_t to)
{
    for (size_t place = from; place <= to; place++)
        result(format, hex, place, 0, 0, 0);
}

static void results(void)
{
    static const char *const three = "AB0F800103 23029000 2303416282 900102";

    result(COMPACT, "039000FFFFFF", 1, 0x9000, 3, 3);
    no_result(COMPACT, "039000FFFFFF", 0, 0);
    no_result(COMPACT, "039000FFFFFF", 2, 12);
    result(COMPACT, "039000FFFFFF", SIZE_MAX, 0, 0, 0);
    result(COMPACT, "016105", 1, 0x6105, 3, 0);
    no_result(COMPACT, "0190", 1, 1);
    no_result(COMPACT, "", 0, 2);
    result(EXPANDED, three, 5, 0x9000, 7, 0);
    result(EXPANDED, three, 9, 0x6282, 11, 1);
    result(EXPANDED, three, 14, 0x0002, 0, 0);
    no_result(EXPANDED, three, 0, 4);
    no_result(EXPANDED, three, 6, 8);
    no_result(EXPANDED, three, 15, 40);
    no_result(EXPANDED, three, SIZE_MAX - 8, SIZE_MAX - 1);
    result(EXPANDED, three, SIZE_MAX, 0, 0, 0);
    result(EXPANDED, "AF80230290000000", 2, 0x9000, 4, 0);
    no_result(EXPANDED, "AF80230290000000", 6, 9);
    no_result(EXPANDED, "AF800000", 2, 2);
    /* Inside a result's data the place alone is judged. */
    result(EXPANDED, "AF80 2306 23029000 9000 0000", 4, 0x9000, 6, 0);
    no_result(EXPANDED, "AF80 23029000", 3, 6);
    no_result(EXPANDED, "AF80 230290", 2, 2);
    no_result(2, "AF80 23029000 0000", 2, 2);
    no_result(2, "019000", 1, 1);
}

/* 16,777,215 bytes are read, one more is not. */
static void longest_answers(void)
{
    enum { MOST = 16777215, RESULTS = 4194302 };
    uint8_t *const answer = malloc(MOST + 1), *at = answer;

    if (answer == NULL)
        exit(2);
    /* One R-APDU of three bytes of data, and as many as fit without. */
    static const uint8_t head[] = {0xAF, 0x80, 0x23, 0x05, 0x41, 0x42, 0x43, 0x90, 0x00};
    static const uint8_t r_apdu[] = {0x23, 0x02, 0x90, 0x00};
    memcpy(at, head, sizeof head);
    at += sizeof head;
    for (size_t i = 1; i < RESULTS; i++, at += sizeof r_apdu)
        memcpy(at, r_apdu, sizeof r_apdu);
    memset(at, 0, 3);
    start_case("K2: 16,777,215 bytes");
    check_number("length", MOST, (size_t)(at + 2 - answer));
    uint64_t read = second_read_answer(EXPANDED, answer, MOST);
    check_number("number", 0, SECOND_NUMBER(read));
    check_number("count", RESULTS, SECOND_COUNT(read));
    check_number("first", 2, SECOND_LENGTH(read));
    const uint64_t last = second_result(EXPANDED, answer, MOST, MOST - 6);
    check_number("word of the last", 0x9000, SECOND_WORD(last));
    check_number("data of the last", MOST - 4, SECOND_DATA(last));
    start_case("K2: 16,777,216 bytes");
    check_number("answer", 2, second_read_answer(EXPANDED, answer, MOST + 1));
    check_number("answer, compact", 2, second_read_answer(COMPACT, answer, MOST + 1));
    check_number("answer, format 2", 2, second_read_answer(2, answer, MOST + 1));
    check_number("result", 0, second_result(EXPANDED, answer, MOST + 1, 2) != 0);
    free(answer);
}

void test_desk(void)
{
    each_kind();
    each_limit();
    long_data();
    order_of_refusals();
    longest_scripts();
    compact_answers();
    ab_answers();
    af_answers();
    all_words();
    results();
    longest_answers();
}
