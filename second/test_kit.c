/* The kit of the tests. What is declared in test_kit.h has its comment there. */
#include "test_kit.h"

#include <stdio.h>
#include <stdlib.h>
#include <string.h>

static struct {
    unsigned cases, failed;
    bool this_failed;
    const char *name;
} state = {0, 0, false, ""};

/* ---- Bytes ---- */

/* The value of a hexadecimal digit. */
static unsigned digit_of(char c)
{
    if (c >= '0' && c <= '9')
        return (unsigned)(c - '0');
    if (c >= 'A' && c <= 'F')
        return (unsigned)(c - 'A' + 10);
    fprintf(stderr, "bad digit in test %s\n", state.name);
    exit(2);
}

void add_byte(struct bytes *to, unsigned byte)
{
    if (to->length >= sizeof to->at)
        exit(2);
    to->at[to->length++] = (uint8_t)byte;
}

void add_bytes(struct bytes *to, const uint8_t *from, size_t length)
{
    for (size_t i = 0; i < length; i++)
        add_byte(to, from[i]);
}

void add_hex(struct bytes *to, const char *hex)
{
    while (*hex != '\0') {
        if (*hex == ' ') {
            hex++;
            continue;
        }
        const unsigned high = digit_of(hex[0]);
        add_byte(to, high * 16 + digit_of(hex[1]));
        hex += 2;
    }
}

void set_hex(struct bytes *to, const char *hex)
{
    to->length = 0;
    add_hex(to, hex);
}

bool same_bytes(const struct bytes *a, const struct bytes *b)
{
    return a->length == b->length && memcmp(a->at, b->at, a->length) == 0;
}

void print_hex(const uint8_t *at, size_t length)
{
    for (size_t i = 0; i < length; i++)
        printf("%02X", at[i]);
}

/* ---- Cards ---- */

void made_card(struct card_bytes *c, const char *table, size_t files_length)
{
    set_hex(&c->table, table);
    c->files.length = 0;
    for (size_t i = 0; i < files_length; i++)
        add_byte(&c->files, i & 0xFF);
    c->journal.length = 0;
    for (size_t i = 0; i < 2048; i++)
        add_byte(&c->journal, 0);
}

/* "Entries: 0 MF; 1 DF 7F10 in 0; 2 transparent 6F46 in 1, start 0, length 17; 3 linear 6F3A in
 * 1, start 17, 3 records of 4; 4 cyclic 6F39 in 1, start 29, 3 records of 3; 5 ADF; 6
 * transparent 6F46 in 5, start 38, length 17, NEVER 2. File memory is 55 bytes, all FF, cyclic
 * 00 with newest 0; activated, journal zero." */
void worked_card(struct card_bytes *c)
{
    made_card(c, MF_ENTRY
              "7F10 00 02 0000 0000 00 00 05 00 00 000000"
              "6F46 01 04 0000 0011 00 00 05 00 00 000000"
              "6F3A 01 05 0011 000C 04 00 05 00 00 000000"
              "6F39 01 06 001D 0009 03 00 05 00 00 000000"
              "7FFF 00 03 0000 0000 00 00 05 00 00 000000"
              "6F46 05 04 0026 0011 00 00 05 00 02 000000",
              55);
    memset(c->files.at, 0xFF, 55);
    memset(c->files.at + 29, 0x00, 9);
}

void fill_journal(struct card_bytes *c, unsigned marks, size_t used)
{
    uint8_t *at = c->journal.at;
    size_t left = used - 8u * marks;

    memset(at, 0, 2048);
    at[0] = (uint8_t)(used >> 8);
    at[1] = (uint8_t)used;
    at[2] = (uint8_t)marks;
    at += 4;
    for (unsigned i = 0; i < marks; i++, at += 8)
        at[0] = 1;
    while (left > 0) {
        size_t n = left > 8 + 17 ? 17 : left - 8;
        if (left - 8 - n > 0 && left - 8 - n < 9)
            n -= 9;
        memcpy(at, c->files.at, n);
        at += n;
        at[0] = 2;
        at[5] = (uint8_t)n;
        at += 8;
        left -= 8 + n;
    }
}

bool is_expanded(uint8_t format, const struct bytes *script)
{
    if (format != DETECT)
        return format == EXPANDED;
    return script->length > 0 && (script->at[0] == 0xAA || script->at[0] == 0xAE);
}

unsigned used_of(const struct card_bytes *c) { return c->journal.at[0] * 256u + c->journal.at[1]; }
unsigned scripts_of(const struct card_bytes *c) { return c->journal.at[2]; }

/* ---- Cases ---- */

void start_case(const char *name)
{
    state.cases++;
    state.this_failed = false;
    state.name = name;
}

/* Marks the case as failed; whether it was not yet. */
static bool first_failure(void)
{
    if (state.this_failed)
        return false;
    state.this_failed = true;
    state.failed++;
    return true;
}

void check(bool holds, const char *what)
{
    if (!holds && first_failure())
        printf("failed: %s: %s\n", state.name, what);
}

void check_number(const char *what, unsigned long expected, unsigned long got)
{
    if (expected != got && first_failure())
        printf("failed: %s: %s is %lu, expected %lu\n", state.name, what, got, expected);
}

/* Prints bytes, of many the first 40 and how many they are. */
static void print_some(const uint8_t *at, size_t length)
{
    print_hex(at, length < 40 ? length : 40);
    if (length > 40)
        printf(".. (%zu bytes)", length);
}

void check_bytes(const char *what, const uint8_t *expected, size_t expected_length,
                 const uint8_t *got, size_t length)
{
    if (expected_length == length && (length == 0 || memcmp(expected, got, length) == 0))
        return;
    if (!first_failure())
        return;
    printf("failed: %s: %s is ", state.name, what);
    print_some(got, length);
    printf(", expected ");
    print_some(expected, expected_length);
    printf("\n");
}

void check_part(const char *what, const uint8_t *got, const char *expected_hex)
{
    struct bytes expected;

    set_hex(&expected, expected_hex);
    check_bytes(what, expected.at, expected.length, got, expected.length);
}

void check_card(const char *what, const struct card_bytes *expected, const struct card_bytes *got)
{
    check(same_bytes(&expected->table, &got->table) &&
              same_bytes(&expected->files, &got->files) &&
              same_bytes(&expected->journal, &got->journal),
          what);
}

bool report(void)
{
    printf("second: %u cases, %u failed\n", state.cases, state.failed);
    return state.failed == 0;
}

/* ---- The three calls ---- */

uint8_t *lend(const uint8_t *from, size_t length)
{
    if (length == 0)
        return NULL;
    uint8_t *copy = malloc(length);
    if (copy == NULL)
        exit(2);
    memcpy(copy, from, length);
    return copy;
}

/* A card's three memories, lent for a call. */
struct lent {
    uint8_t *table, *files, *journal;
};

/* Copies of the card's memories. */
static struct lent lend_card(const struct card_bytes *c)
{
    return (struct lent){lend(c->table.at, c->table.length), lend(c->files.at, c->files.length),
                         lend(c->journal.at, c->journal.length)};
}

/* Takes over what a call left in a copy, and frees it. */
static void take_over(uint8_t *to, uint8_t *lent, size_t length)
{
    if (length > 0)
        memcpy(to, lent, length);
    free(lent);
}

/* Takes over what a call left of the card. */
static void return_card(struct card_bytes *c, struct lent lent)
{
    take_over(c->table.at, lent.table, c->table.length);
    take_over(c->files.at, lent.files, c->files.length);
    take_over(c->journal.at, lent.journal, c->journal.length);
}

/* Makes a take-back or a confirmation; answers what it answers. */
static uint64_t call_on(struct card_bytes *c,
                        uint64_t call(uint8_t *, size_t, uint8_t *, size_t, uint8_t *, size_t))
{
    const struct lent l = lend_card(c);
    const uint64_t answer = call(l.table, c->table.length, l.files, c->files.length, l.journal,
                                 c->journal.length);
    return_card(c, l);
    return answer;
}

/* Whether the bytes from one place to another are as before. */
static bool kept_behind(const uint8_t *now, const uint8_t *before, size_t from, size_t to)
{
    for (size_t i = from; i < to; i++)
        if (now[i] != before[i])
            return false;
    return true;
}

/* Checks what an accepted run does to every card. */
static void check_accepted_run(const struct card_bytes *before, const struct card_bytes *after)
{
    static struct card_bytes copy;

    check(scripts_of(after) == scripts_of(before) + 1u, "scripts on trial not one more");
    check(used_of(after) >= used_of(before) + 8u, "no mark appended");
    copy = *after;
    check(call_on(&copy, second_take_back) == 0, "take-back of an accepted run refused");
    check_card("taken back, not all as before", before, &copy);
    copy = *after;
    check(call_on(&copy, second_confirm) == 0, "confirmation after an accepted run refused");
}

struct reply run(struct card_bytes *c, size_t application, uint8_t domain, uint8_t format,
                 const struct bytes *script, size_t response_length)
{
    static struct card_bytes before;
    struct reply reply;
    uint8_t pattern[sizeof reply.response];

    before = *c;
    for (size_t i = 0; i < sizeof pattern; i++)
        pattern[i] = (uint8_t)(i * 37 + 0x5A);
    const struct lent l = lend_card(c);
    uint8_t *lent_script = lend(script->at, script->length);
    uint8_t *response = lend(pattern, response_length);
    const uint64_t answer = second_run(l.table, c->table.length, l.files, c->files.length,
                                       l.journal, c->journal.length, application, domain, format,
                                       lent_script, script->length, response, response_length);
    return_card(c, l);
    memset(&reply, 0, sizeof reply);
    reply.number = SECOND_NUMBER(answer);
    reply.count = SECOND_COUNT(answer);
    reply.length = SECOND_LENGTH(answer);
    if (response_length > 0)
        memcpy(reply.response, response, response_length);
    check(script->length == 0 || memcmp(lent_script, script->at, script->length) == 0,
          "script changed");
    free(lent_script);
    free(response);

    check(reply.number <= 6, "number above 6");
    check(reply.length <= response_length, "answer longer than the response memory");
    check(kept_behind(reply.response, pattern, reply.length, response_length),
          "response memory behind the answer changed");
    if (reply.number != 0) {
        check(reply.length == 0 && reply.count == 0, "refusal with a length or a count");
        check_card("refusal changed the card", &before, c);
    } else {
        check_accepted_run(&before, c);
    }
    return reply;
}

unsigned take_back(struct card_bytes *c)
{
    static struct card_bytes before;

    before = *c;
    const uint64_t answer = call_on(c, second_take_back);
    check(answer <= 7, "take-back with a length or a count");
    if (answer != 0)
        check_card("refused take-back changed the card", &before, c);
    return SECOND_NUMBER(answer);
}

unsigned confirm(struct card_bytes *c)
{
    static struct card_bytes expected;

    expected = *c;
    const uint64_t answer = call_on(c, second_confirm);
    check(answer <= 1, "confirmation with a length or a count");
    if (answer == 0) /* "A confirmation zeros the journal." */
        memset(expected.journal.at, 0, expected.journal.length);
    check_card("confirmation changed more or less than the journal", &expected, c);
    return SECOND_NUMBER(answer);
}

/* ---- One whole case each ---- */

void whole_case(struct card_bytes *c, const char *name, size_t application, uint8_t domain,
                uint8_t format, const struct bytes *script, uint32_t count,
                const struct bytes *answer)
{
    start_case(name);
    const struct reply reply = run(c, application, domain, format, script, FULL_RESPONSE);
    check_number("number", 0, reply.number);
    check_bytes("answer", answer->at, answer->length, reply.response, reply.length);
    check_number("count", count, reply.count);
}

/* Any format, application and domain; of a compact answer the first byte is the count. */
static void hex_case(struct card_bytes *c, const char *name, size_t application, uint8_t domain,
                     uint8_t format, const char *script_hex, uint32_t count,
                     const char *answer_hex)
{
    static struct bytes script, answer;

    set_hex(&script, script_hex);
    set_hex(&answer, answer_hex);
    if (format == COMPACT)
        count = answer.at[0];
    whole_case(c, name, application, domain, format, &script, count, &answer);
}

void compact_in(struct card_bytes *c, const char *name, size_t application, uint8_t domain,
                const char *script, const char *answer)
{
    hex_case(c, name, application, domain, COMPACT, script, 0, answer);
}

void compact_on(struct card_bytes *c, const char *name, const char *script, const char *answer)
{
    compact_in(c, name, SHARED, OPEN, script, answer);
}

void expanded_on(struct card_bytes *c, const char *name, const char *script, uint32_t count,
                 const char *answer)
{
    hex_case(c, name, SHARED, OPEN, EXPANDED, script, count, answer);
}

void compact(const char *name, const char *script, const char *answer)
{
    static struct card_bytes w;

    worked_card(&w);
    compact_on(&w, name, script, answer);
}

void expanded(const char *name, const char *script, uint32_t count, const char *answer)
{
    static struct card_bytes w;

    worked_card(&w);
    expanded_on(&w, name, script, count, answer);
}

void refused(struct card_bytes *c, const char *name, size_t application, uint8_t domain,
             uint8_t format, const char *script_hex, unsigned number)
{
    static struct bytes script;

    start_case(name);
    set_hex(&script, script_hex);
    const struct reply reply = run(c, application, domain, format, &script, FULL_RESPONSE);
    check_number("number", number, reply.number);
}

void soundness(struct card_bytes *c, const char *name, bool is_sound)
{
    static struct card_bytes copy;
    static struct bytes script;

    start_case(name);
    set_hex(&script, SELECT_DF);
    copy = *c;
    check_number("run's number", is_sound ? 0 : 1,
                 run(&copy, SHARED, OPEN, COMPACT, &script, FULL_RESPONSE).number);
    copy = *c;
    const unsigned back = take_back(&copy);
    check_number("take-back's number", !is_sound ? 1 : scripts_of(c) == 0 ? 7 : 0, back);
    copy = *c;
    check_number("confirmation's number", is_sound ? 0 : 1, confirm(&copy));
}

void unsound(struct card_bytes *c, const char *name) { soundness(c, name, false); }
void sound(struct card_bytes *c, const char *name) { soundness(c, name, true); }

/* ---- Expanded scripts ---- */

/* Adds a length in shortest form. */
static void add_length(struct bytes *to, size_t length)
{
    if (length > 0xFF) {
        add_byte(to, 0x82);
        add_byte(to, (unsigned)(length >> 8));
    } else if (length > 0x7F) {
        add_byte(to, 0x81);
    }
    add_byte(to, length & 0xFF);
}

void add_apdu(struct bytes *to, const char *apdu_hex)
{
    static struct bytes apdu;

    set_hex(&apdu, apdu_hex);
    add_byte(to, 0x22);
    add_length(to, apdu.length);
    add_bytes(to, apdu.at, apdu.length);
}

void wrap_aa(struct bytes *value)
{
    static struct bytes whole;

    whole.length = 0;
    add_byte(&whole, 0xAA);
    add_length(&whole, value->length);
    add_bytes(&whole, value->at, value->length);
    *value = whole;
}

void wrap_ae(struct bytes *value)
{
    static struct bytes whole;

    set_hex(&whole, "AE80");
    add_bytes(&whole, value->at, value->length);
    add_hex(&whole, "0000");
    *value = whole;
}
