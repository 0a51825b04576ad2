/* Histories (point 51) and random input with a fixed seed, which no expression draws from twice in
 * an open order: it is the same on every machine. What every call must keep is checked by the calls
 * of the kit. */
#include "test_kit.h"

#include <stdio.h>
#include <string.h>

/* ---- Histories ---- */

/* A run of the history. */
struct step {
    size_t application;
    uint8_t domain, format;
    const char *script;
    size_t response_length;
};

static const struct step history[] = {
    {SHARED, OPEN, COMPACT, S "00D60000020141", 1024},
    {SHARED, OPEN, EXPANDED, "AA0155", 1024},
    {SHARED, OPEN, COMPACT, "00A4080C047F106F39 8032000003000005 00C0000000", 1024},
    {SHARED, OPEN, EXPANDED, "AA0222", 1024},                            /* refused, 6 */
    {5, OPEN, COMPACT, "00A4000C026F46 00D600000101", 1030},
    {SHARED, OPEN, COMPACT, S "0004000000 00A40004026F46 00C0000000", 1024},
    {SHARED, OPEN, COMPACT, S "00B0000003", 1024},
    {SHARED, OPEN, COMPACT, "", 1024},                                   /* refused, 3 */
    {SHARED, OPEN, COMPACT, S "0044000000 00B0000003", 1023},            /* refused, 4 */
    {SHARED, OPEN, COMPACT, S "0044000000 00B0000003", 1024},
    {2, OPEN, COMPACT, S, 1024},                                         /* refused, 2 */
    {SHARED, OPEN, EXPANDED, "AE80 220900A4080C047F106F39 220800DC000303A1A2A3"
                             "220500B2000403 0000", 1024},
    {SHARED, CLOSED, COMPACT, S, 1024},
    {SHARED, OPEN, COMPACT, "00A4080C047F106F3A 00DC00020401020304 00A2000401 02 00C0000000",
     1024},
};
enum { STEPS = sizeof history / sizeof history[0] };

/* Runs a script of the history. */
static struct reply take_step(struct card_bytes *c, const struct step *step)
{
    static struct bytes script;

    set_hex(&script, step->script);
    return run(c, step->application, step->domain, step->format, &script, step->response_length);
}

/* Point 51: the same answer is number, length, count and the whole response memory, with the same
 * response memory lent. */
static bool same_answer(const struct reply *a, const struct reply *b)
{
    return a->number == b->number && a->length == b->length && a->count == b->count &&
           memcmp(a->response, b->response, sizeof a->response) == 0;
}

static const unsigned expected_numbers[STEPS] = {0, 0, 0, 6, 0, 0, 0, 3, 4, 0, 2, 0, 0, 0};

/* Every script of the history is run and taken back at every place of the history: all is as
 * before, and the rest of the history answers as it does without that. */
static void script_between(void)
{
    static struct card_bytes plain[STEPS + 1], c;
    static struct reply answers[STEPS];

    start_case("51: the history alone");
    worked_card(&plain[0]);
    for (unsigned i = 0; i < STEPS; i++) {
        plain[i + 1] = plain[i];
        answers[i] = take_step(&plain[i + 1], &history[i]);
        check_number("number", expected_numbers[i], answers[i].number);
    }
    for (unsigned at = 0; at <= STEPS; at++) {
        start_case("51: a script run and taken back inside the history");
        for (unsigned between = 0; between < STEPS; between++) {
            c = plain[at];
            if (take_step(&c, &history[between]).number == 0)
                check_number("take-back's number", 0, take_back(&c));
            check_card("not all as before", &plain[at], &c);
        }
        for (unsigned i = at; i < STEPS; i++) {
            const struct reply reply = take_step(&c, &history[i]);
            check(same_answer(&answers[i], &reply), "another answer");
        }
        check_card("another card at the end", &plain[STEPS], &c);
    }
}

/* All scripts are taken back one by one; each time all is as before that script. */
static void back_to_the_start(void)
{
    static struct card_bytes before[STEPS], c;
    unsigned accepted = 0;

    start_case("the whole history taken back");
    worked_card(&c);
    for (unsigned i = 0; i < STEPS; i++) {
        before[accepted] = c;
        if (take_step(&c, &history[i]).number == 0)
            accepted++;
    }
    check_number("accepted scripts", STEPS - 4, accepted);
    check_number("scripts on trial", accepted, scripts_of(&c));
    while (accepted > 0) {
        check_number("take-back's number", 0, take_back(&c));
        check_card("not all as before", &before[--accepted], &c);
    }
    check_number("take-back's number", 7, take_back(&c));
}

/* After a confirmation only later scripts can be taken back. */
static void confirmed_between(void)
{
    static struct card_bytes c, confirmed;

    start_case("a confirmation inside the history");
    worked_card(&c);
    check_number("number", 0, take_step(&c, &history[0]).number);
    check_number("confirmation's number", 0, confirm(&c));
    confirmed = c;
    check_part("file memory", c.files.at, "0141FF");
    check_number("number", 0, take_step(&c, &history[2]).number);
    check_number("take-back's number", 0, take_back(&c));
    check_card("not all as after the confirmation", &confirmed, &c);
    check_number("take-back's number", 7, take_back(&c));
    check_card("not all as after the confirmation", &confirmed, &c);
}

/* K1: every script of the history gives with format 2 what it gives with its own number, and leaves
 * the same card. */
static void detected_alike(void)
{
    static struct card_bytes own, c;

    start_case("K1: the history with format 2");
    worked_card(&own);
    c = own;
    for (unsigned i = 0; i < STEPS; i++) {
        struct step step = history[i];
        const struct reply expected = take_step(&own, &step);
        step.format = DETECT;
        const struct reply reply = take_step(&c, &step);
        check(same_answer(&expected, &reply), "another answer");
        check_card("another card", &own, &c);
    }
}

void test_histories(void)
{
    script_between();
    back_to_the_start();
    confirmed_between();
    detected_alike();
}

/* ---- Random input ---- */

static uint64_t random_state = 0x1234567887654321u;

/* A number below the limit (xorshift64). */
static uint32_t below(uint32_t limit)
{
    random_state ^= random_state << 13;
    random_state ^= random_state >> 7;
    random_state ^= random_state << 17;
    return (uint32_t)((random_state >> 20) % limit);
}

/* Bytes that mean something somewhere are chosen more often. */
static uint8_t some_byte(void)
{
    static const uint8_t often[] = {0x00, 0x01, 0x02, 0x03, 0x04, 0x05, 0x06, 0x08, 0x09, 0x0C,
                                    0x10, 0x11, 0x22, 0x32, 0x44, 0x7F, 0x80, 0x81, 0x82, 0xA2,
                                    0xA4, 0xAA, 0xAE, 0xB0, 0xB2, 0xC0, 0xD6, 0xDC, 0xFE, 0xFF};
    return below(3) == 0 ? (uint8_t)below(256) : often[below(sizeof often)];
}

/* Changes one byte from one place to before another. */
static void change_byte(struct bytes *b, size_t from, size_t to)
{
    const size_t place = from + below((uint32_t)(to - from));

    b->at[place] = some_byte();
}

/* The worked card or a larger one, with some states, NEVER bits and journals. */
static void random_card(struct card_bytes *c)
{
    if (below(3) > 0) {
        worked_card(c);
        c->table.at[4 * 16 + 9] = (uint8_t)below(3);
    } else {
        made_card(c, MF_ENTRY
                     "7F10 00 02 0000 0000 00 00 05 00 00 000000"
                     "6F46 01 04 0000 012C 00 00 05 00 00 000000"
                     "6F3A 01 05 012C 00FE 01 00 05 00 00 000000"
                     "6F39 01 06 022A 0080 40 01 05 00 00 000000"
                     "7FFF 00 03 0000 0000 00 00 05 00 00 000000"
                     "6F46 05 04 02AA 0001 00 00 05 00 02 000000", 683);
    }
    for (unsigned entry = 2; entry < 5; entry++) {
        if (below(5) == 0)
            c->table.at[entry * 16 + 10] = 4;
        if (below(5) == 0)
            c->table.at[entry * 16 + 12] = (uint8_t)below(32);
    }
    if (below(4) == 0) {
        const unsigned marks = 1 + below(15);
        fill_journal(c, marks, 1900 + below(145));
    }
}

/* Commands in compact form for a transparent, a linear and a cyclic file, and for any. */
enum { CHOICES = 8 };
static const char *const commands[4][CHOICES] = {
    {"00D600000101", "00D6000A020102", "00D600000A00010203040506070809", "00D6001001AA",
     "0004000000", "0044000000", "00A40004026F46", "00D6000F0401020304"},
    {"00DC00020401020304", "00DC00030401020304", "00DC01040401020304", "00DC00020101",
     "00A2010401FF", "00A20305020000", "00A200040101", "0044000000"},
    {"00DC000303010203", "00DC000303FFFFFF", "00A201040100", "00A200050105", "803200000101",
     "8032000003000005", "8032000003FFFFFF", "0044000000"},
    {"00A4000C027F10", "00A4000C026F46", "00A40004026F3A", "00A4090C026F39", "00A4000C023F00",
     "00A40004027FFF", "00A4000C026F39", "0004000000"}};
static const char *const readings[CHOICES] = {
    "00B0000000", "00B0000003", "00B0000A0A", "00B2000200", "00B2000300", "00B2010400",
    "00C0000000", "00C0000004"};
static const char *const selects[3] = {SELECT_TRANSPARENT, SELECT_LINEAR, SELECT_CYCLIC};

/* Adds a command, now and then with one byte changed. */
static void add_command(struct bytes *to, const char *hex)
{
    const size_t from = to->length;

    add_hex(to, hex);
    if (below(60) == 0)
        change_byte(to, from, to->length);
}

/* A command that mostly fits a file of this kind. */
static const char *some_command(unsigned kind)
{
    const char *const *fitting = commands[below(12) == 0 ? 3 : kind];

    return fitting[below(CHOICES)];
}

/* A SELECT, some commands and a reading one, mostly right. */
static void random_compact(struct bytes *script)
{
    const unsigned kind = below(3);

    script->length = 0;
    if (below(12) > 0)
        add_command(script, selects[kind]);
    for (unsigned i = below(below(4) == 0 ? 60 : 6); i > 0; i--)
        add_command(script, some_command(kind));
    if (below(2) || script->length == 0)
        add_command(script, readings[below(CHOICES)]);
    if (below(15) == 0)
        script->length -= below(6);
}

/* The same commands as C-APDUs: 04 and 44 lose P3; those of case 4 get Le 00. */
static void random_expanded(struct bytes *script)
{
    static struct bytes apdu;
    const unsigned kind = below(3);
    const unsigned count = below(below(3) == 0 ? 80 : 8);

    script->length = 0;
    for (unsigned i = 0; i < count; i++) {
        apdu.length = 0;
        add_command(&apdu, i == 0 ? selects[kind]
                           : below(3) == 0 ? readings[kind == 0 ? below(3) : 3 + below(3)]
                                           : some_command(kind));
        const uint8_t ins = apdu.at[1];
        if (ins == 0x04 || ins == 0x44)
            apdu.length = 4;
        else if (ins == 0xA2 || ins == 0x32 || (ins == 0xA4 && apdu.at[3] == 0x04))
            add_byte(&apdu, 0);
        add_byte(script, below(2) ? 0x22 : 0xA2);
        add_byte(script, (unsigned)apdu.length);
        add_bytes(script, apdu.at, apdu.length);
        if (below(100) == 0)
            add_byte(script, some_byte());
    }
    if (below(2))
        wrap_aa(script);
    else
        wrap_ae(script);
    if (below(15) == 0)
        change_byte(script, 0, script->length);
}

/* The form of an accepted answer. */
static void check_form(const struct reply *reply, uint8_t format, const struct bytes *script)
{
    const uint8_t *r = reply->response;

    if (reply->number != 0)
        return;
    if (!is_expanded(format, script)) {
        check(reply->count >= 1 && reply->count <= 205 && r[0] == reply->count &&
              reply->length >= 3 && reply->length <= 3 + 256, "form of a compact answer");
    } else if (script->at[0] == 0xAE) {
        check(reply->length >= 4 && reply->length <= 1008 && r[0] == 0xAF && r[1] == 0x80 &&
              r[reply->length - 1] == 0 && r[reply->length - 2] == 0, "form of an AF answer");
    } else {
        const size_t head = r[1] < 0x80 ? 2 : r[1] == 0x81 ? 3 : 4;
        const size_t length = head == 2 ? r[1] : head == 3 ? r[2] : r[2] * 256u + r[3];
        const size_t count = r[head + 1] == 1 ? r[head + 2] : r[head + 2] * 256u + r[head + 3];
        check(r[0] == 0xAB && head + length == reply->length && r[head] == 0x80 &&
              count == reply->count, "form of an AB answer");
    }
}

/* A run with mostly right arguments; one of format 2 also with the number of the form found (K1). */
static void random_run(struct card_bytes *c)
{
    static struct bytes script;
    static struct card_bytes own;
    static const size_t applications[20] = {[15] = 5, [16] = 5, [17] = 1, [18] = 6, [19] = 261};
    const uint8_t made = below(2) ? EXPANDED : COMPACT;
    const uint8_t format = below(20) == 0 ? 3 : below(3) == 0 ? DETECT : made;
    const uint8_t domain = below(12) > 0 ? OPEN : below(2) ? CLOSED : some_byte();
    const size_t response_length = below(20) > 0 ? 1024 + below(3) : below(1025);
    const size_t application = applications[below(20)];

    if (made == EXPANDED)
        random_expanded(&script);
    else
        random_compact(&script);
    own = *c;
    const struct reply reply = run(c, application, domain, format, &script, response_length);
    check_form(&reply, format, &script);
    if (format == DETECT) {
        const uint8_t found = is_expanded(format, &script) ? EXPANDED : COMPACT;
        const struct reply expected = run(&own, application, domain, found, &script,
                                          response_length);
        check(same_answer(&expected, &reply), "K1: another answer");
        check_card("K1: another card", &own, c);
    }
}

/* Changes bytes at so many places. */
static void damage(struct bytes *b, unsigned places)
{
    for (unsigned i = 0; i < places && b->length > 0; i++)
        change_byte(b, 0, b->length);
}

/* Now and then gives bytes another length, at most one more. */
static void shorten(struct bytes *b)
{
    if (below(15) == 0)
        b->length = below(4) == 0 ? 0 : below((uint32_t)b->length + 2);
}

/* Sound cards: runs, take-backs and confirmations in random order. */
static void random_histories(unsigned rounds)
{
    static struct card_bytes c;

    start_case("random histories");
    for (unsigned round = 0; round < rounds; round++) {
        random_card(&c);
        for (unsigned i = below(20); i > 0; i--) {
            random_run(&c);
            if (below(6) == 0)
                check(take_back(&c) != 1, "a sound card refused");
            if (below(12) == 0)
                check(confirm(&c) == 0, "a sound card refused");
        }
        while (scripts_of(&c) > 0 && take_back(&c) == 0)
            continue;
        check_number("scripts after all take-backs", 0, scripts_of(&c));
        check_number("U after all take-backs", 0, used_of(&c));
    }
}

/* Damaged tables, file memories and journals, at all three calls. */
static void random_damage(unsigned rounds)
{
    static struct card_bytes c, copy;

    start_case("random damage");
    for (unsigned round = 0; round < rounds; round++) {
        random_card(&c);
        for (unsigned i = below(4); i > 0; i--)
            random_run(&c);
        damage(&c.table, below(3));
        if (below(2)) {
            struct bytes *j = &c.journal;
            const size_t end = 4 + used_of(&c);
            for (unsigned i = below(3); i > 0 && end <= j->length; i--)
                change_byte(j, 0, end);
        }
        damage(&c.journal, below(8) == 0);
        shorten(&c.table);
        shorten(&c.files);
        shorten(&c.journal);
        copy = c;
        take_back(&copy);
        copy = c;
        confirm(&copy);
        random_run(&c);
    }
}

/* Nothing but noise. */
static void random_noise(unsigned rounds)
{
    static struct card_bytes c, copy;
    static struct bytes script;

    start_case("random noise");
    for (unsigned round = 0; round < rounds; round++) {
        random_card(&c);
        script.length = below(1100);
        for (size_t i = 0; i < script.length; i++)
            script.at[i] = some_byte();
        if (below(2) && script.length >= 4 && script.length < 1024) {
            script.length -= 4;
            wrap_ae(&script);
        }
        const uint8_t format = (uint8_t)below(3);
        const struct reply reply = run(&c, 5 * below(2), OPEN, format, &script, FULL_RESPONSE);
        check_form(&reply, format, &script);
        c.table.length = 16 * below(65);
        for (size_t i = 0; i < c.table.length; i++)
            c.table.at[i] = some_byte();
        for (size_t i = 0; i < c.journal.length; i++)
            c.journal.at[i] = some_byte();
        copy = c;
        take_back(&copy);
        confirm(&copy);
        run(&c, 0, OPEN, format, &script, FULL_RESPONSE);
    }
}

void test_random(void)
{
    random_histories(400);
    random_damage(3000);
    random_noise(500);
}
