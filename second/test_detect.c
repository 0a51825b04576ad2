/* Request K1: format 2, where the script's first byte shows its form. What a detected run shares
 * with the run of its own number is tested in test_random.c. */
#include "test_kit.h"

#include <stdio.h>

/* A detected script on a fresh worked card: the count and the answer. */
static void detected(const char *name, const char *script_hex, uint32_t count,
                     const char *answer_hex)
{
    static struct card_bytes w;
    static struct bytes script, answer;

    worked_card(&w);
    set_hex(&script, script_hex);
    set_hex(&answer, answer_hex);
    whole_case(&w, name, SHARED, OPEN, DETECT, &script, count, &answer);
}

/* A detected script on a fresh worked card that gives this number. */
static void detected_refused(const char *name, const char *script, unsigned number)
{
    static struct card_bytes w;

    worked_card(&w);
    refused(&w, name, SHARED, OPEN, DETECT, script, number);
}

/* "a script that starts with AA or AE is expanded, any other compact, and the answer has the form
 * found." */
static void forms(void)
{
    detected_refused("K1: AA is never compact", "AAA4000C027F10", 6);
    detected("K1: b2b1 of 01 are not 00, and it is compact", "01A4000C027F10", 1, "016E00");
    detected("K1: AA00", "AA00", 0, "AB03800100");
    detected("K1: compact", "00A4000C027F10", 1, "019000");
    detected("K1: AE", "AE800000", 0, "AF800000");
    detected("K1: the tag inside a template", "22 07 00A4000C02", 1, "016D00");
    detected("K1: the tag of an answer", "AB00", 1, "016700");
    detected("K1: AA only as the second byte", "00AA000000", 1, "016D00");
    detected("K1: compact of one byte", "00", 1, "016700");
    detected("K1: a compact answer with data", S "00B0000003", 3, "039000FFFFFF");
    detected("K1: AA with a command", "AA09220700A4000C027F10", 1, "AB0780010123029000");
    detected("K1: AE with a command", "AE80220700A4000C027F100000", 1, "AF80230290000000");
    detected("K1: a bad TLV in a template", "AA025500", 1, "AB06800101900101");
}

/* SELECT with every first byte: only AA and AE are no class byte, and only 00 is the right one. */
static void first_bytes(void)
{
    static char name[64], script[32];

    for (unsigned first = 0; first <= 0xFF; first++) {
        snprintf(name, sizeof name, "K1: first byte %02X", first);
        snprintf(script, sizeof script, "%02XA4000C027F10", first);
        if (first == 0xAA || first == 0xAE)
            detected_refused(name, script, 6);
        else
            detected(name, script, 1, first == 0x00 ? "019000" : "016E00");
    }
}

/* "number 2's format is now one above 2", whatever the script starts with. */
static void formats(void)
{
    static struct card_bytes w;
    static char name[64];

    worked_card(&w);
    for (unsigned format = 3; format <= 0xFF; format++) {
        snprintf(name, sizeof name, "K1: format %u", format);
        refused(&w, name, SHARED, OPEN, (uint8_t)format, SELECT_DF, 2);
        refused(&w, name, SHARED, OPEN, (uint8_t)format, "AA00", 2);
        refused(&w, name, SHARED, OPEN, (uint8_t)format, "AE800000", 2);
    }
    refused(&w, "K1: application before detection", 261, OPEN, DETECT, "AA00", 2);
    refused(&w, "K1: domain before detection", SHARED, 0x01, DETECT, "AA00", 2);
}

/* A detected script that gives this number with so many bytes of response memory. */
static void number_of(struct card_bytes *c, const char *name, const struct bytes *script,
                      size_t response_length, unsigned number)
{
    start_case(name);
    check_number("number", number,
                 run(c, SHARED, OPEN, DETECT, script, response_length).number);
}

/* "Checked in this order": 1 to 3, then the form is found, then 4, 5 and 6. */
static void order(void)
{
    static struct card_bytes w;
    static struct bytes none, compact_script, no_template, long_script;

    set_hex(&none, "");
    set_hex(&compact_script, SELECT_DF);
    set_hex(&no_template, "AA");
    set_hex(&long_script, "AE80");
    while (long_script.length < 1025)
        add_byte(&long_script, 0);

    worked_card(&w);
    fill_journal(&w, 16, 128);
    number_of(&w, "K1: 3 before 4 and 5, no byte", &none, 1023, 3);
    number_of(&w, "K1: 3 before 4 and 5, 1025 bytes", &long_script, 1023, 3);
    number_of(&w, "K1: 4 before 5, compact", &compact_script, 1023, 4);
    number_of(&w, "K1: 4 before 5 and 6", &no_template, 1023, 4);
    number_of(&w, "K1: 5, compact", &compact_script, FULL_RESPONSE, 5);
    number_of(&w, "K1: 5 before 6", &no_template, FULL_RESPONSE, 5);
    worked_card(&w);
    number_of(&w, "K1: no byte", &none, FULL_RESPONSE, 3);
    number_of(&w, "K1: 1025 bytes of a template", &long_script, FULL_RESPONSE, 3);
    number_of(&w, "K1: 4 before 6", &no_template, 1023, 4);
    number_of(&w, "K1: 6", &no_template, FULL_RESPONSE, 6);
    refused(&w, "K1: 2 before 3", 261, OPEN, DETECT, "", 2);
    refused(&w, "K1: 2 before 6", 261, OPEN, DETECT, "AA", 2);
    w.journal.at[3] = 1;
    refused(&w, "K1: 1 before 2 and 3", 261, OPEN, 3, "", 1);
    refused(&w, "K1: 1 before 6", SHARED, OPEN, DETECT, "AA", 1);
}

void test_detect(void)
{
    forms();
    first_bytes();
    formats();
    order();
}
