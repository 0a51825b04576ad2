/* Call numbers, points 12 to 17. */
#include "test_kit.h"

#include <stdio.h>
#include <string.h>

/* Number 2 on the worked card. */
static void arguments(void)
{
    static struct card_bytes w;
    static const size_t applications[] = {1, 2, 3, 4, 6, 7, 63, 64, 255, 256, 261, 65541, 999};
    static const uint8_t domains[] = {0x01, 0x7F, 0x80, 0xFE};
    static char name[64];

    worked_card(&w);
    refused(&w, "number 2: format 3", SHARED, OPEN, 3, SELECT_DF, 2);
    refused(&w, "number 2: format 255", SHARED, OPEN, 255, SELECT_DF, 2);
    for (size_t i = 0; i < sizeof applications / sizeof applications[0]; i++) {
        snprintf(name, sizeof name, "13: application %zu", applications[i]);
        refused(&w, name, applications[i], OPEN, COMPACT, SELECT_DF, 2);
    }
    refused(&w, "13: the largest application", SIZE_MAX, OPEN, COMPACT, SELECT_DF, 2);
#if SIZE_MAX > 0xFFFFFFFF
    refused(&w, "13: application 2^32 + 5", (size_t)0x100000005, OPEN, COMPACT, SELECT_DF, 2);
#endif
    for (size_t i = 0; i < sizeof domains; i++) {
        snprintf(name, sizeof name, "number 2: domain %02X", domains[i]);
        refused(&w, name, SHARED, domains[i], COMPACT, SELECT_DF, 2);
    }
    compact_in(&w, "application 5", 5, OPEN, "00A4000C026F46", "019000");
    compact_in(&w, "domain FF", SHARED, CLOSED, SELECT_DF, "016982");
}

/* A script of so many zero bytes: instruction 00 is unknown. */
static void script_of(struct bytes *script, size_t length)
{
    script->length = length;
    memset(script->at, 0, length);
}

/* A script of so many bytes, in every format. */
static void number_3(const char *name, size_t length)
{
    static struct card_bytes w;
    static struct bytes script;

    worked_card(&w);
    script_of(&script, length);
    start_case(name);
    for (uint8_t format = COMPACT; format <= DETECT; format++)
        check_number("number", 3, run(&w, SHARED, OPEN, format, &script, FULL_RESPONSE).number);
}

/* Numbers 3 and 4. */
static void script_and_response(void)
{
    static struct card_bytes w;
    static struct bytes script, answer;
    static const size_t small[] = {0, 1, 3, 1023};
    static char name[64];

    worked_card(&w);
    number_3("number 3: script of 0 bytes", 0);
    number_3("number 3: script of 1025 bytes", 1025);
    script_of(&script, 1024);
    set_hex(&answer, "016D00");
    whole_case(&w, "script of 1024 bytes", SHARED, OPEN, COMPACT, &script, 1, &answer);
    script_of(&script, 1);
    set_hex(&answer, "016700");
    whole_case(&w, "script of 1 byte", SHARED, OPEN, COMPACT, &script, 1, &answer);

    for (size_t i = 0; i < 4; i++) {
        snprintf(name, sizeof name, "17: response memory of %zu bytes", small[i]);
        start_case(name);
        set_hex(&script, SELECT_DF);
        check_number("number", 4, run(&w, SHARED, OPEN, COMPACT, &script, small[i]).number);
        set_hex(&script, "AA00");
        check_number("number", 4, run(&w, SHARED, OPEN, EXPANDED, &script, small[i]).number);
    }
    start_case("response memory of 1025 bytes");
    set_hex(&script, SELECT_DF);
    check_number("number", 0, run(&w, SHARED, OPEN, COMPACT, &script, 1025).number);
}

/* Number 5. */
static void trial_room(void)
{
    static struct card_bytes w;

    worked_card(&w);
    fill_journal(&w, 15, 15 * 8);
    compact_on(&w, "the sixteenth script", SELECT_DF, "019000");
    check_number("scripts", 16, scripts_of(&w));
    check_number("U", 128, used_of(&w));
    refused(&w, "number 5: 16 scripts on trial", SHARED, OPEN, COMPACT, SELECT_DF, 5);
    refused(&w, "number 5: 16 scripts on trial, expanded", SHARED, OPEN, EXPANDED, "AA00", 5);
    start_case("16 scripts: one taken back makes room");
    check_number("number", 0, take_back(&w));
    compact_on(&w, "room given back is used again", SELECT_DF, "019000");
    start_case("16 scripts confirmed");
    check_number("number", 0, confirm(&w));
    check_number("take-back's number", 7, take_back(&w));

    fill_journal(&w, 1, 2036);
    compact_on(&w, "U 2036: the mark fits", SELECT_DF, "019000");
    check_number("U", 2044, used_of(&w));
    refused(&w, "number 5: U 2044", SHARED, OPEN, COMPACT, SELECT_DF, 5);
    fill_journal(&w, 1, 2037);
    refused(&w, "number 5: U 2037", SHARED, OPEN, COMPACT, SELECT_DF, 5);
    start_case("U 2037 taken back");
    check_number("number", 0, take_back(&w));
    check_number("U", 0, used_of(&w));
}

/* "Checked in this order." */
static void order(void)
{
    static struct card_bytes w;
    static struct bytes script;

    worked_card(&w);
    w.journal.at[3] = 1;
    refused(&w, "1 before 2", 261, 0x01, 3, "", 1);
    worked_card(&w);
    refused(&w, "2 before 3", SHARED, 0x01, COMPACT, "", 2);
    fill_journal(&w, 16, 128);
    start_case("3 before 4, 4 before 5");
    set_hex(&script, "");
    check_number("number", 3, run(&w, SHARED, OPEN, EXPANDED, &script, 1023).number);
    set_hex(&script, "55");
    check_number("number", 4, run(&w, SHARED, OPEN, EXPANDED, &script, 1023).number);
    refused(&w, "12: 5 before 6", SHARED, OPEN, EXPANDED, "55", 5);
    worked_card(&w);
    refused(&w, "2 before 6", SHARED, 0x01, EXPANDED, "55", 2);
}

/* A script of this head and so many bytes 55: accepted, or number 6; where its first byte shows an
 * expanded one, with format 2 too (K1). */
static void one_template(const char *name, const char *head, size_t more, bool accepted)
{
    static struct card_bytes w;
    static struct bytes script;

    worked_card(&w);
    set_hex(&script, head);
    for (size_t i = 0; i < more; i++)
        add_byte(&script, 0x55);
    start_case(name);
    for (uint8_t format = EXPANDED; format <= DETECT && is_expanded(format, &script); format++)
        check_number("number", accepted ? 0 : 6,
                     run(&w, SHARED, OPEN, format, &script, FULL_RESPONSE).number);
}

/* Point 14. The values hold 55, another tag; that is a Bad format TLV and no refusal. */
static void templates(void)
{
    one_template("14: AA0000", "AA0000", 0, false);
    one_template("14: AA0222", "AA0222", 0, false);
    one_template("14: AE8000", "AE8000", 0, false);
    one_template("14: AA810155", "AA810155", 0, false);
    one_template("14: AA00", "AA00", 0, true);
    one_template("14: AE800000", "AE800000", 0, true);
    one_template("14: AA alone", "AA", 0, false);
    one_template("14: AA81 alone", "AA81", 0, false);
    one_template("14: AA82 and one byte", "AA8201", 0, false);
    one_template("14: AE alone", "AE", 0, false);
    one_template("14: AE80 alone", "AE80", 0, false);
    one_template("14: AE80 without 0000", "AE8055", 2, false);
    one_template("14: AE80 ending in 0001", "AE80220001", 0, false);
    one_template("14: AE80 ending in 0100", "AE80220100", 0, false);
    one_template("14: AE with a length", "AE020000", 0, false);
    one_template("14: AE81", "AE81550000", 0, false);
    one_template("14: AA80 .. 0000", "AA80550000", 0, false);
    one_template("14: another tag", "AB00", 0, false);
    one_template("14: another tag, 80 .. 0000", "AF800000", 0, false);
    one_template("14: 55", "55", 0, false);
    one_template("14: 00", "00", 0, false);
    one_template("14: AA7F and 127 bytes", "AA7F", 127, true);
    one_template("14: AA7F and 126 bytes", "AA7F", 126, false);
    one_template("14: AA7F and 128 bytes", "AA7F", 128, false);
    one_template("14: AA817F", "AA817F", 127, false);
    one_template("14: AA8180 and 128 bytes", "AA8180", 128, true);
    one_template("14: AA81FF and 255 bytes", "AA81FF", 255, true);
    one_template("14: AA8200FF", "AA8200FF", 255, false);
    one_template("14: AA820080", "AA820080", 128, false);
    one_template("14: AA820100 and 256 bytes", "AA820100", 256, true);
    one_template("14: AA8203FC and 1020 bytes", "AA8203FC", 1020, true);
    one_template("14: AA8203FC and 1019 bytes", "AA8203FC", 1019, false);
    one_template("14: AA830000FF", "AA830000FF", 255, false);
    one_template("14: AA84", "AA8400000001", 1, false);
}

/* Points 15 and 16, and number 7. */
static void marks_and_confirming(void)
{
    static struct card_bytes w, before, changed;

    worked_card(&w);
    before = w;
    start_case("number 7: take-back with no script on trial");
    check_number("number", 7, take_back(&w));
    start_case("16: confirming with nothing on trial");
    check_number("number", 0, confirm(&w));
    check_card("changed", &before, &w);
    expanded_on(&w, "15: AA00 leaves a mark", "AA00", 0, "AB03800100");
    check_number("U", 8, used_of(&w));
    compact_on(&w, "15: a failing first command leaves a mark", "00A400", "016700");
    check_number("U", 16, used_of(&w));
    check_part("journal", w.journal.at, "0010 02 00 0100000000000000 0100000000000000 00");
    start_case("16: a take-back zeros the mark too");
    check_number("number", 0, take_back(&w));
    check_part("journal", w.journal.at, "0008 01 00 0100000000000000 0000000000000000 00");
    check_number("number", 0, take_back(&w));
    check_card("not all as before", &before, &w);
    compact_on(&w, "an update to confirm", S "00D60000020141", "039000");
    changed = w;
    start_case("16: a confirmation keeps the card and zeros the journal");
    check_number("number", 0, confirm(&w));
    memset(changed.journal.at, 0, 2048);
    check_card("other bytes", &changed, &w);
    check_number("take-back's number", 7, take_back(&w));
}

void test_calls(void)
{
    arguments();
    script_and_response();
    trial_room();
    order();
    templates();
    marks_and_confirming();
}
