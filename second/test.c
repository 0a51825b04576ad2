/* The test of the second program: the worked card, then the points of docs/DECISIONS.md, then
 * histories and random input. Every expected byte is written by hand from the paper's text. A case
 * whose name begins with a number is of the point with that number, one with K1 or K2 of that
 * request. */
#include "test_kit.h"

/* "S 00D60000020141: 039000, U 18; taken back, all as before." */
static void update_and_take_back(void)
{
    static struct card_bytes w, before;

    worked_card(&w);
    before = w;
    compact_on(&w, "worked: update binary", S "00D60000020141", "039000");
    check_number("U", 18, used_of(&w));
    check_number("scripts", 1, scripts_of(&w));
    check_part("file memory", w.files.at, "0141FFFF");
    /* 4 header bytes, the mark, two old bytes FF and the tail: kind 2, place 0, n 2. */
    check_part("journal", w.journal.at,
               "0012 01 00 0100000000000000 FFFF 0200000000020000 00");
    start_case("worked: taken back, all as before");
    check_number("number", 0, take_back(&w));
    check_card("not all as before", &before, &w);
}

/* "00A4080C047F106F39 8032000003000005 00C0000000: 039000000005000005, newest 2, U 28" */
static void increase_case(void)
{
    static struct card_bytes w, before;

    worked_card(&w);
    before = w;
    compact_on(&w, "worked: increase",
               "00A4080C047F106F39 8032000003000005 00C0000000", "039000 000005 000005");
    check_number("newest", 2, w.table.at[4 * 16 + 9]);
    check_number("U", 28, used_of(&w));
    check_part("cyclic file", w.files.at + 29, "000000 000000 000005");
    /* Point 3: the old record at 29 + 2 * 3 = 0023, the old newest at 4 * 16 + 9 = 0049. */
    check_part("journal", w.journal.at, "001C 01 00 0100000000000000 000000 0200002300030000 "
                                        "00 0300004900010000 00");
    start_case("worked: increase taken back, all as before");
    check_number("number", 0, take_back(&w));
    check_card("not all as before", &before, &w);
    compact("worked: increase without C0", "00A4080C047F106F39 8032000003000005", "026106");
}

/* "Application 5: *00A4000C026F46 00D600000101: 026982. 00A4000C023F00: 016A82." */
static void application_five(void)
{
    static struct card_bytes w;

    worked_card(&w);
    compact_in(&w, "worked: application 5, NEVER 2", 5, OPEN, "00A4000C026F46 00D600000101",
               "026982");
    worked_card(&w);
    compact_in(&w, "worked: application 5, 3F00", 5, OPEN, "00A4000C023F00", "016A82");
}

/* Every case of "The worked card". */
static void test_worked_card(void)
{
    compact("worked: select 7F10", "00A4000C027F10", "019000");
    compact("worked: 6F46 from the MF", "00A4000C026F46", "016A82");
    compact("worked: no file", "00B0000001", "016986");
    compact("worked: too few bytes", "00A400", "016700");
    update_and_take_back();
    compact("worked: read binary", S "00B0000003", "039000FFFFFF");
    compact("worked: two bytes at 16", S "00D60010020141", "036700");
    compact("worked: offset 17", S "00D60011020141", "036B00");
    compact("worked: one byte at 16", S "00D600100141", "039000");
    increase_case();
    compact("worked: FCP of 7F10", "00A40004027F10 00C0000000",
            "029000620B8202782183027F108A0105");
    application_five();
    expanded("worked: AA00", "AA00", 0, "AB03800100");
    expanded("worked: other tag", "AA025500", 1, "AB06800101900101");
    expanded("worked: below 4", "AE80220300A4000000", 1, "AF809001020000");
    expanded("worked: no length byte", "AA0122", 1, "AB06800101900103");
    expanded("worked: AA select", "AA09220700A4000C027F10", 1, "AB0780010123029000");
}

int main(void)
{
    test_worked_card();
    test_soundness();
    test_calls();
    test_detect();
    test_compact();
    test_files();
    test_expanded();
    test_histories();
    test_random();
    test_desk();
    test_desk_text();
    return report() ? 0 : 1;
}
