/* Compact scripts and SELECT: points 18 to 28, and the order of the checks before a file
 * is used. */
#include "test_kit.h"

#include <string.h>

#define FCP_6F46 "620F 82024121 83026F46 8A0105 80020011"
#define FCP_6F46_DEACTIVATED "620F 82024121 83026F46 8A0104 80020011"
#define FCP_6F3A "6212 82054221000403 83026F3A 8A0105 8002000C"
#define FCP_6F39 "6212 82054621000303 83026F39 8A0105 80020009"

/* On a fresh worked card with another application or domain. */
static void in(const char *name, size_t application, uint8_t domain, const char *script,
               const char *answer)
{
    static struct card_bytes w;

    worked_card(&w);
    compact_in(&w, name, application, domain, script, answer);
}

/* Points 18 to 20, and the front of "Order for one command". */
static void form(void)
{
    compact("18: data of a wrong class counts", "80A4000C027F", "016700");
    compact("18: an unknown instruction takes five bytes", "002000010831", "016D00");
    compact("broken: one byte", "00", "016700");
    compact("broken: four bytes of an unknown instruction", "00200000", "016700");
    compact("broken: the second command", "00A4000C027F10 00A4", "026700");
    compact("broken: DC with too few bytes", "00DC00020401", "016700");
    compact("6D00 before 6E00", "8020000000", "016D00");
    compact("6D00 in the second command", "00A4000C027F10 0020000000 00", "026D00");
    compact("class 80 for SELECT", "80A4000C027F10", "016E00");
    compact("class 00 for INCREASE", "003200000105", "016E00");
    compact("class 01", "01B0000001", "016E00");
    compact("6E00 before 6985", "80B0000001 00", "016E00");
    compact("6E00 before Lc 0", "80D6000000", "016E00");
    compact("19: a byte after B0", S "00B0000003 00", "036985");
    compact("19: a whole command after B0", S "00B0000003 00A4000C027F10", "036985");
    compact("19: a byte after B2", "00B2010404 00", "016985");
    compact("19: a byte after C0", "00A40004027F10 00C0000000 00", "026985");
    compact("19: 6985 before P1P2", S "00B0FFFF03 00", "036985");
    in("19: 6985 before the domain", SHARED, CLOSED, "00B0000003 00", "016985");
    compact("20: Lc 0 before P1P2", "00A4FFFF00", "016700");
    compact("20: Lc 0 of D6", S "00D6FFFF00", "036700");
    compact("20: Lc 0 of DC", "00DCFFFF00", "016700");
    compact("20: Lc 0 of A2", "00A2FFFF00", "016700");
    compact("20: Lc 0 of 32", "8032FFFF00", "016700");
    compact("20: P3 of 04 before P1P2", "0004FFFF01", "016700");
    compact("20: P3 of 44 before P1P2", "0044FFFF01", "016700");
    in("20: P3 of 04 before the domain", SHARED, CLOSED, "0004000001", "016700");
}

/* "P1P2 6A86 ..; domain FF 6982 (C0 exempt); no file 6986". */
static void p1p2_domain_file(void)
{
    static const struct {
        const char *name, *script;
    } wrong[] = {
        {"6A86: SELECT P1 01", "00A4010C027F10"}, {"6A86: SELECT P1 04", "00A4040C027F10"},
        {"6A86: SELECT P2 00", "00A40000027F10"}, {"6A86: SELECT P2 0D", "00A4000D027F10"},
        {"6A86: B0 P1 80", "00B0800001"}, {"6A86: D6 P1 80", "00D680000101"},
        {"30: B2 next with P1 01", "00B2010204"}, {"30: B2 previous with P1 01", "00B2010304"},
        {"30: DC next with P1 01", "00DC01020101"},
        {"30: DC previous with P1 01", "00DC01030101"},
        {"6A86: B2 P2 00", "00B2010004"}, {"6A86: B2 P2 05", "00B2010504"},
        {"6A86: DC P2 01", "00DC00010101"}, {"6A86: B2 P2 0C", "00B2010C04"},
        {"6A86: A2 P2 00", "00A200000101"}, {"6A86: A2 P2 06", "00A201060101"},
        {"6A86: 32 P1 01", "803201000101"}, {"6A86: 32 P2 01", "803200010101"},
        {"6A86: 04 P1 01", "0004010000"}, {"6A86: 04 P2 01", "0004000100"},
        {"6A86: 44 P1 01", "0044010000"}, {"6A86: 44 P2 01", "0044000100"},
        {"6A86: C0 P1 01", "00C0010000"}, {"6A86: C0 P2 01", "00C0000100"},
    };
    static const struct {
        const char *name, *script;
    } right[] = {
        {"no file: B0", "00B07F0001"}, {"no file: D6", "00D67F000101"},
        {"no file: B2 next", "00B2000204"}, {"no file: B2 previous", "00B2000304"},
        {"no file: B2 absolute", "00B2FF0404"}, {"no file: DC", "00DC00030101"},
        {"no file: DC absolute", "00DCFF040101"}, {"no file: A2", "00A2FF040101"},
        {"no file: A2 back", "00A200050101"}, {"no file: 32", "803200000101"},
        {"38: no file: 04", "0004000000"}, {"38: no file: 44", "0044000000"},
    };

    for (size_t i = 0; i < sizeof wrong / sizeof wrong[0]; i++) {
        compact(wrong[i].name, wrong[i].script, "016A86");
        in(wrong[i].name, SHARED, CLOSED, wrong[i].script, "016A86");
    }
    for (size_t i = 0; i < sizeof right / sizeof right[0]; i++) {
        compact(right[i].name, right[i].script, "016986");
        in(right[i].name, SHARED, CLOSED, right[i].script, "016982");
    }
    in("domain FF: SELECT", SHARED, CLOSED, "00A4000C027F10", "016982");
    in("domain FF: SELECT before the data length", SHARED, CLOSED, "00A4000C017F", "016982");
    in("23: C0 is exempt from the domain", SHARED, CLOSED, "00C0000000", "016985");
    in("domain FF and application 5", 5, CLOSED, "00A4000C026F46", "016982");
    compact("6986 with a directory current", "00A4000C027F10 00B0000001", "026986");
    compact("6986 after a directory is selected again", S "00A4000C023F00 00B0000001", "046986");
}

/* The FCP of each kind, and points 21 and 22. */
static void waiting(void)
{
    compact("FCP reports its length", "00A40004027F10", "01610D");
    compact("FCP of the MF", "00A40004023F00 00C0000000",
            "029000 620B 82027821 83023F00 8A0105");
    in("FCP of the ADF", 5, OPEN, "00A40004027FFF 00C0000000",
       "029000 620B 82027821 83027FFF 8A0105");
    compact("FCP of a transparent file", "00A40804047F106F46 00C0000000", "029000" FCP_6F46);
    compact("FCP of a linear file", "00A40804047F106F3A 00C0000000", "029000" FCP_6F3A);
    compact("FCP of a cyclic file", "00A40804047F106F39 00C0000000", "029000" FCP_6F39);
    compact("FCP of a linear file, its length", "00A40804047F106F3A", "016114");

    compact("21: SELECT of a deactivated file without data",
            S "0004000000 00A4000C026F46", "046283");
    compact("21: 61xx for a deactivated file", S "0004000000 00A40004026F46", "046111");
    compact("21: 6283 kept", S "0004000000 00A40004026F46 00C0000000",
            "056283" FCP_6F46_DEACTIVATED);
    compact("22: fewer bytes give the kept word", S "0004000000 00A40004026F46 00C0000001",
            "05628362");
    compact("21: 6283 goes on", S "0004000000 00A4000C026F46 0044000000 00B0000001",
            "069000FF");

    compact("22: fewer bytes than wait", "00A40004027F10 00C0000002", "029000620B");
    compact("22: exactly what waits", "00A40004027F10 00C000000D", "029000" FCP_7F10);
    compact("P3 above what waits", "00A40004027F10 00C000000E", "026700");
    compact("P3 FF above what waits", "00A40004027F10 00C00000FF", "026700");
    compact("nothing waits", "00C0000000", "016985");
    compact("nothing waits before P3", "00C0000001", "016985");
    compact("22: SELECT without data drops", "00A40004027F10 00A4000C026F46 00C0000000",
            "036985");
    compact("22: a second FCP replaces", "00A40004027F10 00A40004026F46 00C0000000",
            "039000" FCP_6F46);
    compact("22: D6 drops", "00A40804047F106F46 00D600000101 00C0000000", "036985");
    compact("22: DC drops", "00A40804047F106F3A 00DC01040401020304 00C0000000", "036985");
    compact("22: 04 drops", "00A40804047F106F46 0004000000 00C0000000", "036985");
    compact("22: 44 drops", "00A40804047F106F46 0044000000 00C0000000", "036985");
    compact("22: a search that finds nothing drops",
            "00A40804047F106F3A 00A2010401AA 00C0000000", "036985");
    compact("a search that finds nothing reports 6282", "00A40804047F106F3A 00A2010401AA",
            "026282");
    compact("22: a search replaces", "00A40804047F106F3A 00A2010401FF 00C0000000",
            "039000010203");
    compact("INCREASE replaces", "00A40804047F106F39 803200000105 00C0000000",
            "03900000000505");
}

/* Point 22: at most 254 bytes ever wait. */
static void most_waiting(void)
{
    static struct card_bytes c;
    static struct bytes script, answer;

    made_card(&c, MF_ENTRY "6F01 00 05 0000 00FE 01 00 05 00 00 000000"
              "6F02 00 06 00FE 00FE 7F 01 05 00 00 000000", 508);
    memset(c.files.at, 0xAA, 254);
    memset(c.files.at + 254, 0, 254);
    compact_on(&c, "22: 254 records found", "00A4000C026F01 00A2010401AA", "0261FE");
    set_hex(&script, "00A4000C026F01 00A2FE0501AA 00C0000000");
    set_hex(&answer, "039000");
    for (unsigned r = 254; r >= 1; r--)
        add_byte(&answer, r);
    whole_case(&c, "22: 254 numbers, backwards", SHARED, OPEN, COMPACT, &script, 3, &answer);
    /* Newest 1 of 2: record 1 lies at 254 + 127, the oldest place is 254. */
    set_hex(&script, "00A4000C026F02 803200007F");
    for (unsigned i = 1; i <= 127; i++)
        add_byte(&script, i);
    add_hex(&script, "00C00000FE");
    set_hex(&answer, "039000");
    for (unsigned i = 1; i <= 254; i++)
        add_byte(&answer, i <= 127 ? i : i - 127);
    whole_case(&c, "22: INCREASE of 127 bytes", SHARED, OPEN, COMPACT, &script, 3, &answer);
    check_number("newest", 0, c.table.at[2 * 16 + 9]);
    check_part("the new record", c.files.at + 254, "0102030405060708");
}

/* Point 25. 1 is 7F10 in the MF, 2 is 7F10 in 1, 3 a file in 2, 4 is 7F20 in the MF, 5 a file
 * in the MF, 6 an ADF, 7 and 8 are DFs in it, 9 a file in 7. 10 and 11 are DFs in 1, 12 is 7F10
 * in 10, 13 a file in 12. */
static void first_match(void)
{
    static struct card_bytes c, fresh;

    made_card(&fresh, MF_ENTRY
              "7F10 00 02 0000 0000 00 00 05 00 00 000000"
              "7F10 01 02 0000 0000 00 00 05 00 00 000000"
              "6F01 02 04 0000 0001 00 00 05 00 00 000000"
              "7F20 00 02 0000 0000 00 00 05 00 00 000000"
              "6F02 00 04 0001 0001 00 00 05 00 00 000000"
              "7FFF 00 03 0000 0000 00 00 05 00 00 000000"
              "7F01 06 02 0000 0000 00 00 05 00 00 000000"
              "7F02 06 02 0000 0000 00 00 05 00 00 000000"
              "6F02 07 04 0002 0001 00 00 05 00 00 000000"
              "7F21 01 02 0000 0000 00 00 05 00 00 000000"
              "7F22 01 02 0000 0000 00 00 05 00 00 000000"
              "7F10 0A 02 0000 0000 00 00 05 00 00 000000"
              "6F03 0C 04 0003 0001 00 00 05 00 00 000000", 4);
#define GO SELECT_DF /* down into a 7F10, or up from the inner one */
    compact("25: 7F10 twice", GO GO, "029000");
    c = fresh;
    compact_on(&c, "25: 7F10 in 7F10", GO GO "00A4000C026F01", "039000");
    compact_on(&c, "25: from the inner one 7F10 goes up", GO GO GO "00A4000C026F01", "046A82");
    compact_on(&c, "25: and down again", GO GO GO GO "00A4000C026F01", "059000");
    compact_on(&c, "25: up from a current file", GO GO "00A4000C026F01" GO "00A4000C026F01",
               "056A82");
    compact_on(&c, "25: a child before the parent", GO "00A4000C027F21" GO "00A4000C026F03",
               "049000");
    compact_on(&c, "25: the parent before its DF child", GO "00A4000C027F22" GO "00A4000C026F01",
               "046A82");
    compact_on(&c, "25: a DF child of the parent", GO "00A4000C027F20", "029000");
    compact_on(&c, "25: no file child of the parent", GO "00A4000C026F02", "026A82");
    compact_on(&c, "25: no DF two levels up", GO GO "00A4000C027F20", "036A82");
    compact_on(&c, "25: the root from below", GO GO "00A4000C023F00 00A4000C026F02", "049000");
    c = fresh;
    compact_in(&c, "25: a sibling DF below the ADF", 6, OPEN, "00A4000C027F01 00A4000C027F02",
               "029000");
    compact_in(&c, "25: 7FFF from below the ADF", 6, OPEN, "00A4000C027F01 00A4000C027FFF",
               "029000");
    compact_in(&c, "25: 3F00 from below the ADF", 6, OPEN, "00A4000C027F01 00A4000C023F00",
               "026A82");
    compact_in(&c, "25: the MF's children from the ADF", 6, OPEN, "00A4000C027F20", "016A82");
    compact_in(&c, "25: the MF's children from below the ADF", 6, OPEN,
               "00A4000C027F01 00A4000C027F20", "026A82");
    compact_in(&c, "25: the file in the ADF's DF", 6, OPEN,
               "00A4080C047F016F02 00B0000000", "02900002");
    compact_in(&c, "25: the other 6F02 is not found", 6, OPEN, "00A4000C026F02", "016A82");
    compact("25: a file's brother", S "00A4000C026F3A", "039000");
    /* Each script starts afresh: 6F46 is no child of the MF. */
    worked_card(&c);
    compact_on(&c, "afresh: first script", S, "029000");
    compact_on(&c, "afresh: the file is not kept", "00B0000001", "016986");
    compact_on(&c, "afresh: the directory is not kept", "00A4000C026F46", "016A82");
}

/* Points 26 to 28. */
static void paths(void)
{
    static struct card_bytes c;

    compact("26: a path never starts with the root", "00A4080C043F007F10", "016A82");
    compact("26: P1 09 with 3F00", "00A4090C023F00", "016A82");
    compact("26: 7FFF from shared files", "00A4000C027FFF", "016A82");
    compact("26: a path with an ADF", "00A4080C047FFF6F46", "016A82");
    in("26: 7FFF is the ADF's root", 5, OPEN, "00A4000C027FFF 00A4000C026F46", "029000");
    in("26: a path never starts with 7FFF", 5, OPEN, "00A4080C047FFF6F46", "016A82");
    in("26: 7F10 from the ADF", 5, OPEN, "00A4000C027F10", "016A82");
    compact("28: a file inside a path", "00A4080C067F106F466F46", "016A82");
    compact("P1 08 from the root", "00A4000C027F10 00A4080C047F106F46 00B0000001",
            "039000FF");
    compact("P1 08 of one identifier", "00A4080C027F10", "019000");
    compact("P1 09 from the directory", "00A4000C027F10 00A4090C026F46", "029000");
    compact("P1 09 takes only children", "00A4000C027F10 00A4090C027F10", "026A82");
    in("P1 08 from the ADF", 5, OPEN, "00A4080C026F46", "019000");
    in("P1 09 from the ADF", 5, OPEN, "00A4090C026F46", "019000");

    compact("27: one byte", "00A4000C017F", "016700");
    compact("27: three bytes", "00A4000C037F1000", "016700");
    compact("27: four bytes with P1 00", "00A4000C047F106F46", "016700");
    compact("27: an odd path", "00A4080C037F106F", "016700");
    compact("27: an odd path from the directory", "00A4090C017F", "016700");
    compact("27: 6700 before 6A82", "00A4000C03000000", "016700");
    compact("27: nine identifiers", "00A4080C12 7F10 0000 0000 0000 0000 0000 0000 0000 0000",
            "016700");
    compact("27: 255 bytes are too few here", "00A4080CFF 7F10", "016700");
    compact("27: P1P2 before the data length", "00A4010C017F", "016A86");
    made_card(&c, MF_ENTRY
              "7F01 00 02 0000 0000 00 00 05 00 00 000000"
              "7F02 01 02 0000 0000 00 00 05 00 00 000000"
              "7F03 02 02 0000 0000 00 00 05 00 00 000000"
              "7F04 03 02 0000 0000 00 00 05 00 00 000000"
              "7F05 04 02 0000 0000 00 00 05 00 00 000000"
              "7F06 05 02 0000 0000 00 00 05 00 00 000000"
              "7F07 06 02 0000 0000 00 00 05 00 00 000000"
              "6F08 07 06 0000 0001 01 00 05 00 00 000000", 1);
    compact_on(&c, "27: eight identifiers",
               "00A4080C10 7F01 7F02 7F03 7F04 7F05 7F06 7F07 6F08 00B2000401", "02900000");
    compact_on(&c, "a path that skips one", "00A4080C04 7F01 7F03", "016A82");
    compact_on(&c, "a path to the same depth by P1 09",
               "00A4080C067F017F027F03 00A4090C0A7F047F057F067F076F08", "029000");
}

void test_compact(void)
{
    form();
    p1p2_domain_file();
    waiting();
    most_waiting();
    first_match();
    paths();
}
