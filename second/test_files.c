/* Files and records: points 3 and 29 to 39, and the order of the checks on a file. */
#include "test_kit.h"

#include <stdio.h>
#include <string.h>

/* The worked card with records that differ: linear 01020304 05060708 09020300; cyclic places
 * 111111 222222 333333. */
static void records_card(struct card_bytes *c)
{
    static struct bytes b;

    worked_card(c);
    set_hex(&b, "01020304 05060708 09020300 111111 222222 333333");
    memcpy(c->files.at + 17, b.at, b.length);
}

/* Compact on a fresh card of these records. */
static void on_records(const char *name, const char *script, const char *answer)
{
    static struct card_bytes c;

    records_card(&c);
    compact_on(&c, name, script, answer);
}

/* The worked card with one table byte changed. */
static void with_byte(unsigned entry, unsigned byte, uint8_t value, const char *name,
                      const char *script, const char *answer)
{
    static struct card_bytes c;

    worked_card(&c);
    c.table.at[entry * 16 + byte] = value;
    compact_on(&c, name, script, answer);
}

/* Point 29 and READ BINARY. */
static void reading_binary(void)
{
    static struct card_bytes c;
    static struct bytes script, answer;
    static const struct {
        const char *name, *script, *status;
        unsigned from, n;
    } reads[] = {
        {"29: P3 00 and 300 bytes left", "00B0000000", "029000", 0, 256},
        {"29: P3 00 and 257 bytes left", "00B0002B00", "029000", 43, 256},
        {"29: P3 00 and 256 bytes left", "00B0002C00", "029000", 44, 256},
        {"29: P3 00 and 255 bytes left", "00B0002D00", "029000", 45, 255},
        {"P3 FF", "00B00000FF", "029000", 0, 255},
        {"P3 FF and 254 bytes left", "00B0002EFF", "026282", 46, 254},
        {"the last byte", "00B0012B01", "029000", 299, 1},
        {"two of the last byte", "00B0012B02", "026282", 299, 1},
        {"P3 00 at the last byte", "00B0012B00", "029000", 299, 1},
    };

    made_card(&c, MF_ENTRY "6F01 00 04 0005 012C 00 00 05 00 00 000000", 400);
    for (size_t i = 0; i < sizeof reads / sizeof reads[0]; i++) {
        set_hex(&script, "00A4000C026F01");
        add_hex(&script, reads[i].script);
        set_hex(&answer, reads[i].status);
        add_bytes(&answer, c.files.at + 5 + reads[i].from, reads[i].n);
        whole_case(&c, reads[i].name, SHARED, OPEN, COMPACT, &script, 2, &answer);
    }
    compact_on(&c, "offset 300 of 300", "00A4000C026F01 00B0012C01", "026B00");
    compact_on(&c, "offset 7FFF of 300", "00A4000C026F01 00B07FFF00", "026B00");
    compact("three bytes left of five", S "00B0000E05", "036282FFFFFF");
    made_card(&c, MF_ENTRY "6F01 00 04 0000 8000 00 00 05 00 00 000000", 32768);
    compact_on(&c, "the last byte of 32768", "00A4000C026F01 00B07FFF02", "026282FF");
}

/* What UPDATE BINARY writes and journals. */
static void updating_binary(void)
{
    static struct card_bytes c;

    worked_card(&c);
    compact_on(&c, "D6 to the file's end", S "00D6000F020102", "039000");
    check_part("file memory", c.files.at, "FFFFFFFFFFFFFFFFFFFFFFFFFFFFFF0102FF");
    /* The mark, old bytes FFFF, kind 2, place 000F, n 2. */
    check_part("journal", c.journal.at, "0012 01 00 0100000000000000 FFFF 0200000F00020000 00");
    compact("D6 past the file's end", S "00D6000F03010203", "036700");
    compact("D6 of 18 bytes", S "00D6000012 000000000000000000 000000000000000000", "036700");
    worked_card(&c);
    compact_on(&c, "two updates of one byte", S "00D600000101 00D600000102 00B0000001",
               "05900002");
    check_part("journal", c.journal.at,
               "001A 01 00 0100000000000000 FF 0200000000010000 01 0200000000010000 00");
    start_case("two updates of one byte, taken back");
    check_number("number", 0, take_back(&c));
    check_part("file memory", c.files.at, "FF");
}

/* Next, previous, absolute; points 31 and 34. */
static void reading_records(void)
{
    static struct card_bytes c;

    on_records("next from none is the first", SELECT_LINEAR "00B2000204", "02900001020304");
    on_records("previous from none is the last", SELECT_LINEAR "00B2000304", "02900009020300");
    on_records("P3 00", SELECT_LINEAR "00B2000200", "02900001020304");
    on_records("absolute 2", SELECT_LINEAR "00B2020404", "02900005060708");
    on_records("absolute 3", SELECT_LINEAR "00B2030404", "02900009020300");
    on_records("absolute 4", SELECT_LINEAR "00B2040404", "026A83");
    on_records("absolute 255", SELECT_LINEAR "00B2FF0404", "026A83");
    on_records("current without one", SELECT_LINEAR "00B2000404", "026A83");
    on_records("34: 6A83 before 6700 in B2", SELECT_LINEAR "00B2040407", "026A83");
    on_records("34: 6A83 before 6700 in B2, current", SELECT_LINEAR "00B2000407", "026A83");
    on_records("34: 6A83 before 6700 in DC", SELECT_LINEAR "00DC04040101", "026A83");
    on_records("34: 6A83 before 6700 in A2", SELECT_LINEAR "00A20404050102030405", "026A83");
    on_records("34: A2 without a current record", SELECT_LINEAR "00A20004050102030405", "026A83");
    on_records("34: A2 with P1 above the count", SELECT_LINEAR "00A204050101", "026A83");
    on_records("P3 above the record length", SELECT_LINEAR "00B2010405", "026700");
    on_records("P3 below the record length", SELECT_LINEAR "00B2010403", "026700");
    on_records("31: DC absolute does not move", SELECT_LINEAR "00DC02040401010101 00B2000204",
               "03900001020304");
    on_records("31: DC next moves", SELECT_LINEAR "00DC000204A1A2A3A4 00B2000204",
               "03900005060708");
    on_records("31: DC previous moves", SELECT_LINEAR "00DC000304A1A2A3A4 00B2000304",
               "03900005060708");
    on_records("past the last", SELECT_LINEAR "00DC000304A1A2A3A4 00B2000204", "036A83");
    on_records("before the first", SELECT_LINEAR "00DC000204A1A2A3A4 00B2000304", "036A83");
    on_records("DC of the current record", SELECT_LINEAR
               "00DC000204A1A2A3A4 00DC000404B1B2B3B4 00B2010404", "049000B1B2B3B4");
    on_records("DC past the last", SELECT_LINEAR "00DC000304A1A2A3A4 00DC000204A1A2A3A4",
               "036A83");
    on_records("28: SELECT forgets the record number", SELECT_LINEAR
               "00DC000204A1A2A3A4" SELECT_LINEAR "00B2000404", "046A83");
    on_records("Lc of DC below the record length", SELECT_LINEAR "00DC010403010203", "026700");
    on_records("Lc of DC above the record length", SELECT_LINEAR "00DC0104050102030405",
               "026700");
    records_card(&c);
    compact_on(&c, "DC of record 2", SELECT_LINEAR "00DC020404A1A2A3A4", "029000");
    check_part("file memory", c.files.at + 17, "01020304 A1A2A3A4 09020300");
    /* Place 17 + 4 = 0015, n 4. */
    check_part("journal", c.journal.at,
               "0014 01 00 0100000000000000 05060708 0200001500040000 00");

    on_records("cyclic: record number 1", SELECT_CYCLIC "00B2000403", "029000111111");
    on_records("cyclic: next", SELECT_CYCLIC "00B2000203", "029000222222");
    on_records("cyclic: previous goes round", SELECT_CYCLIC "00B2000303", "029000333333");
    on_records("cyclic: absolute 4", SELECT_CYCLIC "00B2040403", "026A83");
    /* The search makes record 3 current. */
    on_records("cyclic: next goes round", SELECT_CYCLIC "00A203040133 00B2000203",
               "039000111111");
}

/* Points 32 and 33: the oldest place, whatever the record number. */
static void updating_cyclic(void)
{
    static struct card_bytes c;

    records_card(&c);
    compact_on(&c, "32: DC on cyclic writes the oldest place",
               SELECT_CYCLIC "00A201040122 00DC000303444444 00B2000403", "049000444444");
    check_part("file memory", c.files.at + 29, "111111 222222 444444");
    check_number("newest", 2, c.table.at[4 * 16 + 9]);
    /* Old record 333333 at 29 + 6 = 0023, then newest 0 at 4 * 16 + 9 = 0049. */
    check_part("journal", c.journal.at, "001C 01 00 0100000000000000 333333 0200002300030000 "
                                        "00 0300004900010000 00");
    compact_on(&c, "32: the records after it", SELECT_CYCLIC "00B2020403", "029000111111");
    compact_on(&c, "32: the oldest after it", SELECT_CYCLIC "00B2030403", "029000222222");
    compact_on(&c, "32: DC again", SELECT_CYCLIC "00DC000303555555", "029000");
    check_part("file memory", c.files.at + 29, "111111 555555 444444");
    check_number("newest", 1, c.table.at[4 * 16 + 9]);
    on_records("32: mode 02 on cyclic", SELECT_CYCLIC "00DC000203444444", "026A86");
    on_records("32: mode 04 on cyclic", SELECT_CYCLIC "00DC010403444444", "026A86");
    on_records("32: mode check before the length", SELECT_CYCLIC "00DC01040144", "026A86");
    on_records("Lc of DC on cyclic", SELECT_CYCLIC "00DC0003024444", "026700");
    with_byte(4, 10, 4, "32: mode check before 6984", SELECT_CYCLIC "00DC000203444444", "026A86");
    with_byte(4, 10, 4, "32: 6984 after the mode check", SELECT_CYCLIC "00DC000303444444",
              "026984");
    with_byte(4, 12, 2, "32: mode check before NEVER", SELECT_CYCLIC "00DC000203444444", "026A86");
    compact("32: kind before the mode check", S "00DC000203444444", "036981");

    made_card(&c, MF_ENTRY "6F01 00 06 0000 0003 03 00 05 00 00 000000", 3);
    compact_on(&c, "33: one record", "00A4000C026F01 00DC000303A1A2A3", "029000");
    check_part("file memory", c.files.at, "A1A2A3");
    check_number("newest", 0, c.table.at[16 + 9]);
    /* Byte 9 of entry 1 is at 0019. */
    check_part("journal", c.journal.at, "001C 01 00 0100000000000000 000102 0200000000030000 "
                                        "00 0300001900010000 00");
    compact_on(&c, "33: next of one record goes round", "00A4000C026F01 00B2000203",
               "029000A1A2A3");
}

/* Point 35: SEARCH. */
static void searching(void)
{
    static struct card_bytes c;

    on_records("35: forward", SELECT_LINEAR "00A20104020203 00C0000000", "0390000103");
    on_records("35: its length", SELECT_LINEAR "00A20104020203", "026102");
    on_records("35: backward", SELECT_LINEAR "00A20305020203 00C0000000", "0390000301");
    on_records("35: backward from 2", SELECT_LINEAR "00A20205020203 00C0000000", "03900001");
    on_records("35: forward from 2", SELECT_LINEAR "00A20204020203 00C0000000", "03900003");
    on_records("35: not across records", SELECT_LINEAR "00A20104020405", "026282");
    on_records("35: contiguous only", SELECT_LINEAR "00A20104020103", "026282");
    on_records("35: a whole record", SELECT_LINEAR "00A201040405060708 00C0000000", "03900002");
    on_records("35: at a record's end", SELECT_LINEAR "00A20104020708 00C0000000", "03900002");
    on_records("A2 with Lc above the record length", SELECT_LINEAR "00A20104050506070809",
               "026700");
    on_records("35: the first found becomes current", SELECT_LINEAR
               "00A20104020203 00B2000204", "03900005060708");
    on_records("35: backward, the first found becomes current", SELECT_LINEAR
               "00A20305020203 00B2000404", "03900009020300");
    on_records("35: P1 00 starts at the current record", SELECT_LINEAR
               "00A20204020203 00A200050102 00C0000000", "0490000301");
    on_records("35: finding none leaves the number", SELECT_LINEAR
               "00A20204020203 00A2010401EE 00B2000404", "04900009020300");
    on_records("35: finding none leaves no number", SELECT_LINEAR "00A2010401EE 00B2000204",
               "03900001020304");
    /* Places AA0001 AA0002 AA0003, newest 1: record 1 AA0002, 2 AA0003, 3 AA0001. */
    worked_card(&c);
    static struct bytes b;
    set_hex(&b, "AA0001 AA0002 AA0003");
    memcpy(c.files.at + 29, b.at, 9);
    c.table.at[4 * 16 + 9] = 1;
    compact_on(&c, "35: cyclic numbers", SELECT_CYCLIC "00A201040101 00C0000000", "03900003");
    compact_on(&c, "35: cyclic, no going round", SELECT_CYCLIC "00A2020401AA 00C0000000",
               "0390000203");
    compact_on(&c, "35: cyclic, back", SELECT_CYCLIC "00A2020501AA 00C0000000", "0390000201");
    compact_on(&c, "35: cyclic, current is 1", SELECT_CYCLIC "00A2000401AA 00C0000000",
               "039000010203");
    compact_on(&c, "a cyclic record's place", SELECT_CYCLIC "00B2030403", "029000AA0001");
    with_byte(3, 12, 1, "A2 with NEVER read", SELECT_LINEAR "00A2010401FF", "026982");
    with_byte(3, 12, 30, "A2 with the other NEVER bits", SELECT_LINEAR "00A2010401FF", "026103");
    compact("A2 on a transparent file", S "00A2010401FF", "036981");
}

/* Points 36 and 39: INCREASE. */
static void increasing(void)
{
    static struct card_bytes c;

    compact("36: one byte added", SELECT_CYCLIC "803200000105", "026104");
    compact("36: added at the right end", SELECT_CYCLIC "803200000105 00C0000000",
            "03900000000505");
    worked_card(&c);
    memcpy(c.files.at + 29, "\x00\xFF\xFF", 3);
    compact_on(&c, "36: the carry", SELECT_CYCLIC "803200000101 00C0000000", "03900001000001");
    compact_on(&c, "36: twice", SELECT_CYCLIC "80320000020100 80320000020001 00C0000000",
               "049000 010101 0001");
    check_part("file memory", c.files.at + 29, "010101 010100 010000");
    check_number("newest", 0, c.table.at[4 * 16 + 9]);
    memset(c.files.at + 29, 0xFF, 3);
    compact_on(&c, "sum too long", SELECT_CYCLIC "803200000101", "029850");
    compact_on(&c, "sum too long, all bytes", SELECT_CYCLIC "8032000003FFFFFF", "029850");
    compact_on(&c, "sum just fits", SELECT_CYCLIC "8032000003000000", "026106");
    compact_on(&c, "Lc above the record length", SELECT_CYCLIC "803200000400000001", "026700");
    compact("32 on a linear file", SELECT_LINEAR "803200000101", "026981");
    compact("32 on a transparent file", S "803200000101", "036981");
    with_byte(4, 12, 4, "32 with NEVER increase", SELECT_CYCLIC "803200000101", "026982");
    with_byte(4, 12, 27, "32 with the other NEVER bits", SELECT_CYCLIC "803200000101", "026104");
    with_byte(4, 12, 2, "DC with NEVER update", SELECT_CYCLIC "00DC000303010203", "026982");
    with_byte(4, 12, 29, "DC with the other NEVER bits", SELECT_CYCLIC "00DC000303010203",
              "029000");
    with_byte(4, 10, 4, "32 deactivated", SELECT_CYCLIC "803200000101", "026984");
    compact("32 makes record 1 current", SELECT_CYCLIC
            "00A202040100 803200000105 00B2000403", "049000000005");
    made_card(&c, MF_ENTRY "6F01 00 06 0000 0080 80 00 04 00 00 000000"
              "6F02 00 06 0080 007F 7F 00 05 00 00 000000", 255);
    compact_on(&c, "39: record of 128: 6981 before 6984", "00A4000C026F01 803200000101", "026981");
    compact_on(&c, "record of 127", "00A4000C026F02 803200000101", "026180");
}

/* Point 37. An update of one byte needs 8 + 9, INCREASE on the worked card 8 + 11 + 9. */
static void journal_room(void)
{
    static const struct {
        const char *name;
        unsigned used;
        const char *script, *answer;
        unsigned used_after;
    } cases[] = {
        {"37: D6 to U 2044", 2027, S "00D600000101", "039000", 2044},
        {"37: D6 to U 2045", 2028, S "00D600000101", "036581", 2036},
        {"37: 32 to U 2044", 2016, SELECT_CYCLIC "803200000101", "026104", 2044},
        {"37: 32 to U 2045", 2017, SELECT_CYCLIC "803200000101", "026581", 2025},
        {"37: 32 with room for the file bytes", 2025, SELECT_CYCLIC "803200000101", "026581", 2033},
        {"37: DC to U 2044", 2016, SELECT_CYCLIC "00DC000303010203", "029000", 2044},
        {"37: DC to U 2045", 2017, SELECT_CYCLIC "00DC000303010203", "026581", 2025},
        {"37: DC on linear to U 2044", 2024, SELECT_LINEAR "00DC01040401020304", "029000", 2044},
        {"37: DC on linear to U 2045", 2025, SELECT_LINEAR "00DC01040401020304", "026581", 2033},
        {"37: 04 to U 2044", 2027, S "0004000000", "039000", 2044},
        {"37: 04 to U 2045", 2028, S "0004000000", "036581", 2036},
        {"37: 44 to U 2045", 2028, S "0044000000", "036581", 2036},
        {"37: two commands to U 2044", 2018, S "00D600000101 00D600000101", "049000", 2044},
        {"37: the second command to U 2045", 2019, S "00D600000101 00D600000101", "046581", 2036},
        {"36: 6700 before 6581", 2028, S "00D60010020141", "036700", 2036},
        {"reading needs no room", 2036, S "00B0000001", "039000FF", 2044},
    };
    static struct card_bytes c;

    for (size_t i = 0; i < sizeof cases / sizeof cases[0]; i++) {
        worked_card(&c);
        fill_journal(&c, 1, cases[i].used);
        compact_on(&c, cases[i].name, cases[i].script, cases[i].answer);
        check_number("U", cases[i].used_after, used_of(&c));
    }
    worked_card(&c);
    memset(c.files.at + 29, 0xFF, 3);
    fill_journal(&c, 1, 2036);
    compact_on(&c, "36: 9850 before 6581", SELECT_CYCLIC "803200000101", "029850");
    worked_card(&c);
    fill_journal(&c, 2, 2020);
    compact_on(&c, "room: full", SELECT_CYCLIC "803200000101", "026581");
    start_case("room: two scripts taken back");
    check_number("number", 0, take_back(&c));
    check_number("number", 0, take_back(&c));
    compact_on(&c, "room given back is used again", SELECT_CYCLIC "803200000101", "026104");
    check_number("U", 8 + 28, used_of(&c));
}

/* Point 38. */
static void states(void)
{
    static struct card_bytes c;

    worked_card(&c);
    compact_on(&c, "38: repeating is journalled", S "0004000000 0004000000", "049000");
    check_number("state", 4, c.table.at[2 * 16 + 10]);
    check_part("journal", c.journal.at, "001A 01 00 0100000000000000 05 0300002A00010000 "
                                        "04 0300002A00010000 00");
    compact_on(&c, "38: a deactivated file is not read", S "00B0000001", "036984");
    compact_on(&c, "38: nor written", S "00D600000101", "036984");
    compact_on(&c, "38: activated again", S "0044000000 0044000000 00B0000001", "059000FF");
    check_number("state", 5, c.table.at[2 * 16 + 10]);
    compact("38: linear", SELECT_LINEAR "0004000000 00B2010404", "036984");
    compact("38: cyclic", SELECT_CYCLIC "0004000000 803200000101", "036984");
    on_records("38: file and record number stay", SELECT_LINEAR
               "00DC000204A1A2A3A4 0004000000 0044000000 00B2000404", "059000A1A2A3A4");
    with_byte(2, 12, 8, "04 with NEVER deactivate", S "0004000000", "036982");
    with_byte(2, 12, 23, "04 with the other NEVER bits", S "0004000000", "039000");
    with_byte(2, 12, 16, "44 with NEVER activate", S "0044000000", "036982");
    with_byte(2, 12, 15, "44 with the other NEVER bits", S "0044000000", "039000");
    worked_card(&c);
    c.table.at[2 * 16 + 10] = 4;
    c.table.at[2 * 16 + 12] = 16;
    compact_on(&c, "44 of a deactivated file, NEVER", S "0044000000", "036982");
}

/* "kind .. 6981; .. deactivated 6984 ..; NEVER bit 6982; offset .. 6B00, record 6A83; .. 6700". */
static void order(void)
{
    static struct card_bytes c;

    compact("B0 on a linear file", SELECT_LINEAR "00B0000001", "026981");
    compact("D6 on a cyclic file", SELECT_CYCLIC "00D600000101", "026981");
    compact("B2 on a transparent file", S "00B2010401", "036981");
    compact("DC on a transparent file", S "00DC01040101", "036981");
    with_byte(3, 10, 4, "6981 before 6984", SELECT_LINEAR "00B0000001", "026981");
    with_byte(2, 12, 1, "B0 with NEVER read", S "00B0000001", "036982");
    with_byte(2, 12, 30, "B0 with the other NEVER bits", S "00B0000001", "039000FF");
    with_byte(2, 12, 29, "D6 with the other NEVER bits", S "00D600000101", "039000");
    with_byte(3, 12, 1, "B2 with NEVER read", SELECT_LINEAR "00B2010404", "026982");
    with_byte(3, 12, 2, "DC with NEVER update", SELECT_LINEAR "00DC01040401020304", "026982");
    with_byte(2, 12, 1, "NEVER read before 6B00", S "00B0001101", "036982");
    with_byte(3, 12, 1, "NEVER read before 6A83", SELECT_LINEAR "00B2040404", "026982");
    worked_card(&c);
    c.table.at[2 * 16 + 10] = 4;
    c.table.at[2 * 16 + 12] = 31;
    compact_on(&c, "6984 before NEVER", S "00B0000001", "036984");
    worked_card(&c);
    compact_in(&c, "NEVER update before 6B00", 5, OPEN, "00A4000C026F46 00D600110101", "026982");
    compact("6B00 before 6700", S "00D60011020141", "036B00");
}

void test_files(void)
{
    reading_binary();
    updating_binary();
    reading_records();
    updating_cyclic();
    searching();
    increasing();
    journal_room();
    states();
    order();
}
