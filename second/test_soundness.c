/* Soundness (number 1), points 1 to 10. Every card is put to all three calls. */
#include "test_kit.h"

#include <stdio.h>
#include <string.h>

/* One table byte of the worked card changed: still sound or not. */
static void table_byte(const char *name, unsigned entry, unsigned byte, uint8_t value, bool ok)
{
    static struct card_bytes w;

    worked_card(&w);
    w.table.at[entry * 16 + byte] = value;
    soundness(&w, name, ok);
}

/* One identifier of the worked card changed. */
static void identifier(const char *name, unsigned entry, unsigned id, bool ok)
{
    static struct card_bytes w;

    worked_card(&w);
    w.table.at[entry * 16] = (uint8_t)(id >> 8);
    w.table.at[entry * 16 + 1] = (uint8_t)id;
    soundness(&w, name, ok);
}

/* A card with this table, an empty journal and file memory of this length. */
static void made(const char *name, const char *table, size_t files_length, bool ok)
{
    static struct card_bytes c;

    made_card(&c, table, files_length);
    soundness(&c, name, ok);
}

/* A journal on this card, given by byte 2 and its entries. */
static void journal_on(struct card_bytes *c, const char *name, unsigned marks,
                       const char *entries, bool ok)
{
    static struct bytes b;

    set_hex(&b, entries);
    memset(c->journal.at, 0, c->journal.length);
    c->journal.at[0] = (uint8_t)(b.length >> 8);
    c->journal.at[1] = (uint8_t)b.length;
    c->journal.at[2] = (uint8_t)marks;
    memcpy(c->journal.at + 4, b.at, b.length);
    soundness(c, name, ok);
}

/* The same on the worked card. */
static void journal(const char *name, unsigned marks, const char *entries, bool ok)
{
    static struct card_bytes w;

    worked_card(&w);
    journal_on(&w, name, marks, entries, ok);
}

/* Lengths of the three memories. */
static void lengths(void)
{
    static struct card_bytes w;
    static const size_t tables[] = {0, 1, 15, 17, 7 * 16 - 1, 7 * 16 + 1};
    static const size_t journals[] = {0, 1, 4, 2047, 2049};
    static char name[64];

    for (size_t i = 0; i < sizeof tables / sizeof tables[0]; i++) {
        worked_card(&w);
        memset(w.table.at + w.table.length, 0, 16);
        w.table.length = tables[i];
        snprintf(name, sizeof name, "8: table of %zu bytes", tables[i]);
        unsound(&w, name);
    }
    for (size_t i = 0; i < sizeof journals / sizeof journals[0]; i++) {
        worked_card(&w);
        w.journal.at[2048] = 0;
        w.journal.length = journals[i];
        snprintf(name, sizeof name, "8: journal of %zu bytes", journals[i]);
        unsound(&w, name);
    }
    worked_card(&w);
    w.files.length = 0;
    unsound(&w, "8: file memory of 0 bytes");
    w.table.length = 0;
    w.journal.length = 0;
    unsound(&w, "8: all memories empty");
    made("file memory of 32768 bytes", MF_ENTRY, 32768, true);
    made("file memory of 32769 bytes", MF_ENTRY, 32769, false);
    made("file memory of 1 byte", MF_ENTRY, 1, true);
}

/* 64 entries: the MF and 63 transparent files of one byte, 0001 to 003F, the last ones first. */
static void many_entries(void)
{
    static struct card_bytes c;

    made_card(&c, MF_ENTRY, 63);
    for (unsigned i = 1; i < 64; i++) {
        const uint8_t entry[16] = {0, (uint8_t)i, 0, 4, 0, (uint8_t)(63 - i), 0, 1,
                                   0, 0, 5, 0, 31, 0, 0, 0};
        add_bytes(&c.table, entry, 16);
    }
    sound(&c, "64 entries");
    c.table.at[63 * 16 + 5] = 1;
    unsound(&c, "64 entries, the last two overlap");
    c.table.at[63 * 16 + 5] = 0;
    c.table.at[63 * 16 + 1] = 1;
    unsound(&c, "64 entries, first and last with one identifier");
    c.table.at[63 * 16 + 1] = 63;
    add_hex(&c.table, "7FFF 00 03 0000 0000 00 00 05 00 00 000000");
    unsound(&c, "65 entries");
}

/* "Directories have 0 in bytes 4-9 and 12, and state 05." */
static void directories(void)
{
    static const unsigned zeros[] = {4, 5, 6, 7, 8, 9, 12};
    static const unsigned dirs[] = {0, 1, 5};
    static char name[64];

    for (size_t d = 0; d < 3; d++) {
        for (size_t i = 0; i < sizeof zeros / sizeof zeros[0]; i++) {
            snprintf(name, sizeof name, "directory %u, byte %u", dirs[d], zeros[i]);
            table_byte(name, dirs[d], zeros[i], 1, false);
        }
        snprintf(name, sizeof name, "directory %u deactivated", dirs[d]);
        table_byte(name, dirs[d], 10, 4, false);
    }
}

/* Point 4: what the byte table says of an entry is part of soundness. */
static void byte_table(void)
{
    static const unsigned zeros[] = {11, 13, 14, 15};
    static char name[64];

    for (unsigned entry = 0; entry < 7; entry++) {
        for (size_t i = 0; i < 4; i++) {
            snprintf(name, sizeof name, "4: entry %u, byte %u not 0", entry, zeros[i]);
            table_byte(name, entry, zeros[i], 0x80, false);
        }
        snprintf(name, sizeof name, "4: entry %u, kind 0", entry);
        table_byte(name, entry, 3, 0, false);
        snprintf(name, sizeof name, "4: entry %u, kind 7", entry);
        table_byte(name, entry, 3, 7, false);
        snprintf(name, sizeof name, "4: entry %u, state 03", entry);
        table_byte(name, entry, 10, 3, false);
        snprintf(name, sizeof name, "4: entry %u, state 06", entry);
        table_byte(name, entry, 10, 6, false);
        snprintf(name, sizeof name, "4: entry %u, NEVER 32", entry);
        table_byte(name, entry, 12, 32, false);
    }
    table_byte("4: file deactivated", 2, 10, 4, true);
    table_byte("4: NEVER 31", 2, 12, 31, true);
    table_byte("4: NEVER 63", 2, 12, 63, false);
}

/* Parents, kinds and identifiers. */
static void tree(void)
{
    table_byte("entry 0 of kind 2", 0, 3, 2, false);
    table_byte("entry 0 of kind 3", 0, 3, 3, false);
    identifier("entry 0 with 3F01", 0, 0x3F01, false);
    table_byte("entry 0 with parent 1", 0, 2, 1, false);
    table_byte("another entry of kind 1", 1, 3, 1, false);
    table_byte("parent is the entry itself", 1, 2, 1, false);
    table_byte("parent's number larger", 1, 2, 5, false);
    table_byte("parent outside the table", 6, 2, 200, false);
    table_byte("parent a transparent file", 3, 2, 2, false);
    table_byte("parent a linear file", 4, 2, 3, false);
    table_byte("parent a cyclic file", 6, 2, 4, false);
    table_byte("linear file in the MF", 3, 2, 0, true);
    table_byte("6F46 in the MF", 6, 2, 0, true);
    table_byte("two 6F46 in one DF", 6, 2, 1, false);
    table_byte("ADF in a DF", 5, 2, 1, false);
    identifier("ADF with 7F00", 5, 0x7F00, false);
    identifier("file with 3F00", 2, 0x3F00, false);
    identifier("file with 3FFF", 2, 0x3FFF, false);
    identifier("file with 7FFF", 2, 0x7FFF, false);
    identifier("DF with 3F00", 1, 0x3F00, false);
    identifier("DF with 3FFF", 1, 0x3FFF, false);
    identifier("DF with 7FFF", 1, 0x7FFF, false);
    identifier("9: file with 0000", 2, 0x0000, true);
    identifier("9: file with FFFF", 2, 0xFFFF, true);
    /* Point 7. */
    made("7: the MF alone", MF_ENTRY, 1, true);
    made("7: two ADFs", MF_ENTRY "7FFF 00 03 0000 0000 00 00 05 00 00 000000"
         "7FFF 00 03 0000 0000 00 00 05 00 00 000000", 1, true);
    made("7: a DF with its parent's identifier",
         MF_ENTRY "7F10 00 02 0000 0000 00 00 05 00 00 000000"
         "7F10 01 02 0000 0000 00 00 05 00 00 000000", 1, true);
    made("9: a file and a DF with one identifier",
         MF_ENTRY "7F10 00 02 0000 0000 00 00 05 00 00 000000"
         "7F10 00 04 0000 0001 00 00 05 00 00 000000", 1, false);
}

/* Places, lengths and records of files. */
static void files(void)
{
    table_byte("length 0", 2, 7, 0, false);
    table_byte("one byte past file memory", 6, 5, 39, false);
    table_byte("one byte of overlap", 2, 7, 18, false);
    table_byte("a gap between files", 2, 7, 16, true);
    table_byte("byte 8 of a transparent file", 2, 8, 1, false);
    table_byte("byte 9 of a transparent file", 2, 9, 1, false);
    table_byte("record length 0", 3, 8, 0, false);
    table_byte("record length 5 of 12", 3, 8, 5, false);
    table_byte("record length 3 of 12", 3, 8, 3, true);
    table_byte("one record of 12", 3, 8, 12, true);
    table_byte("record length 24 of 12", 3, 8, 24, false);
    table_byte("byte 9 of a linear file", 3, 9, 1, false);
    table_byte("newest 2 of 3", 4, 9, 2, true);
    table_byte("newest 3 of 3", 4, 9, 3, false);
    made("start and length FFFF", MF_ENTRY "6F01 00 04 FFFF FFFF 00 00 05 00 00 000000", 32768,
         false);
    made("length 8000", MF_ENTRY "6F01 00 04 0000 8000 00 00 05 00 00 000000", 32768, true);
    made("one file inside another", MF_ENTRY "6F01 00 04 0000 000A 00 00 05 00 00 000000"
         "6F02 00 04 0003 0002 00 00 05 00 00 000000", 10, false);
    made("254 records", MF_ENTRY "6F01 00 05 0000 00FE 01 00 05 00 00 000000", 255, true);
    made("255 records", MF_ENTRY "6F01 00 05 0000 00FF 01 00 05 00 00 000000", 255, false);
    made("254 cyclic records, newest 253", MF_ENTRY
         "6F01 00 06 0000 00FE 01 FD 05 00 00 000000", 255, true);
    made("254 cyclic records, newest 254", MF_ENTRY
         "6F01 00 06 0000 00FE 01 FE 05 00 00 000000", 255, false);
    made("record length 255", MF_ENTRY "6F01 00 05 0000 00FF FF 00 05 00 00 000000", 255, true);
}

/* The journal's head, how its entries fill U, and its marks. */
static void journal_frame(void)
{
    static struct card_bytes w;

    journal("5: U 0 and byte 2 zero", 0, "", true);
    journal("5: U 0 and byte 2 one", 1, "", false);
    journal("one mark", 1, MARK, true);
    journal("marks not equal byte 2", 2, MARK, false);
    journal("marks above byte 2", 1, MARK MARK, false);
    journal("oldest not a mark", 1, "FF 0200000000010000" MARK, false);
    journal("entries do not fill U", 1, "00" MARK, false);
    journal("U 7", 0, "00000000000000", false);
    journal("n longer than what is left", 1, MARK "0200000000090000", false);
    worked_card(&w);
    fill_journal(&w, 1, 8);
    w.journal.at[3] = 1;
    unsound(&w, "byte 3 not zero");
    w.journal.at[3] = 0;
    w.journal.at[2047] = 1;
    unsound(&w, "last byte not zero");
    w.journal.at[2047] = 0;
    w.journal.at[4 + 8] = 1;
    unsound(&w, "byte after the entries not zero");
    fill_journal(&w, 1, 2036);
    sound(&w, "U 2036");
    fill_journal(&w, 1, 2044);
    w.journal.at[0] = 0x07;
    w.journal.at[1] = 0xFD;
    unsound(&w, "U 2045");
    w.journal.at[0] = 0xFF;
    w.journal.at[1] = 0xFF;
    unsound(&w, "U 65535");
    fill_journal(&w, 17, 17 * 8);
    unsound(&w, "17 scripts on trial");
}

/* Single entries of the journal. */
static void journal_entries(void)
{
    static struct card_bytes c;

    journal("1: kind 2, place 54, n 2", 1, MARK "FFFF 0200003600020000", false);
    journal("1: kind 2, place 53, n 2", 1, MARK "FFFF 0200003500020000", true);
    journal("1: kind 2, place 54, n 1", 1, MARK "FF 0200003600010000", true);
    journal("1: kind 2, place 55, n 1", 1, MARK "FF 0200003700010000", false);
    journal("1: kind 2, place FFFF, n 1", 1, MARK "FF 0200FFFF00010000", false);
    journal("2: kind 2 across two files", 1, MARK "FFFF 0200001000020000", true);
    worked_card(&c);
    c.table.at[2 * 16 + 7] = 16;
    journal_on(&c, "2: kind 2 in a gap", 1, MARK "FF 0200001000010000", true);
    journal("kind 2, n 0", 1, MARK "0200000000000000", false);
    made_card(&c, MF_ENTRY, 300);
    static char old[2 * 256 + 1];
    static char entries[700];
    memset(old, 'A', 2 * 255);
    old[2 * 255] = '\0';
    snprintf(entries, sizeof entries, MARK "%s 0200000000FF0000", old);
    journal_on(&c, "kind 2, n 255", 1, entries, true);
    memset(old, 'A', 2 * 256);
    snprintf(entries, sizeof entries, MARK "%s 0200000001000000", old);
    journal_on(&c, "kind 2, n 256", 1, entries, false);

    journal("kind 0", 1, MARK "0000000000000000", false);
    journal("kind 4", 1, MARK "FF 0400000000010000", false);
    journal("mark with a place", 1, "0100000100000000", false);
    journal("mark with n 1", 1, MARK "00 0100000000010000", false);
    journal("6: tail byte 1 of a mark", 1, "0101000000000000", false);
    journal("6: tail byte 6 of a mark", 1, "0100000000000100", false);
    journal("6: tail byte 7 of a mark", 1, "0100000000000001", false);
    journal("6: tail byte 1 of kind 2", 1, MARK "FF 0280000000010000", false);
    journal("6: tail byte 6 of kind 2", 1, MARK "FF 0200000000018000", false);
    journal("6: tail byte 7 of kind 2", 1, MARK "FF 0200000000010080", false);
    journal("6: tail byte 1 of kind 3", 1, MARK "05 0301002A00010000", false);
    journal("6: tail byte 6 of kind 3", 1, MARK "05 0300002A00010100", false);
    journal("6: tail byte 7 of kind 3", 1, MARK "05 0300002A00010001", false);

    /* Places in the table are 16 * entry + byte: 002A is byte 10 of entry 2. */
    journal("3: state 05 of a file", 1, MARK "05 0300002A00010000", true);
    journal("3: state 04 of a file", 1, MARK "04 0300002A00010000", true);
    journal("old state 06", 1, MARK "06 0300002A00010000", false);
    journal("6: kind 3, n 2", 1, MARK "0505 0300002A00020000", false);
    journal("6: kind 3, n 0", 1, MARK "0300002A00000000", false);
    journal("state of the MF", 1, MARK "05 0300000A00010000", false);
    journal("state of a DF", 1, MARK "05 0300001A00010000", false);
    journal("state of an ADF", 1, MARK "05 0300005A00010000", false);
    journal("10: newest 2 of the cyclic file", 1, MARK "02 0300004900010000", true);
    journal("10: newest 3 of the cyclic file", 1, MARK "03 0300004900010000", false);
    journal("byte 9 of a linear file", 1, MARK "00 0300003900010000", false);
    journal("byte 9 of a transparent file", 1, MARK "00 0300002900010000", false);
    journal("byte 8 of the cyclic file", 1, MARK "00 0300004800010000", false);
    journal("state of the last entry", 1, MARK "05 0300006A00010000", true);
    journal("place at the table's end", 1, MARK "05 0300007000010000", false);
    journal("place behind the table", 1, MARK "05 0300007A00010000", false);
}

void test_soundness(void)
{
    static struct card_bytes w;

    worked_card(&w);
    sound(&w, "the worked card");
    lengths();
    many_entries();
    directories();
    byte_table();
    tree();
    files();
    journal_frame();
    journal_entries();
}
