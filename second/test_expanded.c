/* Expanded scripts: points 40 to 47. */
#include "test_kit.h"

#include <stdio.h>
#include <string.h>

/* SELECT of the transparent file of big_card. */
#define SELECT_BIG "00A4000C026F01"

/* AA with the C-APDUs on this card: count and R-APDUs (below 124 bytes) are expected. */
static void aa_in(struct card_bytes *c, const char *name, uint8_t domain,
                  const char *const *apdus, const char *r_apdus, uint32_t count)
{
    static struct bytes script, answer, r;

    script.length = 0;
    for (; *apdus != NULL; apdus++)
        add_apdu(&script, *apdus);
    wrap_aa(&script);
    set_hex(&r, r_apdus);
    set_hex(&answer, "AB");
    add_byte(&answer, (unsigned)(3 + r.length));
    add_hex(&answer, "8001");
    add_byte(&answer, count);
    add_bytes(&answer, r.at, r.length);
    whole_case(c, name, SHARED, domain, EXPANDED, &script, count, &answer);
}

#define AA(c, name, r_apdus, count, ...) \
    aa_in(c, name, OPEN, (const char *const[]){__VA_ARGS__, NULL}, r_apdus, count)

/* The C-APDUs on a fresh worked card: only the last one's R-APDU, with this word and no data. */
static void last_word(const char *name, uint8_t domain, const char *const *apdus,
                      const char *word, uint32_t count)
{
    static struct card_bytes w;
    char r_apdu[16];

    worked_card(&w);
    snprintf(r_apdu, sizeof r_apdu, "2302%s", word);
    aa_in(&w, name, domain, apdus, r_apdu, count);
}

/* One C-APDU alone, which ends with this word and without data. */
static void alone_in(const char *name, uint8_t domain, const char *apdu, const char *word)
{
    last_word(name, domain, (const char *const[]){apdu, NULL}, word, 1);
}

/* The same in domain 00. */
static void alone(const char *name, const char *apdu, const char *word)
{
    alone_in(name, OPEN, apdu, word);
}

/* The second of two C-APDUs ends with this word; it is case 1 or 3, or an error. */
static void after(const char *name, const char *select, const char *apdu, const char *word)
{
    last_word(name, OPEN, (const char *const[]){select, apdu, NULL}, word, 2);
}

#define BAD_01 "AB06800101900101"
#define BAD_02 "AB06800101900102"
#define BAD_03 "AB06800101900103"

/* Points 40 and 41: Bad format TLVs. */
static void bad_format(void)
{
    expanded("40: tag before length", "AA0155", 1, BAD_01);
    expanded("40: 82 00 and the end", "AA03228200", 1, BAD_03);
    expanded("40: 81 7F", "AA0322817F", 1, BAD_02);
    expanded("40: 81 and the end", "AA022281", 1, BAD_03);
    expanded("40: 82 and the end", "AA022282", 1, BAD_03);
    expanded("40: A2 and the end", "AA01A2", 1, BAD_03);
    expanded("40: 82 00FF", "AA04228200FF", 1, BAD_02);
    expanded("40: 82 0000", "AA0422820000", 1, BAD_02);
    expanded("40: 80", "AA022280", 1, BAD_02);
    expanded("40: 83", "AA03228300", 1, BAD_02);
    expanded("40: FF", "AA0222FF", 1, BAD_02);
    expanded("40: length 0", "AA022200", 1, BAD_02);
    expanded("40: length 3", "AA05220300A400", 1, BAD_02);
    expanded("40: past the end", "AA06220500A4000C", 1, BAD_02);
    expanded("40: 81 80 past the end", "AA03228180", 1, BAD_02);
    expanded("40: 82 0100 past the end", "AA0422820100", 1, BAD_02);
    expanded("40: tag 23", "AA06230400A4000C", 1, BAD_01);
    expanded("40: tag 81, an action", "AA03810100", 1, BAD_01);
    expanded("40: tag 80", "AA06800400A4000C", 1, BAD_01);
    expanded("tag A2 is a C-APDU", "AA09A20700A4000C027F10", 1, "AB0780010123029000");
    expanded("41: not the first 0000", "AE8000000000", 1, "AF809001010000");
    expanded("41: 0000 inside a C-APDU",
             "AE80 220500B0000001 220700A4000C027F10 0000", 1, "AF80230269860000");
    expanded("41: the last two bytes are no value", "AE8022040000", 1, "AF809001020000");
    expanded("41: 22 and the end", "AE80220000", 1, "AF809001030000");
    expanded("41: 2282 and the end", "AE8022820000", 1, "AF809001030000");
    expanded("41: nothing inside", "AE800000", 0, "AF800000");
    expanded("AE: a select", "AE80220700A4000C027F100000", 1, "AF80230290000000");
    expanded("AE: select, then a bad format",
             "AE80220700A4000C027F10550000", 2, "AF80230290009001010000");
    expanded("46: AA leaves out the select before it", "AA0B220700A4000C027F105500", 2,
             "AB06800102900101");
    expanded("46: AA keeps an FCP before it", "AA0C220800A40004027F10005500", 2,
             "AB17800102 230F620B8202782183027F108A01059000 900101");
    expanded("a bad format stops", "AA0B5500220700A4000C027F10", 1, BAD_01);
}

/* Points 42 and 43: sizes, cases, and the order of the checks. */
static void sizes_and_cases(void)
{
    alone("42: size 6 with Lc 00 and Le 00 is case 4", "002000010000", "6D00");
    alone("42: then Lc 0", "00A400040000", "6700");
    alone("42: Lc 0 before P1P2", "00A4FF040000", "6700");
    alone("42: size 6 with Lc 00 and Le 01", "002000010001", "6700");
    alone("42: 6 + Lc with another Le", "0020000101FF05", "6700");
    alone("42: 6 + Lc with Le 00", "0020000101FF00", "6D00");
    alone("42: 5 + Lc", "0020000101FF", "6D00");
    alone("42: 7 + Lc", "0020000101FF0000", "6700");
    alone("42: 4 + Lc", "0020000102FF", "6700");
    alone("42: size 4", "00200000", "6D00");
    alone("42: size 5 is case 2 for every instruction", "00200001FF", "6D00");
    alone("42: SELECT of size 5", "00A4000C02", "6700");
    alone("a bad size before the class", "80A4000C0200", "6700");
    alone("6D00 before 6E00", "80200000", "6D00");
    alone("6E00 before the case", "80B00000", "6E00");
    alone("class 00 for INCREASE", "003200000101", "6E00");
    alone("the case before P1P2", "00B0FF00", "6700");
    alone("P1P2", "00B0FF0001", "6A86");
    alone_in("P1P2 before the domain", CLOSED, "00B0FF0001", "6A86");
    alone_in("the domain", CLOSED, "00B0000001", "6982");
    alone_in("the domain and SELECT", CLOSED, "00A4000C027F10", "6982");
    alone_in("the domain and C0", CLOSED, "00C0000000", "6985");
    alone("no bytes-after rule", "00B0000001", "6986");

    alone("43: a bad P2 in case 3", "00A4000D027F10", "6700");
    alone("43: a bad P2 in case 4", "00A4000D027F1000", "6A86");
    alone("43: P2 04 in case 3", "00A40004027F10", "6700");
    alone("43: P2 0C in case 4", "00A4000C027F1000", "6700");
    alone("43: P2 0C with a bad P1 in case 3", "00A4010C027F10", "6A86");
    alone("43: SELECT in case 1", "00A4000C", "6700");
    alone("43: C0 is known", "00C0000000", "6985");
    alone("43: C0 with Le 05", "00C0000005", "6985");
    alone("43: C0 in case 1", "00C00000", "6700");
    alone("43: C0 and P1P2", "00C0010000", "6A86");
    alone("43: C0 and the class", "80C0000000", "6E00");
    alone("SELECT: data length", "00A4000C017F", "6700");
    alone("SELECT: not found", "00A4000C026F46", "6A82");

    after("04 in case 2", SELECT_TRANSPARENT, "0004000000", "6700");
    after("04 in case 1", SELECT_TRANSPARENT, "00040000", "9000");
    after("44 in case 2", SELECT_TRANSPARENT, "0044000000", "6700");
    after("44 in case 1", SELECT_TRANSPARENT, "00440000", "9000");
    after("B0 in case 1", SELECT_TRANSPARENT, "00B00000", "6700");
    after("B0 in case 3", SELECT_TRANSPARENT, "00B000000101", "6700");
    after("B2 in case 1", SELECT_LINEAR, "00B20104", "6700");
    after("D6 in case 3", SELECT_TRANSPARENT, "00D600000101", "9000");
    after("D6 in case 4", SELECT_TRANSPARENT, "00D60000010100", "6700");
    after("D6 in case 2", SELECT_TRANSPARENT, "00D6000001", "6700");
    after("DC in case 3", SELECT_LINEAR, "00DC01040401020304", "9000");
    after("DC in case 4", SELECT_LINEAR, "00DC0104040102030400", "6700");
    after("A2 in case 3", SELECT_LINEAR, "00A2010401FF", "6700");
    after("32 in case 3", SELECT_CYCLIC, "803200000101", "6700");
    after("Lc 0 of A2", SELECT_LINEAR, "00A201040000", "6700");
    after("Lc 0 of 32", SELECT_CYCLIC, "803200000000", "6700");
}

/* What AA and AE keep. */
static void kept(void)
{
    static struct card_bytes w;

    worked_card(&w);
    AA(&w, "SELECT with FCP", "230F" FCP_7F10 "9000", 1, "00A40004027F1000");
    AA(&w, "43: nothing ever waits", "230F" FCP_7F10 "9000 23026985", 2, "00A40004027F1000",
       "00C0000000");
    AA(&w, "case 2, then case 3 last", "2304FFFF9000 23029000", 3, SELECT_TRANSPARENT, "00B0000002",
       "00D600000101");
    AA(&w, "case 3, then case 2 last, once", "230401FF9000", 3, SELECT_TRANSPARENT, "00D600000101",
       "00B0000002");
    AA(&w, "6282 goes on", "2305FFFFFF6282 230301 9000", 3, SELECT_TRANSPARENT, "00B0000E05",
       "00B0000001");
    AA(&w, "INCREASE", "2308 000005 000005 9000", 2, SELECT_CYCLIC, "803200000300000500");
    AA(&w, "a search", "2305 010203 9000", 2, SELECT_LINEAR, "00A2010401FF00");
    AA(&w, "a search that finds none goes on", "23026282 2305 030201 9000", 3, SELECT_LINEAR,
       "00A2010401AA00", "00A2030501FF00");
    worked_card(&w);
    AA(&w, "an error stops", "23026981", 3, SELECT_TRANSPARENT, "00D600000101", "00B2010401",
       "00B0000001");
    AA(&w, "6283 with FCP", "2313 620F82024121 83026F46 8A0104 80020011 6283 23026984", 4,
       SELECT_TRANSPARENT, "00040000", "00A40004026F4600", "00B0000001");
    AA(&w, "6283 without data, last", "23026283", 1, SELECT_TRANSPARENT);
    worked_card(&w);
    expanded_on(&w, "AE keeps all", "AE80 220900A4080C047F106F46 220600D600000101"
                "220500B0000002 220400040000 0000", 4,
                "AF80 23029000 23029000 230401FF9000 23029000 0000");
    check_number("U", 8 + 9 + 9, used_of(&w));
    /* Point 31: absolute does not move; next moves. */
    worked_card(&w);
    memset(w.files.at + 17, 0xAA, 4);
    memset(w.files.at + 21, 0xBB, 4);
    memset(w.files.at + 25, 0xCC, 4);
    AA(&w, "31: B2 absolute does not move",
       "2306AAAAAAAA9000 2306CCCCCCCC9000 2306BBBBBBBB9000 2306BBBBBBBB9000", 5, SELECT_LINEAR,
       "00B2000204", "00B2030404", "00B2000204", "00B2000404");
    AA(&w, "31: B2 next past the end",
       "2306AAAAAAAA9000 2306BBBBBBBB9000 2306CCCCCCCC9000 23026A83", 5, SELECT_LINEAR,
       "00B2000200", "00B2000200", "00B2000200", "00B2000200");
    AA(&w, "31: B2 previous past the end",
       "2306CCCCCCCC9000 2306BBBBBBBB9000 2306AAAAAAAA9000 23026A83", 5, SELECT_LINEAR,
       "00B2000304", "00B2000304", "00B2000304", "00B2000304");
    worked_card(&w);
    memcpy(w.files.at + 29, "\x11\x11\x11\x22\x22\x22\x33\x33\x33", 9);
    AA(&w, "cyclic: next goes round",
       "2305222222900023053333339000230511111190002305333333900023052222229000", 6, SELECT_CYCLIC,
       "00B2000203", "00B2000203", "00B2000203", "00B2000303", "00B2000303");
    AA(&w, "a reading keeps what stood there then", "2305111111 9000 2305121212 9000", 4,
       SELECT_CYCLIC, "00B2010403", "00DC000303121212", "00B2000403");
}

/* 1: transparent 6F01 of 300 bytes; 2: cyclic 6F02, 2 records of 4. */
static void big_card(struct card_bytes *c)
{
    made_card(c, MF_ENTRY "6F01 00 04 0000 012C 00 00 05 00 00 000000"
              "6F02 00 06 012C 0008 04 00 05 00 00 000000", 400);
}

/* The R-APDU of a B0 at offset 0 of 6F01: the header written out by hand. */
static void add_read(struct bytes *to, const char *header, unsigned n)
{
    add_hex(to, header);
    for (unsigned i = 0; i < n; i++)
        add_byte(to, i & 0xFF);
    add_hex(to, "9000");
}

/* Point 47, and the forms of the answer's own length. */
static void lengths(void)
{
    static const struct {
        const char *name, *read, *front, *header;
        unsigned n;
    } cases[] = {
        {"47: AB7F", "00B0000078", "AB7F800102", "237A", 120},
        {"47: AB8180", "00B0000079", "AB8180800102", "237B", 121},
        {"47: 237F", "00B000007D", "AB8184800102", "237F", 125},
        {"47: 238180", "00B000007E", "AB8186800102", "238180", 126},
        {"47: AB81FF", "00B00000F7", "AB81FF800102", "2381F9", 247},
        {"47: AB820100", "00B00000F8", "AB820100800102", "2381FA", 248},
        {"47: 2381FF", "00B00000FD", "AB820105800102", "2381FF", 253},
        {"47: 23820100", "00B00000FE", "AB820107800102", "23820100", 254},
        {"47: 23820102", "00B0000000", "AB820109800102", "23820102", 256},
    };
    static struct card_bytes c;
    static struct bytes script, answer;

    big_card(&c);
    for (size_t i = 0; i < sizeof cases / sizeof cases[0]; i++) {
        script.length = 0;
        add_apdu(&script, SELECT_BIG);
        add_apdu(&script, cases[i].read);
        wrap_aa(&script);
        set_hex(&answer, cases[i].front);
        add_read(&answer, cases[i].header, cases[i].n);
        whole_case(&c, cases[i].name, SHARED, OPEN, EXPANDED, &script, 2, &answer);
    }
}

/* C-APDUs of 128 and of 260 bytes: lengths 81 80 and 82 0104. */
static void long_apdus(void)
{
    static struct card_bytes c;
    static struct bytes script, answer;

    big_card(&c);
    set_hex(&script, "AE80 2207" SELECT_BIG "228180 00D600007B");
    for (unsigned i = 0; i < 123; i++)
        add_byte(&script, 0xEE);
    add_hex(&script, "A2820104 00D60001FF");
    for (unsigned i = 0; i < 255; i++)
        add_byte(&script, 0xDD);
    add_hex(&script, "0000");
    set_hex(&answer, "AF80 23029000 23029000 23029000 0000");
    whole_case(&c, "long C-APDUs", SHARED, OPEN, EXPANDED, &script, 3, &answer);
    check_number("U", 8 + 8 + 123 + 8 + 255, used_of(&c));
    check_number("byte 0", 0xEE, c.files.at[0]);
    check_number("byte 1", 0xDD, c.files.at[1]);
    check_number("byte 255", 0xDD, c.files.at[255]);
    check_number("byte 256", 0x00, c.files.at[256]);
}

/* Puts the script into its template, and ends the answer of AE, which begins with AF 80. */
static void wrap_both(struct bytes *script, struct bytes *answer, bool ae)
{
    if (ae) {
        wrap_ae(script);
        add_hex(answer, "0000");
    } else {
        wrap_aa(script);
    }
}

/* A script that keeps R-APDUs up to the limit: SELECT (4 bytes, under AE only), three times
 * 256 bytes (262 each) and one more reading. Then `more`, the expected rest of the R-APDUs. */
static void limit(struct card_bytes *c, const char *name, bool ae, const char *last_read,
                  const char *last_header, unsigned last_n, const char *more_script,
                  const char *more_answer, uint32_t count, const char *aa_front)
{
    static struct bytes script, answer;

    script.length = 0;
    add_apdu(&script, SELECT_BIG);
    for (int i = 0; i < 3; i++)
        add_apdu(&script, "00B0000000");
    add_apdu(&script, last_read);
    add_hex(&script, more_script);
    set_hex(&answer, ae ? "AF80 23029000" : aa_front);
    for (int i = 0; i < 3; i++)
        add_read(&answer, "23820102", 256);
    if (last_n > 0)
        add_read(&answer, last_header, last_n);
    add_hex(&answer, more_answer);
    wrap_both(&script, &answer, ae);
    whole_case(c, name, SHARED, OPEN, EXPANDED, &script, count, &answer);
}

#define D6_ONE "220600D60000 01EE "
#define UNKNOWN_CASE_2 "22050020000000 "
#define UNKNOWN_CASE_1 "220400200000 "
#define BAD_SIZE "22070020000101FF05 "

/* Points 44 and 45 under AE: 4 + 3 * 262 = 790; 205 bytes more make 210, so 1,000. */
static void limit_ae(void)
{
    static struct card_bytes c, before;

    big_card(&c);
    before = c;
    limit(&c, "44: AE, exactly 1,000", true, "00B00000CD", "2381CF", 205, "", "", 5, "");
    limit(&c, "44: AE, 1,001", true, "00B00000CE", "", 0, "", "23026F00", 5, "");
    limit(&c, "44: AE, case 3 counts too", true, "00B00000CD", "2381CF", 205, D6_ONE,
          "23026F00", 6, "");
    check_number("U: the command changes nothing", 3 * 8, used_of(&c));
    check(same_bytes(&before.files, &c.files), "file memory changed");
    limit(&c, "45: 6F00 replaces an error word", true, "00B00000CD", "2381CF", 205,
          UNKNOWN_CASE_2, "23026F00", 6, "");
    limit(&c, "44: AE, case 1 counts too", true, "00B00000CD", "2381CF", 205, UNKNOWN_CASE_1,
          "23026F00", 6, "");
    limit(&c, "44: AE, a bad size counts too", true, "00B00000CD", "2381CF", 205, BAD_SIZE,
          "23026F00", 6, "");
    limit(&c, "45: a Bad format TLV is not counted", true, "00B00000CD", "2381CF", 205, "5500",
          "900101", 6, "");
    /* 201 bytes make 206, so 996: one more R-APDU of 4 fits. */
    limit(&c, "44: AE, 996 and 4", true, "00B00000C9", "2381CB", 201, D6_ONE D6_ONE,
          "23029000 23026F00", 7, "");
    c = before;
    limit(&c, "44: AE, 997 and 4", true, "00B00000CA", "2381CC", 202, D6_ONE, "23026F00", 6,
          "");
}

/* Under AA: SELECT counts 0, 3 * 262 = 786; 209 bytes more make 214, so 1,000. The answer's
 * length is 3 + R-APDUs: 1,003 = 03EB, with one more R-APDU 1,007 = 03EF. */
static void limit_aa(void)
{
    static struct card_bytes c, before;

    big_card(&c);
    before = c;
    limit(&c, "44: AA, exactly 1,000", false, "00B00000D1", "2381D3", 209, "", "", 5,
          "AB8203EB800105");
    /* 786 + 4 + 3 = 793 = 0319. */
    limit(&c, "44: AA, 1,001", false, "00B00000D2", "", 0, "", "23026F00", 5,
          "AB820319800105");
    limit(&c, "44: AA, case 1 counts 0", false, "00B00000D1", "2381D3", 209, "220400040000",
          "23029000", 6, "AB8203EF800106");
    check_number("state", 4, c.table.at[16 + 10]);
    c = before;
    limit(&c, "44: AA, case 3 counts 0", false, "00B00000D1", "2381D3", 209, D6_ONE, "23029000",
          6, "AB8203EF800106");
    check_number("byte 0", 0xEE, c.files.at[0]);
    check_number("U", 17, used_of(&c));
    c = before;
    limit(&c, "44: AA, case 3, then case 2", false, "00B00000D1", "2381D3", 209,
          D6_ONE "220500B0000001", "23026F00", 7, "AB8203EF800107");
    check_number("U", 17, used_of(&c));
    c = before;
    limit(&c, "44: AA, a bad size counts 0", false, "00B00000D1", "2381D3", 209, BAD_SIZE,
          "23026700", 6, "AB8203EF800106");
    limit(&c, "45: 6F00 for an error of case 2", false, "00B00000D1", "2381D3", 209,
          UNKNOWN_CASE_2, "23026F00", 6, "AB8203EF800106");
    limit(&c, "44: AA, an error of case 1", false, "00B00000D1", "2381D3", 209, UNKNOWN_CASE_1,
          "23026D00", 6, "AB8203EF800106");
    /* 1,000 + 3 + 3 = 1,006 = 03EE. */
    limit(&c, "45: AA, a Bad format TLV", false, "00B00000D1", "2381D3", 209, "5500", "900101",
          6, "AB8203EE800106");
    c = before;
    /* INCREASE would give 23 07 and 5 bytes, 9000: 9 bytes. 201 more make 206, so 992: 1,001;
     * its length is 992 + 4 + 3 = 999 = 03E7. */
    limit(&c, "44: INCREASE with 6F00 changes nothing", false, "00B00000C9", "2381CB", 201,
          "220700A4000C026F02 2207803200000101 00", "23026F00", 7, "AB8203E7800107");
    check_number("U", 8, used_of(&c));
    check(same_bytes(&before.files, &c.files) && same_bytes(&before.table, &c.table),
          "the card changed");
    c = before;
    /* One byte less: 991 + 9 = 1,000. Record 1 at 300 is 2C2D2E2F; the answer's length 1,003. */
    limit(&c, "44: INCREASE that just fits", false, "00B00000C8", "2381CA", 200,
          "220700A4000C026F02 2207803200000101 00", "2307 2C2D2E30 01 9000", 7,
          "AB8203EB800107");
    check_number("U", 8 + 12 + 9, used_of(&c));
}

/* "count as shortest signed integer (128 is 00 80)": one SELECT, then ACTIVATE again and again. */
static void counts(void)
{
    static const struct {
        const char *name, *answer;
        unsigned count;
    } cases[] = {
        {"count 127", "AB0780017F23029000", 127},
        {"count 128", "AB088002008023029000", 128},
        {"count 169", "AB08800200A923029000", 169},
    };
    static struct card_bytes w;
    static struct bytes script, answer;

    for (size_t i = 0; i < 3; i++) {
        for (int ae = 0; ae < 2; ae++) { /* AA, then AE */
            worked_card(&w);
            script.length = 0;
            add_apdu(&script, SELECT_TRANSPARENT);
            set_hex(&answer, ae ? "AF8023029000" : cases[i].answer);
            for (unsigned n = 1; n < cases[i].count; n++) {
                add_apdu(&script, "00440000");
                if (ae)
                    add_hex(&answer, "23029000");
            }
            wrap_both(&script, &answer, ae);
            whole_case(&w, cases[i].name, SHARED, OPEN, EXPANDED, &script, cases[i].count,
                       &answer);
            check_number("U", 8 + 9 * (cases[i].count - 1), used_of(&w));
        }
    }
}

void test_expanded(void)
{
    bad_format();
    sizes_and_cases();
    kept();
    lengths();
    long_apdus();
    limit_ae();
    limit_aa();
    counts();
}
