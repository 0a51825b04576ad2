/* Request K2: the lines of the desk's two programs. */
#include "test_kit.h"

#include <stdio.h>
#include <stdlib.h>
#include <string.h>

#include "desk_text.h"

typedef size_t text_program(const char *text, size_t length, char *printed);

/* A text on memory of exactly its length, and what is printed for it. */
static void printed_for(text_program *program, const char *text, size_t length, const char *expected)
{
    static char printed[MOST_PRINTED];
    uint8_t *const lent = lend((const uint8_t *)text, length);
    const size_t signs = program((const char *)lent, length, printed);

    free(lent);
    check_bytes("printed", (const uint8_t *)expected, strlen(expected), (const uint8_t *)printed,
                signs);
}

/* A whole text, which ends in a line feed: with and without it the same is printed. */
static void text_case(text_program *program, const char *text, const char *expected)
{
    start_case(text);
    printed_for(program, text, strlen(text), expected);
    printed_for(program, text, strlen(text) - 1, expected);
}

/* A text of which the line of this number is the first that is not as asked. */
static void bad_line(text_program *program, const char *text, unsigned line)
{
    static char expected[32];

    start_case(text);
    snprintf(expected, sizeof expected, "line=%u\n", line);
    printed_for(program, text, strlen(text), expected);
}

/* One operation of good shape that no format carries. */
static void line_not_carried(const char *line)
{
    static char text[300];

    for (unsigned format = 0; format <= 1; format++) {
        snprintf(text, sizeof text, "format=%u\n%s\n", format, line);
        text_case(second_build_text, text, "refusal=2\noperations=1\nscript=\n");
    }
}

/* One operation of another shape, behind a good one and before another bad one. */
static void line_no_shape(const char *line)
{
    static char text[300];

    snprintf(text, sizeof text, "format=0\nincrease=01\n%s\nx\n", line);
    bad_line(second_build_text, text, 3);
}

static void built_lines(void)
{
    text_case(second_build_text, "format=0\nselect=7F106F46\nupdate=0,0141\nread=0,0\n",
              "refusal=0\noperations=3\nscript=00A4080C047F106F4600D6000002014100B0000000\n");
    text_case(second_build_text,
              "format=1\nselect=7F106F3A\nupdate-record=2,01020304\nsearch=forward,1,0203\n"
              "read-record=next,0\n",
              "refusal=0\noperations=4\nscript=AA27220900A4080C047F106F3A220900DC0204040102030422"
              "0800A2010402020300220500B2000200\n");
    text_case(second_build_text, "format=0\nincrease=000005\n",
              "refusal=0\noperations=1\nscript=8032000003000005\n");
    text_case(second_build_text, "format=0\nupdate-record=previous,AF\nread-record=0,7\n",
              "refusal=0\noperations=2\nscript=00DC000301AF00B2000407\n");
    text_case(second_build_text, "format=0\nupdate-record=next,00\nsearch=backward,255,00\n",
              "refusal=0\noperations=2\nscript=00DC0002010000A2FF050100\n");
    text_case(second_build_text, "format=0\nread=32767,255\n",
              "refusal=0\noperations=1\nscript=00B07FFFFF\n");
    text_case(second_build_text, "format=0\nread-record=previous,0\n",
              "refusal=0\noperations=1\nscript=00B2000300\n");
    text_case(second_build_text, "format=0\nread=0,0\nincrease=01\n",
              "refusal=2\noperations=1\nscript=\n");
    text_case(second_build_text, "format=0\nincrease=01\nread=0,0\nincrease=01\n",
              "refusal=2\noperations=2\nscript=\n");
    text_case(second_build_text, "format=0\n", "refusal=1\noperations=0\nscript=\n");
    text_case(second_build_text, "format=9\n", "refusal=1\noperations=0\nscript=\n");
    text_case(second_build_text, "format=2\nread=0,0\n", "refusal=2\noperations=1\nscript=\n");
    text_case(second_build_text, "format=9\nread=0,0\n", "refusal=2\noperations=1\nscript=\n");
    line_not_carried("select=");
    line_not_carried("select=7F");
    line_not_carried("select=7F106F");
    line_not_carried("update=0,");
    line_not_carried("update=32768,01");
    line_not_carried("update=65535,01");
    line_not_carried("update-record=next,");
    line_not_carried("update-record=256,01");
    line_not_carried("increase=");
    line_not_carried("search=forward,1,");
    line_not_carried("search=backward,65535,01");
    line_not_carried("read=0,256");
    line_not_carried("read=0,65535");
    line_not_carried("read=65535,0");
    line_not_carried("read-record=65535,0");
}

static void other_shapes(void)
{
    static const char *const shapes[] = {
        "", " ", "\r", "x", "format=0", "select", "select=7F1", "select=7f10", "select=7F10,",
        "select=7F10 ", " select=7F10", "select =7F10", "Select=7F10", "select=7F10\r",
        "select=7G10", "update=0", "update=", "update=,01", "update=00,01", "update=01,01",
        "update=-1,01",
        "update=+1,01", "update=65536,01", "update=100000,01", "update=0x1,01", "update=0,1",
        "update=0, 01", "update=0,01,", "update=0,01,01", "update=next,01", "read=0", "read=0,",
        "read=0,00", "read=0,1,", "read=0,65536", "read=0,A", "read=,0", "read=65536,0",
        "update-record=1", "update-record=,01", "update-record=nex,01", "update-record=nextx,01",
        "update-record=Next,01", "update-record=absolute,01", "update-record=01,01",
        "update-record=1,01,01", "update_record=1,01", "read-record=next", "read-record=next,",
        "read-record=next,01", "read-record=next,1,1", "read-record=forward,0", "increase",
        "increase=0", "increase=01,01", "increase=0,01", "search=1,01", "search=forward",
        "search=forward,1", "search=forward,,01", "search=forward,next,01", "search=next,1,01",
        "search=forward,01,01", "search=forward,65536,01", "search=forward,1,0",
        "search=forward,1,01,", "deactivate=", "answer=01"};

    for (size_t i = 0; i < sizeof shapes / sizeof shapes[0]; i++)
        line_no_shape(shapes[i]);
    bad_line(second_build_text, "", 1);
    bad_line(second_build_text, "\n", 1);
    bad_line(second_build_text, "\nformat=0\n", 1);
    bad_line(second_build_text, "format=\n", 1);
    bad_line(second_build_text, "format=00\n", 1);
    bad_line(second_build_text, "format=10\nread=0,0\n", 1);
    bad_line(second_build_text, "format=A\n", 1);
    bad_line(second_build_text, "format=0 \n", 1);
    bad_line(second_build_text, "format=0\r\nread=0,0\r\n", 1);
    bad_line(second_build_text, "read=0,0\nformat=0\n", 1);
    bad_line(second_build_text, "format=0\n\n", 2);
    bad_line(second_build_text, "format=0\nread=0,0\n\n", 3);
    start_case("K2: a zero byte in a line");
    printed_for(second_build_text, "format=0\nselect=7F\0010\n", 22, "line=2\n");
    printed_for(second_build_text, "format\0=0\n", 10, "line=1\n");
}

/* More than 40 lines: all are looked at for their shape, then it is refusal 1. */
static void many_lines(void)
{
    static char text[MOST_BUILD_TEXT + 100];

    for (unsigned lines = 40; lines <= 100; lines += 12) {
        size_t length = (size_t)sprintf(text, "format=1\n");
        for (unsigned i = 0; i < lines; i++)
            length += (size_t)sprintf(text + length, "select=\n");
        start_case("K2: 40 lines and more");
        printed_for(second_build_text, text, length,
                    lines == 40 ? "refusal=2\noperations=1\nscript=\n"
                                : "refusal=1\noperations=0\nscript=\n");
        sprintf(text + length, "select\n");
        char expected[32];
        snprintf(expected, sizeof expected, "line=%u\n", lines + 2);
        printed_for(second_build_text, text, length + 7, expected);
    }
}

/* Texts of 65,536 signs and of more. */
static void long_texts(void)
{
    static char text[MOST_BUILD_TEXT + 100];
    const size_t most = MOST_BUILD_TEXT;

    /* A first line of 9 signs, 7 more, and 65,520 digits. */
    memset(text, '0', sizeof text);
    memcpy(text, "format=0\nselect=", 16);
    start_case("K2: 65,536 signs without the last line feed");
    printed_for(second_build_text, text, most, "refusal=2\noperations=1\nscript=\n");
    start_case("K2: 65,537 signs");
    printed_for(second_build_text, text, most + 2, "line=2\n");
    text[most] = '\n';
    printed_for(second_build_text, text, most + 1, "line=2\n");
    text[most] = '0';
    text[most - 1] = '\n'; /* an odd digit before it */
    printed_for(second_build_text, text, most, "line=2\n");
    /* One line feed more before it, so that the digits are even and the last sign ends the line. */
    memcpy(text, "format=0\nincrease=01\nupdate=0,", 30);
    text[most - 1] = '0';
    start_case("K2: three lines, 65,536 signs");
    printed_for(second_build_text, text, most, "refusal=2\noperations=2\nscript=\n");
    text[most - 2] = '\n';
    memcpy(text + most - 1, "r", 1);
    start_case("K2: the limit falls in a fourth line");
    printed_for(second_build_text, text, most, "line=4\n");
    memcpy(text + most - 1, "read=0,0\n", 9);
    printed_for(second_build_text, text, most + 8, "line=4\n");
    start_case("K2: a bad line before the limit");
    text[9] = 'I';
    printed_for(second_build_text, text, most + 8, "line=2\n");
}

static void read_lines(void)
{
    text_case(second_read_text, "format=0\nanswer=039000FFFFFF\n",
              "count=3\nstatus=9000\ndata=FFFFFF\n");
    text_case(second_read_text, "format=1\nanswer=AB0780010123029000\n",
              "count=1\nstatus=9000\ndata=\n");
    text_case(second_read_text, "format=1\nanswer=AB06800101900101\n", "count=1\ncode=01\n");
    text_case(second_read_text, "format=1\nanswer=AB0780010123039000\n", "place=6\n");
    text_case(second_read_text, "format=1\nanswer=AB03800100\n", "count=0\n");
    text_case(second_read_text, "format=1\nanswer=AF800000\n", "count=0\n");
    text_case(second_read_text, "format=1\nanswer=AF8023029000230541424362829001030000\n",
              "count=3\nstatus=9000\ndata=\nstatus=6282\ndata=414243\ncode=03\n");
    text_case(second_read_text, "format=0\nanswer=016105\n", "count=1\nstatus=6105\ndata=\n");
    text_case(second_read_text, "format=0\nanswer=\n", "place=0\n");
    text_case(second_read_text, "format=1\nanswer=\n", "place=0\n");
    text_case(second_read_text, "format=2\nanswer=019000\n", "place=0\n");
    text_case(second_read_text, "format=9\nanswer=AB03800100\n", "place=0\n");
    bad_line(second_read_text, "", 1);
    bad_line(second_read_text, "answer=019000\nformat=0\n", 1);
    bad_line(second_read_text, "format=0\r\nanswer=019000\n", 1);
    bad_line(second_read_text, "format=0", 2);
    bad_line(second_read_text, "format=0\n", 2);
    bad_line(second_read_text, "format=0\n\n", 2);
    bad_line(second_read_text, "format=0\nanswer\n", 2);
    bad_line(second_read_text, "format=0\nanswer=01900\n", 2);
    bad_line(second_read_text, "format=0\nanswer=01900a\n", 2);
    bad_line(second_read_text, "format=0\nanswer=01 9000\n", 2);
    bad_line(second_read_text, "format=0\nanswer=019000\r\n", 2);
    bad_line(second_read_text, "format=0\nanswer=019000\n\n", 3);
    bad_line(second_read_text, "format=0\nanswer=019000\nx", 3);
    bad_line(second_read_text, "format=0\nanswer=01900\nx", 2);
}

/* Answers of 131,072 digits and of more: AF with as many R-APDUs as find room. */
static void long_answers(void)
{
    static char text[MOST_TEXT + 100], expected[MOST_PRINTED + 1];
    enum { R_APDUS = (MOST_DIGITS / 2 - 4) / 4 };
    size_t length = (size_t)sprintf(text, "format=1\nanswer=AF80");
    size_t signs = (size_t)sprintf(expected, "count=%u\n", (unsigned)R_APDUS);

    for (unsigned i = 0; i < R_APDUS; i++) {
        length += (size_t)sprintf(text + length, "23029000");
        signs += (size_t)sprintf(expected + signs, "status=9000\ndata=\n");
    }
    length += (size_t)sprintf(text + length, "0000");
    start_case("K2: 131,072 digits");
    check_number("digits", MOST_DIGITS, length - 16);
    printed_for(second_read_text, text, length, expected);
    text[length] = '\n';
    printed_for(second_read_text, text, length + 1, expected);
    text[length + 1] = '\n';
    printed_for(second_read_text, text, length + 2, "line=3\n");
    start_case("K2: 131,074 digits");
    text[length] = text[length + 1] = '0';
    printed_for(second_read_text, text, length + 2, "line=2\n");
}

void test_desk_text(void)
{
    built_lines();
    other_shapes();
    many_lines();
    long_texts();
    read_lines();
    long_answers();
}
