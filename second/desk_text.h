/* The text of the desk's two programs: each takes a whole input and gives what is printed for it. */
#ifndef SECOND_DESK_TEXT_H
#define SECOND_DESK_TEXT_H

#include <stddef.h>

/* The longest text that is built from, the longest answer, and how many signs of a longer input are
 * enough: those of format= and answer= with their line feeds, and one of a third line. */
enum { MOST_BUILD_TEXT = 65536, MOST_DIGITS = 131072, MOST_TEXT = MOST_DIGITS + 18 };

/* Room for what is printed: at most 18 signs for four bytes of an answer, and few more. */
enum { MOST_PRINTED = 5 * (MOST_DIGITS / 2) + 64 };

/* Builds a script from lines, or reads the answer in them; answers the signs that are printed. */
size_t second_build_text(const char *text, size_t length, char *printed);
size_t second_read_text(const char *text, size_t length, char *printed);

#endif
