/* The desk's side of the second program: the builder of scripts and the reader of answers of
 * request K2, written from the paper and the requests alone.
 *
 * second_build and second_read_answer answer as the calls of second.h do; the count is that of the
 * operations or of the commands run, the length that of the script, or the place of the first
 * result or of the first bad byte. second_result answers   word + 2^16 * data's length + 2^32 *
 * data's place.   A memory of length 0 may be NULL. */
#ifndef SECOND_DESK_H
#define SECOND_DESK_H

#include "second.h"

#define SECOND_WORD(result)        ((unsigned)((result) & 0xFFFFu))
#define SECOND_DATA_LENGTH(result) ((size_t)((result) >> 16 & 0xFFFFu))
#define SECOND_DATA(result)        ((size_t)((result) >> 32))

/* Kinds of an operation, and the sizes of its row and of a list. */
enum {
    OPERATION_SELECT = 1, OPERATION_UPDATE = 2, OPERATION_READ = 3, OPERATION_UPDATE_RECORD = 4,
    OPERATION_READ_RECORD = 5, OPERATION_INCREASE = 6, OPERATION_SEARCH = 7
};
enum { ROW_SIZE = 8, MOST_OPERATIONS = 40 };

/* Writes the script of a list: format 0 compact, 1 expanded. Refusals 1 to 4; with 2 the count is
 * the number of the operation at fault. */
uint64_t second_build(uint8_t format, const uint8_t *operations, size_t operations_length,
                      const uint8_t *data, size_t data_length,
                      uint8_t *script, size_t script_length);

/* Reads an answer of this format: number 0, 1 for a damaged one, 2 for one that is too long. */
uint64_t second_read_answer(uint8_t format, const uint8_t *answer, size_t answer_length);

/* The result at a place of an answer; a word of 1 to 3 is the code of a Bad format TLV, and all is 0
 * where no whole result stands. */
uint64_t second_result(uint8_t format, const uint8_t *answer, size_t answer_length, size_t place);

#endif
