/* rfm_desk: the campaign desk's side of rfm. Writes a script from a list of file
 * operations, and reads the answer that a run gave to it. A card carries none of it.
 *
 *     static const uint8_t data[] = {0x7F, 0x10, 0x6F, 0x46, 0x01, 0x41};
 *     uint8_t operations[3 * RFM_OPERATION_SIZE], script[RFM_MOST_SCRIPT];
 *
 *     rfm_operation(operations, RFM_SELECT, RFM_NO_MODE, 0, 0, 4);
 *     rfm_operation(operations + 8, RFM_UPDATE, RFM_NO_MODE, 0, 4, 2);
 *     rfm_operation(operations + 16, RFM_READ, RFM_NO_MODE, 0, 0, 0);
 *     uint64_t built = rfm_build(RFM_COMPACT, operations, sizeof operations,
 *                                data, sizeof data, script, sizeof script);
 *
 *     if (RFM_NUMBER(built) == RFM_BUILT)
 *         send(script, RFM_LENGTH(built));
 *
 * and of the answer that came back each result, in order:
 *
 *     uint64_t read = rfm_read_answer(RFM_COMPACT, answer, answer_len);
 *     size_t place = RFM_LENGTH(read);
 *
 *     while (RFM_NUMBER(read) == RFM_ANSWER_READ) {
 *         uint64_t result = rfm_result(RFM_COMPACT, answer, answer_len, place);
 *         if (RFM_WORD(result) <= RFM_NO_LENGTH)
 *             break;
 *         show(RFM_WORD(result), answer + RFM_DATA(result), RFM_DATA_LENGTH(result));
 *         place = RFM_DATA(result) + RFM_DATA_LENGTH(result) + 2;
 *     }
 *
 * What rfm.h says of lending, overlap, content and threads holds here too: none of the
 * pointers is NULL, not even with length 0. */
#ifndef RFM_DESK_H
#define RFM_DESK_H

#include "rfm.h"

#ifdef __cplusplus
extern "C" {
#endif

/* ---- Building a script ---- */

/* Sizes of a list and of an answer. */
enum rfm_desk_size {
    RFM_OPERATION_SIZE = 8,    /* bytes of an operation's row */
    RFM_MOST_OPERATIONS = 40,  /* operations of a list, from 1 */
    RFM_MOST_ANSWER = 16777215 /* bytes of an answer that is read */
};

/* Kinds of an operation. One operation is one command. */
enum rfm_operation_kind {
    RFM_SELECT = 1,        /* the path's 1 to 8 identifiers, from the root */
    RFM_UPDATE = 2,        /* data at an offset */
    RFM_READ = 3,          /* bytes from an offset on */
    RFM_UPDATE_RECORD = 4, /* data as the record of a mode and a number */
    RFM_READ_RECORD = 5,   /* bytes of the record of a mode and a number */
    RFM_INCREASE = 6,      /* by the number that the data are */
    RFM_SEARCH = 7         /* for the data, from a record on */
};

/* Modes of the record operations, and the two ways of a search. */
enum rfm_mode {
    RFM_NO_MODE = 0, /* of every other kind */
    RFM_NEXT = 2,
    RFM_PREVIOUS = 3,
    RFM_ABSOLUTE = 4, /* the record of the number; 0 is the current one */
    RFM_FORWARD = 4,  /* from the record of the number to the last */
    RFM_BACKWARD = 5  /* from it to the first */
};

/* Refusals of a build, tested in this order, each for the whole list. */
enum rfm_refusal {
    RFM_BUILT = 0,
    RFM_NOT_1_TO_40 = 1,     /* not 1 to 40 operations, or no whole number of rows */
    RFM_NOT_CARRIED = 2,     /* an operation that the format cannot carry */
    RFM_SCRIPT_TOO_LONG = 3, /* above RFM_MOST_SCRIPT bytes */
    RFM_SMALL_SCRIPT = 4     /* script memory shorter than the script */
};

/* Writes an operation's row: kind and mode 0 to 255, the rest 0 to 65,535.
 *
 *   byte 0    kind: RFM_SELECT ..
 *   byte 1    record operations: RFM_NEXT, RFM_PREVIOUS or RFM_ABSOLUTE; search:
 *             RFM_FORWARD or RFM_BACKWARD; else 0
 *   2-3       update, read: offset; record operations, search: record number; else 0
 *   4-5       where its bytes begin in the data; 0 for the reads
 *   6-7       how many bytes, the path's for select; of a read how many are wanted, and
 *             0 means all
 *
 * Numbers are big-endian. */
static inline void rfm_operation(uint8_t *row, unsigned kind, unsigned mode, unsigned number,
                                 size_t from, size_t count)
{
    row[0] = RFM_CAST(uint8_t, kind);
    row[1] = RFM_CAST(uint8_t, mode);
    row[2] = RFM_CAST(uint8_t, number >> 8);
    row[3] = RFM_CAST(uint8_t, number & 0xFF);
    row[4] = RFM_CAST(uint8_t, from >> 8);
    row[5] = RFM_CAST(uint8_t, from & 0xFF);
    row[6] = RFM_CAST(uint8_t, count >> 8);
    row[7] = RFM_CAST(uint8_t, count & 0xFF);
}

/* Writes the script of a list, RFM_COMPACT or RFM_EXPANDED (a template AA): exactly the
 * list's commands, and no GET RESPONSE. So a compact search or increase answers 61xx and
 * hands out no data.
 *
 *   RFM_NUMBER  RFM_BUILT, or why it was not built
 *   RFM_COUNT   operations; with RFM_NOT_CARRIED the first that is not carried, from 1
 *   RFM_LENGTH  bytes of the script
 *
 * With another number every part that is not named here is 0, and no lent byte has
 * changed. Script memory behind the script is kept. Data may have 65,536 bytes or more.
 *
 * Not carried are, each with RFM_NOT_CARRIED:
 *
 *   - any operation, if the format is another one: then it is operation 1;
 *   - in compact a read that is not last;
 *   - an unknown kind or mode, and a byte that is to be 0 and is not: 1 to 3 of select and
 *     increase, 1 of update and read, 4-5 of both reads;
 *   - a path of other than 1 to 8 whole identifiers; data of other than 1 to 255 bytes;
 *     a path or data that do not lie inside `data`;
 *   - more than 255 bytes wanted; an offset above 7FFF; a record number above 255, or one
 *     beside RFM_NEXT or RFM_PREVIOUS. */
RFM_MUST_USE uint64_t rfm_build(uint8_t format, const uint8_t *operations, size_t operations_len,
                                const uint8_t *data, size_t data_len,
                                uint8_t *script, size_t script_len);

/* ---- Reading an answer ---- */

/* Numbers of a reading. */
enum rfm_reading {
    RFM_ANSWER_READ = 0,
    RFM_ANSWER_DAMAGED = 1, /* no run answers so */
    RFM_ANSWER_TOO_LONG = 2 /* more than RFM_MOST_ANSWER bytes: no run answers so much */
};

/* Why a command of an expanded script was no C-APDU: codes of a Bad format TLV. */
enum rfm_bad_format {
    RFM_OTHER_TAG = 1,
    RFM_BAD_LENGTH = 2, /* other length form, past the end, or below 4 */
    RFM_NO_LENGTH = 3   /* no length byte, or too few */
};

/* Reads an answer of the form of the script, RFM_COMPACT or RFM_EXPANDED, once from front
 * to back. rfm_form tells the form where the script was run with RFM_DETECT.
 *
 *   RFM_NUMBER  RFM_ANSWER_READ, or why it was not read
 *   RFM_COUNT   commands run, with the one that stopped the script; 0 with another number
 *   RFM_LENGTH  place of the first result; with RFM_ANSWER_DAMAGED of the first bad byte,
 *               from 0: the answer's length where bytes are missing; else 0
 *
 * A format other than RFM_COMPACT and RFM_EXPANDED has no good answer: it is damaged at 0.
 * A compact answer that was cut in its data is a good one, as it says nowhere how long it
 * is; and the reader is not lent the list, so it does not see that a count is larger. */
RFM_MUST_USE uint64_t rfm_read_answer(uint8_t format, const uint8_t *answer, size_t answer_len);

/* The parts of a result. */
#define RFM_WORD(result)        RFM_CAST(uint32_t, (result) & 0xFFFF)
#define RFM_DATA_LENGTH(result) RFM_CAST(uint32_t, (result) >> 16 & 0xFFFF)
#define RFM_DATA(result)        RFM_CAST(uint32_t, (result) >> 32)

/* The result at a place of an answer: the first stands at the place that rfm_read_answer
 * tells, the next at RFM_DATA + RFM_DATA_LENGTH + 2. Compact has one, at place 1; expanded
 * one for each R-APDU, at the place of its tag, and last one for a Bad format TLV.
 *
 *   RFM_WORD         status word; RFM_OTHER_TAG to RFM_NO_LENGTH for a Bad format TLV,
 *                    which is the last; 0 at the end of the results and behind it
 *   RFM_DATA_LENGTH  bytes of the data; 0 for a Bad format TLV
 *   RFM_DATA         place of the data, also where there are none; 0 for a Bad format TLV
 *
 * It judges the place alone: where no whole result stands there inside the answer, or more
 * than RFM_MOST_ANSWER bytes are lent, all is 0.
 *
 * In C++ this call hides rfm.h's type of the same name, which is `struct rfm_result` then. */
RFM_MUST_USE uint64_t rfm_result(uint8_t format, const uint8_t *answer, size_t answer_len,
                                 size_t place);

#ifdef __cplusplus
}
#endif

#endif
