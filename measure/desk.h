/* The desk's rows of the measure: what each call is lent, and the call. */
#ifndef MEASURE_DESK_H
#define MEASURE_DESK_H

#include "compare.h"

/* A call at the desk: a build, a reading, or all results of an answer, one by one. */
enum desk_kind { BUILD, READ, RESULTS };

/* What the answer that is read is made of: R-APDUs in AB or AF without data, or compact data. */
enum filling { NO_ANSWER, IN_AB, IN_AF, COMPACT_DATA };

struct desk_row {
    const char *name;
    enum desk_kind kind;
    uint8_t format;
    size_t count, bytes; /* operations, and the data of each; or R-APDUs, or one and its data */
    enum filling filling;
};

/* All that such a call is lent, and what it answers. */
struct desk_lent {
    uint8_t operations[RFM_MOST_OPERATIONS * RFM_OPERATION_SIZE], data[255];
    uint8_t script[RFM_MOST_SCRIPT], reply[RFM_LEAST_RESPONSE];
    size_t reply_length;
    uint64_t result;
};

enum { DESK_ROWS = 8 };
extern const struct desk_row desk_rows[DESK_ROWS];

/* Makes all that a row's call is lent; it was zero before. */
void lend_desk(const struct desk_row *row, struct desk_lent *lent);

/* Makes a row's call by one of the two programs. */
void make_desk_call(const struct desk_row *row, const struct program *side, struct desk_lent *lent);

#endif
