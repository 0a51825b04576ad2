/* The desk's rows of the measure. What is declared in desk.h has its comment there. */
#include "desk.h"

#include <string.h>

const struct desk_row desk_rows[DESK_ROWS] = {
    {"1 operation of 20 bytes built, compact", BUILD, RFM_COMPACT, 1, 20, NO_ANSWER},
    {"40 operations of 20 bytes built, compact", BUILD, RFM_COMPACT, 40, 20, NO_ANSWER},
    {"40 operations of 18 bytes built, expanded", BUILD, RFM_EXPANDED, 40, 18, NO_ANSWER},
    {"40 operations of 255 bytes, refused with 3", BUILD, RFM_EXPANDED, 40, 255, NO_ANSWER},
    {"compact answer with 256 bytes of data read", READ, RFM_COMPACT, 1, 256, COMPACT_DATA},
    {"AB of 1,000 bytes read, 248 R-APDUs", READ, RFM_EXPANDED, 248, 0, IN_AB},
    {"AF of 1,000 bytes read, 249 R-APDUs", READ, RFM_EXPANDED, 249, 0, IN_AF},
    {"all results of the AB, one by one", RESULTS, RFM_EXPANDED, 248, 0, IN_AB}};

/* Makes a list of updates at offsets, all with the same data. */
static void make_updates(const struct desk_row *row, struct desk_lent *lent)
{
    for (size_t i = 0; i < row->count; i++)
        rfm_operation(lent->operations + i * RFM_OPERATION_SIZE, RFM_UPDATE, RFM_NO_MODE,
                      (unsigned)(i * row->bytes), 0, row->bytes);
    memset(lent->data, 0x5A, sizeof lent->data);
}

/* Makes the answer of a row. AB has its length, and a count from 128 on, in two bytes more. */
static void make_reply(const struct desk_row *row, struct desk_lent *lent)
{
    static const uint8_t af[] = {0xAF, 0x80}, compact[] = {0x01, 0x90, 0x00};
    static const uint8_t r_apdu[] = {0x23, 0x02, 0x90, 0x00};
    const size_t value = 4 + row->count * sizeof r_apdu;
    const uint8_t ab[] = {0xAB, 0x82, (uint8_t)(value >> 8), (uint8_t)value,
                          0x80, 0x02, (uint8_t)(row->count >> 8), (uint8_t)row->count};
    uint8_t *at = lent->reply;

    if (row->filling == COMPACT_DATA) {
        memcpy(at, compact, sizeof compact);
        lent->reply_length = sizeof compact + row->bytes;
        return;
    }
    memcpy(at, row->filling == IN_AB ? ab : af, row->filling == IN_AB ? sizeof ab : sizeof af);
    at += row->filling == IN_AB ? sizeof ab : sizeof af;
    for (size_t i = 0; i < row->count; i++, at += sizeof r_apdu)
        memcpy(at, r_apdu, sizeof r_apdu);
    lent->reply_length = (size_t)(at - lent->reply) + (row->filling == IN_AF ? 2 : 0);
}

void lend_desk(const struct desk_row *row, struct desk_lent *lent)
{
    if (row->kind == BUILD)
        make_updates(row, lent);
    else
        make_reply(row, lent);
}

/* Goes from result to result; answers how many there are, as a call answers its count. */
static uint64_t count_results(uint8_t format, const struct program *side,
                              const struct desk_lent *lent)
{
    uint64_t results = 0, result, place = 8; /* behind AB's count */

    for (;; results++) {
        result = side->result(format, lent->reply, lent->reply_length, place);
        if (result == 0)
            return results << 8;
        place = RFM_DATA(result) + RFM_DATA_LENGTH(result) + 2;
    }
}

void make_desk_call(const struct desk_row *row, const struct program *side, struct desk_lent *lent)
{
    if (row->kind == BUILD)
        lent->result = side->build(row->format, lent->operations, row->count * RFM_OPERATION_SIZE,
                                   lent->data, sizeof lent->data, lent->script,
                                   sizeof lent->script);
    else if (row->kind == READ)
        lent->result = side->read_answer(row->format, lent->reply, lent->reply_length);
    else
        lent->result = count_results(row->format, side, lent);
}
