/* Tells from a script the operations of which it was built. */
#include "lists.h"

#include <string.h>

#include "scripts.h"

/* The row that a command tells, but for where its bytes begin; false if it is of no operation. */
static bool row_of(const uint8_t *header, uint8_t *row)
{
    static const uint8_t instructions[] = {
        [RFM_SELECT] = SELECT, [RFM_UPDATE] = UPDATE_BINARY, [RFM_READ] = READ_BINARY,
        [RFM_UPDATE_RECORD] = UPDATE_RECORD, [RFM_READ_RECORD] = READ_RECORD,
        [RFM_INCREASE] = INCREASE, [RFM_SEARCH] = SEARCH};
    unsigned kind = RFM_SELECT;

    while (kind <= RFM_SEARCH && instructions[kind] != header[1])
        kind++;
    switch (kind) {
    case RFM_SELECT:
        rfm_operation(row, kind, RFM_NO_MODE, 0, 0, header[4]);
        return header[0] == 0x00 && header[2] == PATH_FROM_ROOT && header[3] == NO_DATA;
    case RFM_UPDATE_RECORD:
    case RFM_READ_RECORD:
    case RFM_SEARCH:
        rfm_operation(row, kind, header[3], header[2], 0, header[4]);
        return header[0] == 0x00;
    default:
        rfm_operation(row, kind, RFM_NO_MODE, number_at(header + 2), 0, header[4]);
        return kind <= RFM_SEARCH && header[0] == (kind == RFM_INCREASE ? 0x80 : 0x00);
    }
}

/* Whether a command is the operation of a row, and its bytes are those of the data. */
static bool tells_operation(const uint8_t *command, size_t bytes, const uint8_t *row,
                            const uint8_t *data)
{
    uint8_t told[RFM_OPERATION_SIZE];

    return row_of(command, told) && memcmp(told, row, 4) == 0 &&
           number_at(told + 6) == number_at(row + 6) &&
           memcmp(command + HEADER_SIZE, data + number_at(row + 4), bytes) == 0;
}

/* Whether a built script says exactly its list: command by command, each as a C-APDU of AA with Le
 * behind increase and search if it is expanded, and nothing behind them. */
bool tells_list(const struct script *script, uint8_t format, const struct list *list)
{
    static struct call call;
    static struct script value;
    const bool expanded = format == RFM_EXPANDED;
    size_t place = 0;

    call.format = format;
    call.script = *script;
    if (unwrap(&call, &value) != (expanded ? AA : COMPACT))
        return false;
    for (size_t at = 0; at < list->operations_length; at += RFM_OPERATION_SIZE) {
        const uint8_t *row = list->operations + at;
        const bool reads = row[0] == RFM_READ || row[0] == RFM_READ_RECORD;
        const bool le = expanded && (row[0] == RFM_INCREASE || row[0] == RFM_SEARCH);
        const size_t bytes = reads ? 0 : number_at(row + 6), size = HEADER_SIZE + bytes + le;
        uint8_t head[4] = {0x22};
        const size_t head_size = expanded ? 1 + put_length(head + 1, size) : 0;
        if (place + head_size + size > value.length ||
            memcmp(value.at + place, head, head_size) != 0)
            return false;
        place += head_size;
        if (!tells_operation(value.at + place, bytes, row, list->data) ||
            (le && value.at[place + size - 1] != 0x00))
            return false;
        place += size;
    }
    return place == value.length;
}
