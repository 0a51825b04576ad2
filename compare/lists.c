/* Lists of operations: right ones for a card, others with each field at and beyond its limits. */
#include "lists.h"

#include <string.h>

#include "scripts.h"

/* Adds an operation, with its bytes behind the data so far; one that reads has none. */
static void add_operation(struct list *list, unsigned kind, unsigned mode, unsigned number,
                          const uint8_t *bytes, size_t count)
{
    rfm_operation(list->operations + list->operations_length, kind, mode, number,
                  bytes == NULL ? 0 : list->data_length, count);
    list->operations_length += RFM_OPERATION_SIZE;
    if (bytes != NULL) {
        memcpy(list->data + list->data_length, bytes, count);
        list->data_length += count;
    }
}

/* Adds the operation of a command. */
static void add_command_of(struct list *list, const struct command *command)
{
    const unsigned offset = command->p1 * 256u + command->p2;

    switch (command->ins) {
    case UPDATE_BINARY:
        add_operation(list, RFM_UPDATE, RFM_NO_MODE, offset, command->data, command->p3);
        break;
    case READ_BINARY:
        add_operation(list, RFM_READ, RFM_NO_MODE, offset, NULL, command->p3);
        break;
    case UPDATE_RECORD:
        add_operation(list, RFM_UPDATE_RECORD, command->p2, command->p1, command->data,
                      command->p3);
        break;
    case READ_RECORD:
        add_operation(list, RFM_READ_RECORD, command->p2, command->p1, NULL, command->p3);
        break;
    case INCREASE:
        add_operation(list, RFM_INCREASE, RFM_NO_MODE, 0, command->data, command->p3);
        break;
    default:
        add_operation(list, RFM_SEARCH, command->p2, command->p1, command->data, command->p3);
        break;
    }
}

/* An instruction for an entry, mostly one of its kind, that reads or not. */
static uint8_t some_instruction(const uint8_t *entry, bool reads)
{
    enum { WRITING = 4 };
    static const uint8_t reading[] = {READ_BINARY, READ_RECORD};
    static const uint8_t writing[WRITING] = {UPDATE_BINARY, UPDATE_RECORD, SEARCH, INCREASE};
    static const struct {
        uint8_t first, choices;
    } of_kind[] = {[TRANSPARENT] = {0, 1}, [LINEAR] = {1, 2}, [CYCLIC] = {1, 3}};
    uint32_t drawn = below(WRITING);

    if (!is_directory(entry) && !one_in(8))
        drawn = of_kind[entry[AT_KIND]].first + below(of_kind[entry[AT_KIND]].choices);
    return reads ? reading[drawn > 0] : writing[drawn];
}

/* Adds operations that a card may take: a file is selected, then used; the last one may read, in
 * expanded others too. */
static void add_fitting(struct list *list, const struct card *card, size_t root, uint8_t format,
                        size_t most)
{
    const struct maker maker = {.card = card, .root = root};
    const size_t target = some_target(&maker);
    uint8_t path[2 * MOST_ENTRIES] = {0};
    size_t length = path_to(card, root, target, path);
    struct command command;

    if (length == 0 || one_in(16))
        length = 2 * between(1, 8); /* whatever stands there */
    add_operation(list, RFM_SELECT, RFM_NO_MODE, 0, path, smaller(length, 16));
    for (size_t left = between(0, most); left > 0; left--) {
        const bool reads = format == RFM_COMPACT ? left == 1 && one_in(2) : one_in(3);
        const uint8_t ins = some_instruction(entry_of(card, target), reads);
        draw_command(&command, ins, card, target);
        add_command_of(list, &command);
    }
}

/* The bytes of an update of so few bytes in a script. */
static size_t update_size(uint8_t format, size_t count)
{
    return HEADER_SIZE + count + (format == RFM_COMPACT ? 0 : 2);
}

/* Adds updates until the script has so many bytes, its template's head of four counted. */
static void fill_script(struct list *list, uint8_t format, size_t length)
{
    enum { FEW = 50 };
    uint8_t bytes[3 * FEW];
    size_t left = format == RFM_COMPACT ? length : length - 4;

    list->meant = length;
    memset(bytes, telling_byte(), sizeof bytes);
    while (left > 0) {
        const bool last = left < 2 * update_size(format, FEW);
        const size_t count = last ? left - update_size(format, 0) : FEW;
        add_operation(list, RFM_UPDATE, RFM_NO_MODE, below(300), bytes, count);
        left -= update_size(format, count);
    }
}

/* Adds so many short operations. */
static void add_many(struct list *list, size_t operations)
{
    static const uint8_t byte[] = {0x5A};

    for (; operations > 0; operations--)
        add_operation(list, RFM_UPDATE, RFM_NO_MODE, below(8), byte, sizeof byte);
}

/* Sets a field of a row to one of its limits, or beyond it. */
static void push_field(struct list *list)
{
    static const uint16_t numbers[] = {0, 1, 255, 256, 0x7FFF, 0x8000, 0xFFFF};
    static const uint16_t counts[] = {0, 1, 2, 3, 16, 17, 18, 255, 256, 0xFFFF};
    const size_t rows = list->operations_length / RFM_OPERATION_SIZE;
    uint8_t *row = list->operations + below((uint32_t)rows) * RFM_OPERATION_SIZE;
    const size_t count = number_at(row + 6);

    switch (below(6)) {
    case 0:
        row[0] = (uint8_t)(one_in(8) ? 255 : below(9));
        break;
    case 1:
        row[1] = (uint8_t)(one_in(8) ? 255 : below(7));
        break;
    case 2:
        put_number(row + 2, numbers[below(sizeof numbers / sizeof numbers[0])]);
        break;
    case 3: /* where the bytes begin: at the data's end, or one byte past it */
        put_number(row + 4, one_in(4) ? below(2) : list->data_length - count + below(2));
        break;
    default:
        put_number(row + 6, counts[below(sizeof counts / sizeof counts[0])]);
        if (one_in(2) && list->data_length < MOST_SCRIPT) {
            put_number(row + 4, 0);
            list->data_length += 256;
        }
        break;
    }
}

/* Gives the rows another length, or none. */
static void misfit(struct list *list)
{
    const size_t bytes = between(1, 7);

    if (one_in(3))
        list->operations_length = 0;
    else if (one_in(2))
        list->operations_length += bytes;
    else
        list->operations_length -= bytes;
}

/* Makes a list for a card and an application's root, right or not, to be built in a format. */
void make_list(struct list *list, const struct card *card, size_t root, uint8_t format)
{
    const uint32_t sort = below(16);

    list->operations_length = list->meant = 0;
    list->data_length = one_in(40) ? 0x10000 - below(64) : one_in(4) ? below(20) : 0;
    if (sort == 0)
        fill_script(list, format, MOST_SCRIPT - 1 + below(3));
    else if (sort == 1)
        add_many(list, one_in(2) ? 40 + below(2) : 1 + below(40));
    else if (sort == 2)
        add_operation(list, RFM_READ, RFM_NO_MODE, below(8), NULL, 0);
    else
        add_fitting(list, card, root, format, one_in(4) ? 30 : 5);
    if (sort >= 11)
        push_field(list);
    if (sort >= 14)
        push_field(list);
    if (list->meant != 0 && one_in(8))
        push_field(list);
    if (one_in(30))
        misfit(list);
}
