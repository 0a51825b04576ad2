/* Single commands: right ones for the current file, and flawed ones. */
#include "scripts.h"

#include <string.h>

/* Draws data bytes, all the same but for the last. */
static void draw_data(struct command *command)
{
    memset(command->data, telling_byte(), command->p3);
    if (command->p3 > 0)
        command->data[command->p3 - 1] = telling_byte();
}

/* Puts an offset into P1 and P2. */
static void set_offset(struct command *command, size_t offset)
{
    command->p1 = (uint8_t)(offset >> 8);
    command->p2 = (uint8_t)offset;
}

/* READ and UPDATE BINARY inside a file of this length; reading may ask for more than is left. */
static void draw_binary(struct command *command, size_t length)
{
    const size_t offset = between(0, length - 1), left = length - offset;

    set_offset(command, offset);
    if (command->ins == READ_BINARY) {
        command->p3 = (uint8_t)(one_in(3) ? 0 : between(1, smaller(left + 1, 255)));
    } else {
        command->p3 = (uint8_t)(one_in(4) ? between(1, smaller(left, 255))
                                          : 1 + below((uint32_t)smaller(left, 8)));
        draw_data(command);
    }
}

/* READ, UPDATE and SEARCH RECORD and INCREASE on a record file. */
static void draw_record(struct command *command, const struct card *card, const uint8_t *entry)
{
    const size_t record_length = entry[AT_RECORD_LENGTH], length = number_at(entry + AT_LENGTH);
    const size_t first = one_in(3) ? 0 : 1, last = record_count(entry);

    switch (command->ins) {
    case READ_RECORD:
    case UPDATE_RECORD:
        command->p2 = (uint8_t)(NEXT + below(3));
        if (command->ins == UPDATE_RECORD && entry[AT_KIND] == CYCLIC && !one_in(8))
            command->p2 = PREVIOUS;
        if (command->p2 == ABSOLUTE)
            command->p1 = (uint8_t)between(first, last);
        command->p3 = (uint8_t)record_length;
        if (command->ins == READ_RECORD && one_in(2))
            command->p3 = 0;
        draw_data(command);
        break;
    case SEARCH:
        command->p1 = (uint8_t)between(first, last);
        command->p2 = (uint8_t)(one_in(2) ? FORWARD : BACKWARD);
        command->p3 = (uint8_t)(one_in(4) ? record_length : smaller(record_length, 1 + below(2)));
        draw_data(command);
        if (!one_in(4)) { /* what the file holds */
            const size_t start = number_at(entry + AT_START);
            const size_t offset = below((uint32_t)(length - command->p3) + 1);
            memcpy(command->data, card->files.at + start + offset, command->p3);
        }
        break;
    default: /* INCREASE */
        command->p3 = (uint8_t)between(1, record_length);
        memset(command->data, one_in(4) ? 0xFF : 0x00, command->p3);
        command->data[command->p3 - 1] = telling_byte();
        break;
    }
}

/* Draws a right command for an entry; where the instruction does not go with it, one that is
 * right in form. SELECT mostly finds the entry again. */
void draw_command(struct command *command, uint8_t ins, const struct card *card, size_t number)
{
    const uint8_t *entry = entry_of(card, number);

    *command = (struct command){.cla = ins == INCREASE ? 0x80 : 0x00, .ins = ins};
    switch (ins) {
    case SELECT:
        command->p2 = one_in(2) ? WITH_FCP : NO_DATA;
        command->p3 = 2;
        memcpy(command->data, one_in(4) ? entry_of(card, some_entry(card, DF)) : entry, 2);
        break;
    case READ_BINARY:
    case UPDATE_BINARY:
        draw_binary(command, entry[AT_KIND] == TRANSPARENT ? number_at(entry + AT_LENGTH) : 20);
        break;
    case READ_RECORD:
    case UPDATE_RECORD:
    case SEARCH:
    case INCREASE: {
        static const uint8_t any[ENTRY_SIZE] = {
            [AT_KIND] = LINEAR, [AT_LENGTH + 1] = 4, [AT_RECORD_LENGTH] = 4};
        const bool records = entry[AT_KIND] == LINEAR || entry[AT_KIND] == CYCLIC;
        draw_record(command, card, records ? entry : any);
        break;
    }
    case GET_RESPONSE:
        command->p3 = (uint8_t)(one_in(2) ? 0 : between(1, 24));
        break;
    case DEACTIVATE:
    case ACTIVATE:
        break;
    default:
        command->p3 = (uint8_t)below(8);
        break;
    }
    command->form = needed_form(command);
}

/* "04, 44 need 1; B0, B2, C0 2; SELECT 0C, D6, DC 3; the rest 4." */
unsigned needed_form(const struct command *command)
{
    switch (command->ins) {
    case DEACTIVATE:
    case ACTIVATE:
        return 1;
    case READ_BINARY:
    case READ_RECORD:
    case GET_RESPONSE:
        return 2;
    case UPDATE_BINARY:
    case UPDATE_RECORD:
        return 3;
    case SELECT:
        return command->p2 == NO_DATA ? 3 : 4;
    default:
        return 4;
    }
}

/* Moves an offset to the file's end or behind it, or names a record that is not there. */
static void misplace(struct command *command, const uint8_t *entry)
{
    const size_t length = number_at(entry + AT_LENGTH);

    if (command->ins == READ_BINARY || command->ins == UPDATE_BINARY) {
        set_offset(command, one_in(4) ? 0x7FFF : length + below(2));
    } else {
        command->p1 = (uint8_t)(one_in(3) ? telling_byte() : record_count(entry) + 1);
        if (command->ins != SEARCH)
            command->p2 = ABSOLUTE;
    }
}

/* Flaws a command in what it says; how it is written out is flawed by the script. */
void flaw_command(struct command *command, enum flaw flaw, const uint8_t *entry)
{
    switch (flaw) {
    case CLASS:
        command->cla = one_in(2) ? command->cla ^ 0x80 : (uint8_t)(command->cla + 1 + below(255));
        break;
    case INSTRUCTION:
        command->ins = telling_byte();
        break;
    case P1P2:
        if (one_in(2))
            command->p1 |= (uint8_t)between(0x80, 0xFF);
        if (!one_in(3))
            command->p2 = one_in(3) ? (uint8_t)(command->p2 + between(0, 2) - 1) : telling_byte();
        break;
    case PLACE:
        misplace(command, entry);
        break;
    case LENGTH:
        if (one_in(3))
            command->p3 = one_in(2) ? 0 : telling_byte();
        else
            command->p3 = (uint8_t)(command->p3 + between(0, 2) - 1);
        break;
    case FORM:
        command->form = 1 + below(4);
        break;
    default:
        break;
    }
}
