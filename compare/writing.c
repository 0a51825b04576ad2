/* How commands, lengths and templates are written out. */
#include "scripts.h"

#include <string.h>

/* Adds bytes as far as the script may grow. */
void add(struct maker *maker, const uint8_t *bytes, size_t length)
{
    length = smaller(length, maker->most - maker->value.length);
    memcpy(maker->value.at + maker->value.length, bytes, length);
    maker->value.length += length;
}

/* Writes a length in shortest form; answers its size. */
size_t put_length(uint8_t *at, size_t length)
{
    if (length < 0x80) {
        at[0] = (uint8_t)length;
        return 1;
    }
    if (length < 0x100) {
        at[0] = 0x81;
        at[1] = (uint8_t)length;
        return 2;
    }
    at[0] = 0x82;
    put_number(at + 1, length);
    return 3;
}

/* Adds a C-APDU as a TLV, right or with another tag, another length form or a wrong length. */
static void add_tlv(struct maker *maker, const uint8_t *apdu, size_t size, bool flawed)
{
    uint8_t head[4] = {one_in(2) ? 0x22 : 0xA2};
    size_t head_size = 1 + put_length(head + 1, size);

    if (flawed) {
        switch (below(6)) {
        case 0:
            head[0] = telling_byte();
            break;
        case 1: /* not the shortest form */
            head[1] = one_in(2) ? 0x81 : 0x82;
            head[2] = 0;
            head[head[1] - 0x7F] = (uint8_t)size;
            head_size = head[1] - 0x7Eu;
            break;
        case 2: /* an unknown form, or 81 or 82 with too few bytes or no value after it */
            head[1] = (uint8_t)(0x80 + below(5));
            head_size = 2 + below(3);
            size = one_in(2) ? size : 0;
            break;
        case 3: /* below 4 */
            size = below(4);
            head[1] = (uint8_t)size;
            head_size = 2;
            break;
        case 4: /* past the end, or into the next command */
            head[head_size - 1] = (uint8_t)(head[head_size - 1] + 1);
            break;
        default: /* no length byte */
            head_size = 1;
            size = 0;
            break;
        }
    }
    add(maker, head, head_size);
    add(maker, apdu, size);
}

/* Writes a command out in the maker's style. */
void add_command(struct maker *maker, const struct command *command, enum flaw flaw)
{
    uint8_t apdu[HEADER_SIZE + sizeof command->data + 2] = {
        command->cla, command->ins, command->p1, command->p2, command->p3};
    size_t size = maker->style != COMPACT && command->form == 1 ? 4 : HEADER_SIZE;

    if (command->form >= 3) {
        memcpy(apdu + size, command->data, command->p3);
        size += command->p3;
    }
    if (maker->style != COMPACT && command->form == 4)
        apdu[size++] = 0;
    if (flaw == SIZE && one_in(3))
        apdu[size - 1] = telling_byte();
    else if (flaw == SIZE)
        size = one_in(3) ? size + 1 : size - 1 - below((uint32_t)smaller(size - 1, 3));
    if (maker->style == COMPACT)
        add(maker, apdu, size);
    else
        add_tlv(maker, apdu, size, flaw == TLV);
    if (command->ins == DEACTIVATE || command->ins == ACTIVATE)
        maker->deactivated = command->ins == DEACTIVATE;
    maker->waits = maker->style == COMPACT && command->form == 4;
}

/* Puts a value into the template of its style. */
void wrap(struct script *script, enum style style, const struct script *value)
{
    uint8_t *at = script->at;

    if (style == AA) {
        *at++ = 0xAA;
        at += put_length(at, value->length);
    } else if (style == AE) {
        *at++ = 0xAE;
        *at++ = 0x80;
    }
    memcpy(at, value->at, value->length);
    at += value->length;
    if (style == AE) {
        *at++ = 0x00;
        *at++ = 0x00;
    }
    script->length = (size_t)(at - script->at);
}

/* The number of a style's own format. */
uint8_t own_format(enum style style) { return style == COMPACT ? RFM_COMPACT : RFM_EXPANDED; }

/* The style in which a run reads its script: compact with format 0, else what the first byte shows.
 * With format 1 a script that shows neither template is refused. */
enum style style_found(const struct call *call)
{
    const struct script *script = &call->script;

    if (call->format == RFM_COMPACT || script->length == 0)
        return COMPACT;
    return script->at[0] == 0xAA ? AA : script->at[0] == 0xAE ? AE : COMPACT;
}

/* Takes the value of a run's script out of its template; what is none is taken as compact. */
enum style unwrap(const struct call *call, struct script *value)
{
    static const struct {
        enum style style;
        size_t head, tail;
    } forms[] = {{AE, 2, 2}, {AA, 2, 0}, {AA, 3, 0}, {AA, 4, 0}};
    const struct script *script = &call->script;
    const bool wrapped = style_found(call) != COMPACT;
    struct script again;

    for (size_t i = 0; i < sizeof forms / sizeof forms[0] && wrapped; i++) {
        if (script->length < forms[i].head + forms[i].tail)
            continue;
        value->length = script->length - forms[i].head - forms[i].tail;
        memcpy(value->at, script->at + forms[i].head, value->length);
        wrap(&again, forms[i].style, value);
        if (again.length == script->length && memcmp(again.at, script->at, again.length) == 0)
            return forms[i].style;
    }
    *value = *script;
    return COMPACT;
}

/* Changes, drops or adds a byte, often at an end, or cuts the end. */
void mutate(struct script *script)
{
    if (script->length == 0)
        return;
    const size_t last = script->length - 1, place = one_in(4) ? smaller(1, last) : between(0, last);
    switch (below(5)) {
    case 0:
        memmove(script->at + place, script->at + place + 1, script->length - place - 1);
        script->length--;
        break;
    case 1:
        memmove(script->at + place + 1, script->at + place, script->length - place);
        script->length++;
        script->at[place] = telling_byte();
        break;
    case 2:
        script->length = one_in(3) ? 0 : place;
        break;
    default:
        script->at[place] = telling_byte();
        break;
    }
}
