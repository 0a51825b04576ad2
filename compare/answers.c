/* Which command gave which word: read from the script and its answer side by side. */
#include "compare.h"

/* Notes a compact answer's word with the command that gave it, which is the last one counted. */
static bool note_compact(const struct script *script, const uint8_t *response, uint32_t count)
{
    size_t place = 0;

    for (; count > 1 && place + HEADER_SIZE <= script->length; count--) {
        const uint8_t *header = script->at + place;
        place += HEADER_SIZE;
        switch (header[1]) {
        case SELECT:
        case UPDATE_BINARY:
        case UPDATE_RECORD:
        case SEARCH:
        case INCREASE:
            place += header[4];
            break;
        default:
            break;
        }
    }
    if (count != 1 || place >= script->length)
        return false;
    const uint8_t ins = place + 1 < script->length ? script->at[place + 1] : 0;
    return note_word(COMPACT, ins, number_at(response + 1));
}

/* Bytes that are read from front to back; a reading past the end makes it not fit. */
struct reader {
    const uint8_t *at;
    size_t left;
    bool fits;
};

/* The next bytes; zeros, at most four, where there are not so many. */
static const uint8_t *take(struct reader *reader, size_t length)
{
    static const uint8_t none[4];
    const uint8_t *at = reader->at;

    if (length > reader->left) {
        reader->fits = false;
        return none;
    }
    reader->at += length;
    reader->left -= length;
    return at;
}

/* Takes a length in any of the three forms. */
static size_t take_length(struct reader *reader)
{
    const uint8_t first = take(reader, 1)[0];

    if (first < 0x80)
        return first;
    if (first == 0x81)
        return take(reader, 1)[0];
    return number_at(take(reader, 2));
}

/* "C-APDU size 5 case 2, 6+Lc case 4 with Le 00". */
static bool is_case_2_or_4(const uint8_t *apdu, size_t size)
{
    return size == 5 || (size > 5 && size == 6u + apdu[4] && apdu[size - 1] == 0);
}

/* Notes the words of the R-APDUs, each with the command that gave it. AA leaves out those of case 1
 * and 3 and of a bad size before the last command. */
static bool note_r_apdus(enum style style, struct reader script, struct reader answer,
                         uint32_t count)
{
    for (; count > 0; count--) {
        const bool last = count == 1;
        if (last && answer.left > 0 && answer.at[0] == 0x90) {
            const uint8_t *bad_format = take(&answer, 3);
            return answer.fits && answer.left == 0 && bad_format[1] == 1 &&
                   note_bad_format(style, bad_format[2]);
        }
        take(&script, 1);
        const size_t size = take_length(&script);
        const uint8_t *apdu = take(&script, size);
        if (!script.fits || size < 4)
            return false;
        if (style == AA && !last && !is_case_2_or_4(apdu, size))
            continue;
        if (take(&answer, 1)[0] != 0x23)
            return false;
        const size_t length = take_length(&answer);
        const uint8_t *r_apdu = take(&answer, length);
        if (!answer.fits || length < 2 ||
            !note_word(style, apdu[1], number_at(r_apdu + length - 2)))
            return false;
    }
    return answer.left == 0;
}

/* Notes all words of an expanded answer. */
static bool note_expanded(enum style style, const struct script *script, const uint8_t *response,
                          size_t length, uint32_t count)
{
    struct reader commands = {script->at, script->length, true}, answer = {response, length, true};

    take(&commands, 1);
    take(&answer, 1);
    if (style == AA) {
        take_length(&commands);
        take_length(&answer);
        take(&answer, 1);
        take(&answer, take_length(&answer));
    } else {
        take(&commands, 1);
        take(&answer, 1);
        if (answer.left < 2)
            return false;
        commands.left -= 2;
        answer.left -= 2;
    }
    return answer.fits && note_r_apdus(style, commands, answer, count);
}

/* Notes what a call's answer shows; false if no answer of the paper can look so. */
bool note_answer(const struct call *call, const struct answer *answer)
{
    const unsigned number = RFM_NUMBER(answer->result);
    const uint32_t count = RFM_COUNT(answer->result), length = RFM_LENGTH(answer->result);

    if (call->kind == RUN)
        note_application(call->application);
    if (!note_number(call, number))
        return false;
    if (call->kind == RUN && call->format == RFM_DETECT &&
        (number == RFM_DONE || number == RFM_NO_TEMPLATE))
        note_first_byte(call->script.at[0]);
    if (call->kind != RUN || number != RFM_DONE)
        return length == 0 && count == 0;
    if (length > call->response_length)
        return false;
    const enum style style = style_found(call);
    note_count(style, count);
    if (style == COMPACT)
        return note_compact(&call->script, answer->response, count);
    return note_expanded(style, &call->script, answer->response, length, count);
}
