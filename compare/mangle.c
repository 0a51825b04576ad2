/* Answers that are damaged, and whole ones that no card gave. */
#include "lists.h"

#include <string.h>

#include "scripts.h"

/* A byte that means something in an answer, or any. */
static uint8_t answer_byte(void)
{
    static const uint8_t telling[] = {0x00, 0x01, 0x02, 0x03, 0x04, 0x23, 0x61, 0x62, 0x69, 0x6F,
                                      0x7F, 0x80, 0x81, 0x82, 0x83, 0x90, 0xAB, 0xAF, 0xFF};

    return one_in(4) ? (uint8_t)below(256) : telling[below(sizeof telling)];
}

/* A status word, one that goes on more often. */
static unsigned some_word(void)
{
    static const uint16_t words[] = {0x6581, 0x6700, 0x6981, 0x6982, 0x6984, 0x6985, 0x6986, 0x6A82,
                                     0x6A83, 0x6A86, 0x6B00, 0x6D00, 0x6E00, 0x6F00, 0x9850};
    static const uint16_t going_on[] = {0x9000, 0x9000, 0x9000, 0x6282, 0x6283};

    if (one_in(8))
        return words[below(sizeof words / sizeof words[0])];
    return going_on[below(sizeof going_on / sizeof going_on[0])];
}

/* Adds bytes, all the same. */
static void add_same(struct reply *reply, uint8_t byte, size_t count)
{
    memset(reply->at + reply->length, byte, count);
    reply->length += count;
}

/* Adds a number of two bytes. */
static void add_number(struct reply *reply, size_t number)
{
    put_number(reply->at + reply->length, number);
    reply->length += 2;
}

/* Adds an R-APDU with a word and data, mostly few. */
static void add_r_apdu(struct reply *reply)
{
    const size_t data = one_in(2) ? 0 : one_in(5) ? between(120, 260) : 1 + below(6);

    add_same(reply, 0x23, 1);
    reply->length += put_length(reply->at + reply->length, data + 2);
    add_same(reply, answer_byte(), data);
    add_number(reply, some_word());
}

/* Adds a Bad format TLV now and then, mostly with a code that there is. */
static void add_bad_format(struct reply *reply)
{
    if (!one_in(4))
        return;
    add_same(reply, 0x90, 1);
    add_same(reply, 1, 1);
    add_same(reply, (uint8_t)below(5), 1);
}

/* Puts AB's tag and length before a value. */
static void wrap_ab(struct reply *reply, const struct reply *value)
{
    reply->at[0] = 0xAB;
    reply->length = 1 + put_length(reply->at + 1, value->length);
    memcpy(reply->at + reply->length, value->at, value->length);
    reply->length += value->length;
}

/* Draws the value of AB: a count of one byte or two, and at most so many results. */
static void draw_ab(struct reply *reply)
{
    static struct reply value;
    const size_t results = below(4), count = one_in(3) ? results : results + between(0, 300);

    value.length = 0;
    add_same(&value, 0x80, 1);
    if (one_in(4) || count > 0x7F) {
        add_same(&value, 2, 1);
        add_number(&value, count);
    } else {
        add_same(&value, 1, 1);
        add_same(&value, (uint8_t)count, 1);
    }
    for (size_t i = 0; i < results; i++)
        add_r_apdu(&value);
    add_bad_format(&value);
    wrap_ab(reply, &value);
}

/* Draws AF with some results. */
static void draw_af(struct reply *reply)
{
    add_same(reply, 0xAF, 1);
    add_same(reply, 0x80, 1);
    for (uint32_t results = below(4); results > 0; results--)
        add_r_apdu(reply);
    add_bad_format(reply);
    add_same(reply, 0, 2);
}

/* Draws an answer of a form, mostly a good one. */
void draw_reply(struct reply *reply, uint8_t format)
{
    reply->length = 0;
    if (format != RFM_COMPACT && one_in(2)) {
        draw_ab(reply);
    } else if (format != RFM_COMPACT) {
        draw_af(reply);
    } else {
        add_same(reply, answer_byte(), 1);
        add_number(reply, one_in(4) ? 0x6100 + below(4) : some_word());
        add_same(reply, answer_byte(), one_in(3) ? between(254, 259) : below(3));
    }
}

/* Swaps two results that stand side by side. */
static void swap_results(struct reply *reply, const struct reading *good)
{
    uint8_t first[sizeof reply->at];
    const size_t at = below((uint32_t)good->results - 2), from = good->places[at];
    const size_t middle = good->places[at + 1], end = good->places[at + 2];

    memcpy(first, reply->at + from, middle - from);
    memmove(reply->at + from, reply->at + middle, end - middle);
    memcpy(reply->at + from + end - middle, first, middle - from);
}

/* A place in an answer, often near the beginning, the end, or where a result begins. */
static size_t some_place(const struct reply *reply, const struct reading *good)
{
    const size_t last = reply->length - 1;

    switch (below(good == NULL ? 4 : 5)) {
    case 0:
        return smaller(last, below(12));
    case 1:
        return last - smaller(last, below(4));
    case 4: {
        const size_t result = good->places[below((uint32_t)good->results)];
        return smaller(last, result + below(4));
    }
    default:
        return between(0, last);
    }
}

/* Changes a bit or a byte, cuts the end or all behind a changed byte, or adds a byte. */
static void change(struct reply *reply, const struct reading *good)
{
    const size_t place = some_place(reply, good);

    switch (below(7)) {
    case 0:
        reply->at[place] ^= (uint8_t)(1u << below(8));
        break;
    case 1:
        reply->length = place;
        break;
    case 2:
        memmove(reply->at + place + 1, reply->at + place, reply->length - place);
        reply->at[place] = answer_byte();
        reply->length++;
        break;
    case 3:
        reply->at[reply->length++] = answer_byte();
        break;
    case 4:
        reply->at[place] = answer_byte();
        reply->length = place + 1;
        break;
    default:
        reply->at[place] = answer_byte();
        break;
    }
}

/* Changes the value of AB and gives it its own length again. */
static void change_value(struct reply *reply)
{
    static struct reply value;
    const size_t head = reply->at[1] < 0x80 ? 2 : reply->at[1] - 0x7Eu;

    if (reply->length <= head)
        return;
    value.length = reply->length - head;
    memcpy(value.at, reply->at + head, value.length);
    change(&value, NULL);
    wrap_ab(reply, &value);
}

/* Damages an answer in one place. What is read in it, if it is good, tells where its results are;
 * NULL if it is not. */
void mangle(struct reply *reply, uint8_t format, const struct reading *good)
{
    if (reply->length == 0)
        return;
    if (format == RFM_EXPANDED && good != NULL && good->results > 2 && one_in(6))
        swap_results(reply, good);
    else if (format == RFM_EXPANDED && reply->at[0] == 0xAB && reply->length > 2 && one_in(2))
        change_value(reply);
    else
        change(reply, good);
}
