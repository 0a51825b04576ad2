/* The desk: lists built by the library and by the second program, what was built run by both, and
 * answers read by both, as they came and damaged. */
#include "lists.h"

#include <string.h>

/* The last call. */
static struct desk_call last;

const struct desk_call *last_desk_call(void) { return &last; }

/* On which side of a memory of the last call its page is. */
static enum side side_of(enum lent_memory memory)
{
    return last.pages >> memory & 1 ? BEHIND : BEFORE;
}

/* ---- Building ---- */

/* A build to be made: by which program, with which memories. */
struct building {
    const struct program *program;
    struct part operations, data, script;
    uint64_t result;
};

/* Makes the build. */
static void call_build(void *context)
{
    struct building *const of = context;

    of->result = of->program->build(last.format, of->operations.at, of->operations.length,
                                    of->data.at, of->data.length, of->script.at,
                                    of->script.length);
}

/* Takes what was lent again; keeps what was changed beside it, if that is the first to be seen. */
static void look_again(enum lent_memory memory, uint8_t *own, const char **outside)
{
    const char *changed = take_again(memory, own);

    if (*outside == NULL)
        *outside = changed;
}

/* Makes the last call, a build, by a program; the answer's response is the script memory. */
static void make_build(const struct program *program, struct answer *answer)
{
    static struct list after;
    struct list *const list = &last.list;
    struct building building = {.program = program};

    fill_response(answer->response);
    building.operations = lend(OPERATIONS, side_of(OPERATIONS),
                               (struct part){list->operations, list->operations_length});
    building.data = lend(DATA, side_of(DATA), (struct part){list->data, list->data_length});
    building.script = lend(BUILT, side_of(BUILT),
                           (struct part){answer->response, last.script_length});
    answer->outside = watch(call_build, &building);
    answer->result = building.result;
    look_again(OPERATIONS, after.operations, &answer->outside);
    look_again(DATA, after.data, &answer->outside);
    look_again(BUILT, answer->response, &answer->outside);
    answer->script_kept =
        memcmp(after.operations, list->operations, list->operations_length) == 0 &&
        memcmp(after.data, list->data, list->data_length) == 0;
}

/* Makes the last call, a build, by both: the same answer, and one that a list can have. */
static bool same_build(struct answer *answer, struct difference *difference)
{
    static struct answer expected;

    last.builds = true;
    make_build(&library, answer);
    make_build(&second, &expected);
    note_built(&last.list, last.format, answer->result);
    return same_answer(answer, &expected, difference) &&
           (RFM_NUMBER(answer->result) != RFM_BUILT ||
            same_value("operations", RFM_COUNT(answer->result),
                       last.list.operations_length / RFM_OPERATION_SIZE, difference));
}

/* Builds the list of the last call by both with script memory of some length; a script says exactly
 * the list, and is built again in its own length and in one byte less. It is given. */
static bool compare_build(struct script *script, struct difference *difference)
{
    static struct answer answer, again;

    last.script_length = one_in(16) ? between(0, MOST_SCRIPT) : MOST_SCRIPT + below(SPARE + 1);
    script->length = 0;
    if (!same_build(&answer, difference))
        return false;
    if (RFM_NUMBER(answer.result) != RFM_BUILT)
        return true;
    script->length = RFM_LENGTH(answer.result);
    memcpy(script->at, answer.response, script->length);
    if (!same_value("list told again", tells_list(script, last.format, &last.list), true,
                    difference))
        return false;
    last.script_length = script->length;
    if (!same_build(&again, difference) ||
        !same_value("in its own length", again.result == answer.result, true, difference))
        return false;
    last.script_length = script->length - 1;
    return same_build(&again, difference) &&
           same_value("in one byte less", again.result, RFM_SMALL_SCRIPT, difference);
}

/* ---- Reading ---- */

/* A reading to be made: by which program, in which memory. */
struct reader {
    const struct program *program;
    struct part answer;
    struct reading *reading;
};

/* Reads the answer, goes from result to result, and asks for some places more. */
static void call_read(void *context)
{
    const struct reader *const of = context;
    struct reading *const reading = of->reading;
    const struct part answer = of->answer;

    reading->answer = of->program->read_answer(last.format, answer.at, answer.length);
    size_t place = RFM_NUMBER(reading->answer) == RFM_ANSWER_READ ? RFM_LENGTH(reading->answer)
                                                                   : last.first;
    while (reading->results < MOST_RESULTS) {
        const uint64_t result =
            of->program->result(last.format, answer.at, answer.length, place);
        reading->places[reading->results] = place;
        reading->result[reading->results++] = result;
        if (result == 0)
            break;
        place = RFM_WORD(result) <= RFM_NO_LENGTH ? place + 3
                                                  : RFM_DATA(result) + RFM_DATA_LENGTH(result) + 2;
    }
    for (size_t i = 0; i < PLACES; i++)
        reading->at[i] =
            of->program->result(last.format, answer.at, answer.length, last.places[i]);
}

/* Makes the last call, a reading, by a program. */
static void make_reading(const struct program *program, struct reading *reading)
{
    static struct reply after;
    struct reply *const reply = &last.reply;
    struct reader reader = {.program = program, .reading = reading};

    reading->results = 0;
    reader.answer = lend(ANSWER, side_of(ANSWER), (struct part){reply->at, reply->length});
    reading->outside = watch(call_read, &reader);
    look_again(ANSWER, after.at, &reading->outside);
    reading->kept = memcmp(after.at, reply->at, reply->length) == 0;
}

/* Compares a result: word, data's length and place. */
static bool same_result(uint64_t library, uint64_t expected, struct difference *difference)
{
    return same_value("word", RFM_WORD(library), RFM_WORD(expected), difference) &&
           same_value("data's length", RFM_DATA_LENGTH(library), RFM_DATA_LENGTH(expected),
                      difference) &&
           same_value("data's place", RFM_DATA(library), RFM_DATA(expected), difference);
}

/* Makes the last call, a reading, by both: the same number, count, place and results. */
static bool same_reading(struct reading *library_reading, struct difference *difference)
{
    static struct reading expected;
    const struct reading *const read = library_reading;

    last.builds = false;
    make_reading(&library, library_reading);
    make_reading(&second, &expected);
    if (!kept_inside(read->outside, expected.outside, difference) ||
        !same_value("read number", RFM_NUMBER(read->answer), RFM_NUMBER(expected.answer),
                    difference) ||
        !same_value("read count", RFM_COUNT(read->answer), RFM_COUNT(expected.answer),
                    difference) ||
        !same_value("place", RFM_LENGTH(read->answer), RFM_LENGTH(expected.answer), difference) ||
        !same_value("results", read->results, expected.results, difference) ||
        !same_value("answer kept", read->kept, true, difference) ||
        !same_value("place by a rule", note_read(last.format, &last.reply, read), true,
                    difference))
        return false;
    for (size_t i = 0; i < read->results; i++)
        if (!same_result(read->result[i], expected.result[i], difference))
            return false;
    for (size_t i = 0; i < PLACES; i++)
        if (!same_result(read->at[i], expected.at[i], difference))
            return false;
    return true;
}

/* Where the results of an accepted run's answer end: behind them AF has two bytes more, and compact
 * is counted as if the word stood behind the data. */
static size_t end_of_results(const struct reply *reply, uint8_t format)
{
    if (format == RFM_COMPACT)
        return reply->length + 2;
    return reply->at[0] == 0xAF ? reply->length - 2 : reply->length;
}

/* What was read last in an answer of a run. */
static struct reading read_in_run;

/* Reads the answer of an accepted run by both: it is good, has the run's own count, and its results
 * reach to its end. */
bool reads_back(const struct call *call, const struct answer *answer,
                struct difference *difference)
{
    const struct reading *const read = &read_in_run;

    if (call->kind != RUN || RFM_NUMBER(answer->result) != RFM_DONE)
        return true;
    last.pages = call->pages;
    last.format = own_format(style_found(call));
    last.reply.length = RFM_LENGTH(answer->result);
    memcpy(last.reply.at, answer->response, last.reply.length);
    for (size_t i = 0; i < PLACES; i++)
        last.places[i] = i;
    return same_reading(&read_in_run, difference) &&
           same_value("run's answer read", RFM_NUMBER(read->answer), RFM_ANSWER_READ,
                      difference) &&
           same_value("run's count read", RFM_COUNT(read->answer), RFM_COUNT(answer->result),
                      difference) &&
           same_value("end of the results", read->places[read->results - 1],
                      end_of_results(&last.reply, last.format), difference);
}

/* Damages an answer in one place or two, so many times anew, and reads it by both. */
static bool compare_damaged(const struct reply *reply, const struct reading *in_it, size_t times,
                            struct difference *difference)
{
    static struct reading reading;
    const bool good = RFM_NUMBER(in_it->answer) == RFM_ANSWER_READ;

    for (; times > 0; times--) {
        last.reply = *reply;
        mangle(&last.reply, last.format, good ? in_it : NULL);
        if (one_in(4))
            mangle(&last.reply, last.format, NULL);
        last.first = in_it->places[0];
        for (size_t i = 0; i < PLACES; i++)
            last.places[i] = between(0, last.reply.length + 1);
        if (one_in(20))
            last.places[0] = SIZE_MAX - below(3);
        last.pages++;
        if (!same_reading(&reading, difference))
            return false;
    }
    return true;
}

/* Reads an answer of so many bytes by both, without a page beside it. */
static bool same_long(const uint8_t *answer, size_t length, uint8_t format,
                      struct difference *difference)
{
    const uint64_t read = library.read_answer(format, answer, length);

    note_longest(read);
    return same_value("longest answer", read, second.read_answer(format, answer, length),
                      difference) &&
           same_value("too long", RFM_NUMBER(read) == RFM_ANSWER_TOO_LONG,
                      length > RFM_MOST_ANSWER, difference) &&
           same_value("result in the longest answer", library.result(format, answer, length, 2),
                      second.result(format, answer, length, 2), difference);
}

/* Reads the longest answer that is read, AF full of the longest R-APDUs, and one byte more. */
bool compare_longest(struct difference *difference)
{
    static uint8_t answer[RFM_MOST_ANSWER + 1] = {0xAF, 0x80};
    static const uint8_t end[] = {0x90, 0x00, 0x00, 0x00};
    size_t place = 2;

    *difference = (struct difference){.against = AT_DESK, .place = NO_PLACE};
    while (place + sizeof end < RFM_MOST_ANSWER) {
        const size_t value = smaller(0xFFFF, RFM_MOST_ANSWER - place - 4 - 2);
        answer[place] = 0x23;
        answer[place + 1] = 0x82;
        put_number(answer + place + 2, value);
        place += 4 + value;
        memcpy(answer + place - 2, end, 2);
    }
    for (uint8_t format = RFM_COMPACT; format <= RFM_DETECT; format++)
        for (size_t more = 0; more < 2; more++)
            if (!same_long(answer, RFM_MOST_ANSWER + more, format, difference))
                return false;
    return true;
}

/* ---- A round ---- */

/* Another format than the one told, now and then. */
static uint8_t some_other(uint8_t format)
{
    if (!one_in(40))
        return format;
    return one_in(2) ? RFM_DETECT : 0x80 | telling_byte();
}

/* Makes the run of a built script, or of any, on the history's card; it is played. */
static bool compare_run(struct history *history, uint8_t format, const struct script *built,
                        struct difference *difference)
{
    struct call *const call = &history->calls[0];
    const enum style style = format == RFM_COMPACT ? COMPACT : one_in(3) ? AA : AE;

    history->count = 1;
    call->kind = RUN;
    call->domain = one_in(16) ? RFM_NO_ACCESS : RFM_FULL_ACCESS;
    call->format = format;
    call->response_length = LEAST_RESPONSE;
    if (built->length > 0)
        call->script = *built;
    else
        make_script(call, style, &history->start);
    return play(history, NULL, difference);
}

/* Builds a list in a format by both, has it run, or any script where it is refused, and reads the
 * answer and others. */
static bool compare_format(struct history *history, uint8_t format, struct difference *difference)
{
    static struct script built;
    static struct reply reply;
    static struct reading reading;

    difference->against = AT_DESK;
    last.pages = history->calls[0].pages;
    last.format = some_other(format);
    make_list(&last.list, &history->start, history->calls[0].application, format);
    if (!compare_build(&built, difference))
        return false;
    if (!compare_run(history, format, &built, difference))
        return false;
    const unsigned number = RFM_NUMBER(library_answer(0)->result);
    difference->against = AT_DESK;
    last.builds = true;
    if (built.length > 0 && !same_value("understood by the run", number, RFM_DONE, difference))
        return false;
    if (number == RFM_DONE) {
        reply = last.reply;
        if (!compare_damaged(&reply, &read_in_run, 3, difference))
            return false;
    }
    draw_reply(&last.reply, format);
    last.format = some_other(format);
    if (!same_reading(&reading, difference))
        return false;
    reply = last.reply;
    last.format = format;
    return compare_damaged(&reply, &reading, 3, difference);
}

/* One round at the desk: a card, and both formats on it. */
bool compare_desk(struct history *history, struct difference *difference)
{
    *difference = (struct difference){.place = NO_PLACE};
    turn_pages(history);
    make_card(&history->start, 1 + below(16));
    history->calls[0].application = some_application(&history->start, false);
    return compare_format(history, RFM_COMPACT, difference) &&
           compare_format(history, RFM_EXPANDED, difference);
}
