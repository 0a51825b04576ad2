/* Prints a history that shows a difference. */
#include "lists.h"

#include <stdio.h>
#include <string.h>

/* Prints bytes in hexadecimal. */
static void print_hex(const uint8_t *at, size_t length)
{
    for (size_t i = 0; i < length; i++)
        printf("%02X", at[i]);
}

/* Prints a memory in lines; those of zeros only are left out. */
static void print_memory(const char *what, const struct memory *memory)
{
    static const uint8_t zeros[2 * ENTRY_SIZE];

    printf("%s, %zu bytes\n", what, memory->length);
    for (size_t at = 0; at < memory->length; at += sizeof zeros) {
        const size_t bytes = smaller(sizeof zeros, memory->length - at);
        if (memcmp(memory->at + at, zeros, bytes) == 0)
            continue;
        printf("  %5zu  ", at);
        print_hex(memory->at + at, bytes);
        printf("\n");
    }
}

/* Prints what one of the two programs answered. */
static void print_answer(const char *whose, const struct answer *answer)
{
    printf("  %s: number %u, count %lu, length %lu, answer ", whose, RFM_NUMBER(answer->result),
           (unsigned long)RFM_COUNT(answer->result), (unsigned long)RFM_LENGTH(answer->result));
    print_hex(answer->response, smaller(RFM_LENGTH(answer->result), LEAST_RESPONSE));
    printf("\n");
}

/* Prints a call and its two answers. */
static void print_call(const struct history *history, size_t i)
{
    static const char *const names[CALL_KINDS] = {
        [RUN] = "run", [TAKE_BACK] = "take-back", [CONFIRM] = "confirmation"};
    const struct call *call = &history->calls[i];

    printf("call %zu: %s", i + 1, names[call->kind]);
    if (call->kind == RUN) {
        printf(", application %zu, domain %02X, format %u, response memory %zu bytes\n  script: ",
               call->application, call->domain, call->format, call->response_length);
        print_hex(call->script.at, call->script.length);
    }
    printf("\n");
    print_answer("library", library_answer(i));
    print_answer("second ", second_answer(i));
}

/* Prints where the two first differ. */
static void print_difference(const struct difference *difference)
{
    static const struct {
        const char *heading, *expected;
    } texts[] = {[SECOND] = {"", "expected"},
                 [WITHOUT_STRUCK] = {" without the struck-out calls", "without them"},
                 [FORMAT_FOUND] = {" with the format found", "with it"},
                 [AT_DESK] = {" at the desk", "expected"}};

    printf("difference%s in call %zu: %s", texts[difference->against].heading,
           difference->call + 1, difference->what);
    if (difference->place != NO_PLACE)
        printf(", byte %zu", difference->place);
    printf(": library %lX, %s %lX\n", difference->library, texts[difference->against].expected,
           difference->expected);
}

/* Prints the card, the calls and the first difference. */
void print_history(const struct history *history, const struct difference *difference)
{
    print_memory("table", &history->start.table);
    print_memory("file memory", &history->start.files);
    print_memory("journal", &history->start.journal);
    for (size_t i = 0; i < history->count; i++)
        print_call(history, i);
    print_difference(difference);
}

/* Prints the last call at the desk and its difference. */
void print_desk_call(const struct difference *difference)
{
    const struct desk_call *const call = last_desk_call();

    if (call->builds) {
        printf("build, format %u, script memory %zu bytes\n  operations: ", call->format,
               call->script_length);
        print_hex(call->list.operations, call->list.operations_length);
        printf("\n  data, %zu bytes: ", call->list.data_length);
        print_hex(call->list.data, smaller(call->list.data_length, MOST_SCRIPT));
    } else {
        printf("read, format %u, results from %zu on", call->format, call->first);
        for (size_t i = 0; i < PLACES; i++)
            printf(i == 0 ? " and at %zu" : ", %zu", call->places[i]);
        printf("\n  answer: ");
        print_hex(call->reply.at, call->reply.length);
    }
    printf("\n");
    print_difference(difference);
}
