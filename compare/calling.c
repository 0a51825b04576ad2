/* Makes one call of one of the two programs, each memory lent against a page. */
#include "lend.h"

#include <string.h>

/* A call to be made: by which program, with which memories. */
struct lending {
    const struct program *program;
    const struct call *call;
    struct part lent[MEMORIES];
    uint64_t result;
};

/* Makes the call. */
static void call_program(void *context)
{
    struct lending *const of = context;
    const struct program *const program = of->program;
    const struct call *const call = of->call;
    const struct part t = of->lent[TABLE], f = of->lent[FILES], j = of->lent[JOURNAL];
    const struct part s = of->lent[SCRIPT], r = of->lent[RESPONSE];

    switch (call->kind) {
    case RUN:
        of->result = program->run(t.at, t.length, f.at, f.length, j.at, j.length,
                                  call->application, call->domain, call->format, s.at, s.length,
                                  r.at, r.length);
        break;
    case TAKE_BACK:
        of->result = program->take_back(t.at, t.length, f.at, f.length, j.at, j.length);
        break;
    default:
        of->result = program->confirm(t.at, t.length, f.at, f.length, j.at, j.length);
        break;
    }
}

/* Fills response memory, or script memory of its length, with a pattern. */
void fill_response(uint8_t *response)
{
    static uint8_t pattern[sizeof((struct answer *)0)->response];

    if (pattern[0] == 0)
        for (size_t i = 0; i < sizeof pattern; i++)
            pattern[i] = (uint8_t)(i * 37 + 0x5A);
    memcpy(response, pattern, sizeof pattern);
}

/* Makes one call of a program on a card. */
void make_call(const struct program *program, struct card *card, const struct call *call,
               struct answer *answer)
{
    static uint8_t script[sizeof call->script.at];
    const struct part own[OPERATIONS] = {[TABLE] = {card->table.at, card->table.length},
                                       [FILES] = {card->files.at, card->files.length},
                                       [JOURNAL] = {card->journal.at, card->journal.length},
                                       [SCRIPT] = {script, call->script.length},
                                       [RESPONSE] = {answer->response, call->response_length}};
    const size_t end = call->kind == RUN ? OPERATIONS : SCRIPT;
    struct lending lending = {.program = program, .call = call};

    fill_response(answer->response);
    memcpy(script, call->script.at, call->script.length);
    for (size_t i = 0; i < end; i++)
        lending.lent[i] = lend(i, call->pages >> i & 1 ? BEHIND : BEFORE, own[i]);
    answer->outside = watch(call_program, &lending);
    answer->result = lending.result;
    for (size_t i = 0; i < end; i++) {
        const char *changed = take_again(i, own[i].at);
        if (answer->outside == NULL)
            answer->outside = changed;
    }
    answer->script_kept = memcmp(script, call->script.at, call->script.length) == 0;
}
