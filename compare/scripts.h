/* Commands, and the scripts of the comparison that are made of them. */
#ifndef COMPARE_SCRIPTS_H
#define COMPARE_SCRIPTS_H

#include "compare.h"

struct command {
    uint8_t cla, ins, p1, p2, p3;
    uint8_t data[255]; /* P3 of them, in forms 3 and 4 */
    unsigned form;     /* the case; compact writes 1 as 2, and 4 as 3 */
};

/* The first flaws are in what a command says, the last two in how it is written out. */
enum flaw { RIGHT, CLASS, INSTRUCTION, P1P2, PLACE, LENGTH, FORM, SIZE, TLV, FLAWS };

/* A script in the making, and where it stands if all went well so far. */
struct maker {
    const struct card *card;
    size_t root, directory, file;
    bool closed;      /* access domain FF */
    bool deactivated; /* the current file */
    bool waits;       /* bytes for GET RESPONSE */
    enum style style;
    size_t most; /* bytes of the value */
    struct script value;
};

/* ---- commands.c ---- */
void draw_command(struct command *command, uint8_t ins, const struct card *card, size_t number);
unsigned needed_form(const struct command *command);
void flaw_command(struct command *command, enum flaw flaw, const uint8_t *entry);

/* ---- scripts.c ---- */
size_t some_target(const struct maker *maker);
size_t path_to(const struct card *card, size_t from, size_t entry, uint8_t *path);

/* ---- writing.c ---- */
void add(struct maker *maker, const uint8_t *bytes, size_t length);
size_t put_length(uint8_t *at, size_t length);
void add_command(struct maker *maker, const struct command *command, enum flaw flaw);
void mutate(struct script *script);

#endif
