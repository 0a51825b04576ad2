/* Cases on the worked card, read from standard input, one on a line (crates/cases/stdin says how): prints
 * what each run gives and the journal after it. Fails where a run gives something else than its line says,
 * or where a line says nothing. */
#include "test_kit.h"

#include <inttypes.h>
#include <stdio.h>
#include <stdlib.h>
#include <string.h>

enum { LONGEST_LINE = 8192 };

/* The value behind a name in a line, up to the next blank; NULL where the line has not the name. */
static const char *value_of(const char *line, const char *name)
{
    static char value[LONGEST_LINE];
    const char *from = strstr(line, name);

    if (!from)
        return NULL;
    from += strlen(name);
    const size_t length = strcspn(from, " \n");
    memcpy(value, from, length);
    value[length] = '\0';
    return value;
}

/* A value that every line has. */
static const char *needed(const char *line, const char *name)
{
    const char *value = value_of(line, name);

    if (!value) {
        fprintf(stderr, "no%s in: %s", name, line);
        exit(1);
    }
    return value;
}

/* Whether an answer has this count: a compact one in front, one of AA (of less than 128 bytes) in
 * its first TLV; one of AE has none. */
static bool has_count(const struct bytes *answer, bool expanded, uint32_t count)
{
    if (!expanded)
        return answer->at[0] == count;
    return answer->at[0] != 0xAB || answer->at[4] == count;
}

/* Runs the case of a line on a fresh card and prints what it gives; whether that is what the line says. */
static bool gives_stated(const char *line)
{
    static struct card_bytes c;
    static struct bytes before, script, stated, after;
    uint8_t response[FULL_RESPONSE] = {0};

    worked_card(&c);
    const size_t application = strtoul(needed(line, ": application="), NULL, 10);
    const uint8_t domain = (uint8_t)strtoul(needed(line, " domain="), NULL, 16);
    const uint8_t format = (uint8_t)strtoul(needed(line, " format="), NULL, 10);
    set_hex(&before, needed(line, " journal="));
    memcpy(c.journal.at, before.at, before.length);
    set_hex(&script, needed(line, " script="));
    const uint64_t answer = second_run(
        c.table.at, c.table.length, c.files.at, c.files.length, c.journal.at, c.journal.length,
        application, domain, format, script.at, script.length, response, sizeof response);
    const size_t length = SECOND_LENGTH(answer);

    printf("%.*s: refusal=%u executed=%" PRIu32 " response=", (int)strcspn(line, ":"), line,
           SECOND_NUMBER(answer), SECOND_COUNT(answer));
    print_hex(response, length);
    printf(" journal=");
    print_hex(c.journal.at, 4 + used_of(&c));
    printf("\n");

    const char *says = value_of(line, " after=");
    if (says) {
        set_hex(&after, says);
        if (memcmp(c.journal.at, after.at, after.length) != 0)
            return false;
    }
    says = value_of(line, " says=");
    if (!says) /* count and length are 0 */
        return answer == strtoul(needed(line, " refused="), NULL, 10);
    set_hex(&stated, says);
    return SECOND_NUMBER(answer) == 0 && length == stated.length &&
           memcmp(response, stated.at, length) == 0 &&
           has_count(&stated, is_expanded(format, &script), SECOND_COUNT(answer));
}

int main(void)
{
    static char line[LONGEST_LINE];
    int failed = 0;

    while (fgets(line, sizeof line, stdin)) {
        if (line[0] == '#' || line[0] == '\n')
            continue;
        if (!gives_stated(line)) {
            fprintf(stderr, "not as stated: %s", line);
            failed = 1;
        }
    }
    return failed;
}
