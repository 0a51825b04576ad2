/* The paper's worked card, held in memory; how a script is run on it; and lines that
 * are held to what must come out: one that is not so starts with WRONG, and the exit
 * status is then 1. */
#ifndef EXAMPLES_WORKED_H
#define EXAMPLES_WORKED_H

#include <stdio.h>
#include <string.h>

#include "rfm.h"

struct memories {
    struct rfm_entry table[7];
    uint8_t files[55];
    struct rfm_journal journal;
};

static struct memories worked = {.table = {
    /* 0 */ {.identifier = {0x3F, 0x00}, .kind = RFM_KIND_MF, .state = RFM_STATE_ACTIVATED},
    /* 1 */ {.identifier = {0x7F, 0x10}, .parent = 0, .kind = RFM_KIND_DF,
             .state = RFM_STATE_ACTIVATED},
    /* 2 */ {.identifier = {0x6F, 0x46}, .parent = 1, .kind = RFM_KIND_TRANSPARENT,
             .start = {0, 0}, .length = {0, 17}, .state = RFM_STATE_ACTIVATED},
    /* 3 */ {.identifier = {0x6F, 0x3A}, .parent = 1, .kind = RFM_KIND_LINEAR,
             .start = {0, 17}, .length = {0, 12}, .record_length = 4,
             .state = RFM_STATE_ACTIVATED},
    /* 4 */ {.identifier = {0x6F, 0x39}, .parent = 1, .kind = RFM_KIND_CYCLIC,
             .start = {0, 29}, .length = {0, 9}, .record_length = 3, .newest = 0,
             .state = RFM_STATE_ACTIVATED},
    /* 5 */ {.identifier = {0x7F, 0xFF}, .parent = 0, .kind = RFM_KIND_ADF,
             .state = RFM_STATE_ACTIVATED},
    /* 6 */ {.identifier = {0x6F, 0x46}, .parent = 5, .kind = RFM_KIND_TRANSPARENT,
             .start = {0, 38}, .length = {0, 17}, .state = RFM_STATE_ACTIVATED,
             .never = RFM_NEVER_UPDATE},
}};

/* The card as the calls take it. */
static const struct rfm_card card = {
    .table = worked.table, .entries = 7,
    .files = worked.files, .files_len = sizeof worked.files,
    .journal = &worked.journal,
};

/* Fills file memory: all FF, the cyclic file 00. */
static void fill_files(void)
{
    memset(worked.files, 0xFF, sizeof worked.files);
    memset(worked.files + 29, 0x00, 9);
}

/* The paper's scripts on it. */
static const uint8_t update[] = {
    0x00, 0xA4, 0x00, 0x0C, 0x02, 0x7F, 0x10, /* SELECT 7F10 */
    0x00, 0xA4, 0x00, 0x0C, 0x02, 0x6F, 0x46, /* SELECT 6F46 */
    0x00, 0xD6, 0x00, 0x00, 0x02, 0x01, 0x41, /* UPDATE BINARY at offset 0: 0141 */
};

static const uint8_t increase[] = {
    0x00, 0xA4, 0x08, 0x0C, 0x04, 0x7F, 0x10, 0x6F, 0x39, /* SELECT 7F10 6F39 */
    0x80, 0x32, 0x00, 0x00, 0x03, 0x00, 0x00, 0x05,       /* INCREASE by 000005 */
    0x00, 0xC0, 0x00, 0x00, 0x00,                         /* GET RESPONSE */
};

static int status;

/* Prints a line, and whether it is as it must be. */
static void check(int right, const char *line)
{
    printf("%s%s\n", right ? "" : "WRONG: ", line);
    if (!right)
        status = 1;
}

/* Prints bytes as hex and holds them to what they must be. */
static void show(const char *what, const uint8_t *bytes, size_t length, const char *must_be)
{
    char line[64 + 2 * RFM_LEAST_RESPONSE];
    const size_t hex = strlen(what) + 2;

    snprintf(line, sizeof line, "%s: ", what);
    for (size_t i = 0; i < length; i++)
        snprintf(line + hex + 2 * i, 3, "%02X", bytes[i]);
    check(strcmp(line + hex, must_be) == 0, line);
}

/* Runs a compact script on the shared files, with full access, and holds its count
 * and its answer to what they must be. */
static void run(const char *what, const uint8_t *bytes, size_t length, uint32_t count,
                const char *answer)
{
    const struct rfm_script script = {
        .bytes = bytes, .length = length,
        .application = 0, .domain = RFM_FULL_ACCESS, .format = RFM_COMPACT,
    };
    uint8_t response[RFM_LEAST_RESPONSE];
    const struct rfm_result result = rfm_card_run(&card, &script, response, sizeof response);

    check(result.number == RFM_DONE && result.count == count, what);
    show("  answer", response, result.length, answer);
    printf("  %s\n", rfm_word_text(rfm_compact_word(response)));
}

/* Prints the journal's two numbers and holds them to what they must be. */
static void show_journal(uint32_t used, uint32_t on_trial)
{
    char line[64];

    snprintf(line, sizeof line, "  journal: %u bytes used, %u on trial",
             (unsigned)rfm_used(&worked.journal), (unsigned)rfm_on_trial(&worked.journal));
    check(rfm_used(&worked.journal) == used && rfm_on_trial(&worked.journal) == on_trial, line);
}

#endif
