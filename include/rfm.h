/* rfm: runs remote file management scripts on a lent card, takes the newest
 * script back, or confirms all.
 *
 *     struct rfm_card card = {.table = table, .entries = 7,
 *                             .files = files, .files_len = sizeof files,
 *                             .journal = &journal};
 *     struct rfm_script script = {.bytes = bytes, .length = sizeof bytes,
 *                                 .application = 0, .domain = RFM_FULL_ACCESS,
 *                                 .format = RFM_COMPACT};
 *     uint8_t response[RFM_LEAST_RESPONSE];
 *     struct rfm_result result = rfm_card_run(&card, &script, response, sizeof response);
 *
 *     if (result.number != RFM_DONE)
 *         puts(rfm_number_text(result.number));
 *
 * examples/fleet.c and examples/trial.c are whole programs.
 *
 * Lending   What a call is given is lent for the call only: nothing is kept when
 *           it returns, and nothing else of the caller's is read or written. No
 *           pointer is NULL, not even with length 0.
 * Overlap   No two of the lent memories overlap.
 * Content   Any content will do: each call checks everything itself and refuses
 *           with a number what it cannot take.
 * Threads   The library has no state of its own. Calls on different cards may run
 *           at once; on one card one at a time.
 * Power     Not safe against a cut yet: one in the middle of a call may leave a
 *           card that no take-back brings back. There is no repair so far; where
 *           power may go, make the call on a copy of the card.
 * Size      At most 3,360 bytes of stack; 22,132 bytes of code, and no writable
 *           data. docs/MEASURES.md has it call by call. The code needs memcpy and
 *           memset, and nothing else. */
#ifndef RFM_H
#define RFM_H

#include <stddef.h>
#include <stdint.h>

/* The version of what this file declares. The first number is 0 as long as there is
 * no repair after a power cut, which will add to the calls and to their numbers; until
 * then the second number rises with each change that a caller can see. */
#define RFM_VERSION_MAJOR 0
#define RFM_VERSION_MINOR 2
#define RFM_VERSION_PATCH 0

/* What the caller must look at. */
#if (defined(__cplusplus) && __cplusplus >= 201703L) || \
    (defined(__STDC_VERSION__) && __STDC_VERSION__ >= 202311L)
#define RFM_MUST_USE [[nodiscard]]
#elif defined(__GNUC__)
#define RFM_MUST_USE __attribute__((warn_unused_result))
#else
#define RFM_MUST_USE
#endif

/* Casts, as C and as C++ wants them. */
#ifdef __cplusplus
#define RFM_CAST(type, value) static_cast<type>(value)
#define RFM_BYTES(pointer)    reinterpret_cast<uint8_t *>(pointer)
#else
#define RFM_CAST(type, value) ((type)(value))
#define RFM_BYTES(pointer)    ((uint8_t *)(pointer))
#endif

#ifdef __cplusplus
extern "C" {
#endif

/* ---- The card ---- */

/* Sizes, in bytes where nothing else is said. */
enum rfm_size {
    RFM_ENTRY_SIZE = 16,
    RFM_MOST_ENTRIES = 64,     /* entries of the table, from 1 */
    RFM_MOST_FILES = 32768,    /* of file memory, from 1 */
    RFM_MOST_RECORDS = 254,    /* records of a file, from 1 */
    RFM_JOURNAL_SIZE = 2048,
    RFM_JOURNAL_HEAD = 4,
    RFM_MOST_USED = 2044,      /* used bytes of the journal */
    RFM_MOST_ON_TRIAL = 16,    /* scripts on trial */
    RFM_MOST_SCRIPT = 1024,    /* of a script, from 1 */
    RFM_LEAST_RESPONSE = 1024  /* of the response memory; every answer fits */
};

/* Kinds of an entry. The first three are directories, the last three files. */
enum rfm_kind {
    RFM_KIND_MF = 1,
    RFM_KIND_DF = 2,
    RFM_KIND_ADF = 3,
    RFM_KIND_TRANSPARENT = 4,
    RFM_KIND_LINEAR = 5,
    RFM_KIND_CYCLIC = 6
};

/* States of an entry. */
enum rfm_state { RFM_STATE_DEACTIVATED = 4, RFM_STATE_ACTIVATED = 5 };

/* What is never allowed on a file, added up. */
enum rfm_never {
    RFM_NEVER_READ = 1, /* and never searched */
    RFM_NEVER_UPDATE = 2,
    RFM_NEVER_INCREASE = 4,
    RFM_NEVER_DEACTIVATE = 8,
    RFM_NEVER_ACTIVATE = 16
};

/* An entry of the table. Numbers of two bytes are big-endian. */
struct rfm_entry {
    uint8_t identifier[2]; /*  0-1   file identifier: 3F00 for the MF, 7FFF for each
                                     ADF, and none of these or 3FFF for another */
    uint8_t parent;        /*  2     parent's entry number */
    uint8_t kind;          /*  3     RFM_KIND_.. */
    uint8_t start[2];      /*  4-5   start in file memory */
    uint8_t length[2];     /*  6-7   length, 1 or more */
    uint8_t record_length; /*  8     record length; 0 for a transparent file */
    uint8_t newest;        /*  9     cyclic: place, from 0, of the newest record; else 0 */
    uint8_t state;         /* 10     RFM_STATE_.. */
    uint8_t zero;          /* 11     0 */
    uint8_t never;         /* 12     RFM_NEVER_.., added up */
    uint8_t zeros[3];      /* 13-15  0 */
};

/* The journal: all zero on a new card, and for these calls alone to write. */
struct rfm_journal {
    uint8_t used[2];                /* 0-1  used bytes */
    uint8_t on_trial;               /* 2    scripts on trial */
    uint8_t zero;                   /* 3    0 */
    uint8_t entries[RFM_MOST_USED]; /* 4..  the used bytes, then zeros */
};

/* A card: the caller's table, file memory and journal. It is sound if
 *
 *   - entry 0 is the MF, with parent 0; there is no other MF;
 *   - a parent is a directory and has a smaller number than its children; an ADF's
 *     parent is 0;
 *   - a directory has 0 in bytes 4-9 and 12, and is activated;
 *   - children of one parent, ADFs aside, have different identifiers;
 *   - files lie inside file memory and do not overlap; a record file has 1 to 254
 *     whole records;
 *   - the journal is as these calls left it. */
struct rfm_card {
    struct rfm_entry *table;
    size_t entries; /* of the table */
    uint8_t *files;
    size_t files_len; /* bytes of file memory */
    struct rfm_journal *journal;
};

/* Used bytes of the journal. A script takes 8, and each command that ends well
 *
 *   UPDATE BINARY                   8 and the bytes written
 *   UPDATE RECORD, linear           8 and the record length
 *   UPDATE RECORD, cyclic; INCREASE 8 and the record length, and 9
 *   DEACTIVATE, ACTIVATE            9
 *
 * the others nothing. A take-back or a confirmation gives the room back. */
RFM_MUST_USE static inline uint32_t rfm_used(const struct rfm_journal *journal)
{
    return journal->used[0] * UINT32_C(256) + journal->used[1];
}

/* Scripts on trial. */
RFM_MUST_USE static inline uint32_t rfm_on_trial(const struct rfm_journal *journal)
{
    return journal->on_trial;
}

/* ---- The calls ---- */

/* Formats of a script, and access domains. */
enum rfm_format {
    RFM_COMPACT = 0,
    RFM_EXPANDED = 1,
    RFM_DETECT = 2 /* expanded if it starts with AA or AE, else compact */
};
enum rfm_domain { RFM_FULL_ACCESS = 0x00, RFM_NO_ACCESS = 0xFF };

/* What a run is asked to do. A member that an initialiser leaves out is 0: the
 * shared files, full access, compact. */
struct rfm_script {
    const uint8_t *bytes;
    size_t length;
    size_t application; /* 0 for the shared files, or an ADF's entry number */
    uint8_t domain;     /* RFM_FULL_ACCESS or RFM_NO_ACCESS */
    uint8_t format;     /* RFM_COMPACT, RFM_EXPANDED or RFM_DETECT */
};

/* The form of a script and of its answer, RFM_COMPACT or RFM_EXPANDED: the one that is
 * named, or by RFM_DETECT the one that is found. The answer's first byte does not tell:
 * AB may be a compact one's count. */
RFM_MUST_USE static inline enum rfm_format rfm_form(const struct rfm_script *script)
{
    if (script->format != RFM_DETECT)
        return script->format == RFM_EXPANDED ? RFM_EXPANDED : RFM_COMPACT;
    if (script->length == 0) /* it is refused */
        return RFM_COMPACT;
    return script->bytes[0] == 0xAA || script->bytes[0] == 0xAE ? RFM_EXPANDED : RFM_COMPACT;
}

/* Call numbers, tested in this order: 1 to 6 by a run, 1 and 7 by a take-back, 1 by
 * a confirmation. Any but 0 comes with count 0 and length 0, and no lent byte has
 * changed. */
enum rfm_number {
    RFM_DONE = 0,
    RFM_NOT_SOUND = 1,       /* table, file memory or journal */
    RFM_WRONG_ARGUMENT = 2,  /* no such format, application or access domain */
    RFM_SCRIPT_LENGTH = 3,   /* not 1 to 1,024 bytes */
    RFM_SMALL_RESPONSE = 4,  /* response memory below 1,024 bytes */
    RFM_NO_TRIAL_ROOM = 5,   /* 16 scripts on trial, or no 8 bytes left in the journal */
    RFM_NO_TEMPLATE = 6,     /* script that is expanded, or found to be, and no template */
    RFM_NOTHING_ON_TRIAL = 7 /* nothing to take back */
};

/* What a call answers. */
struct rfm_result {
    uint32_t number; /* RFM_DONE, or why it was not done */
    uint32_t count;  /* commands run, with the one that stopped the script */
    uint32_t length; /* bytes of the answer, at the start of the response memory: of a
                        compact script the count, the status word and data if it ended
                        in reading; of an expanded one a response template, AB or AF */
};

/* The library's own calls, for a card held as plain bytes: table_len is 16 bytes for
 * each entry, journal_len 2,048. They answer number, count and length in one number,
 * to be taken apart by the three macros. */
#define RFM_NUMBER(result) RFM_CAST(uint8_t, (result) & 0xFF)
#define RFM_COUNT(result)  RFM_CAST(uint32_t, (result) >> 8 & 0xFFFFFF)
#define RFM_LENGTH(result) RFM_CAST(uint32_t, (result) >> 32)

/* Runs a script and puts it on trial. Writes the file memory, bytes 9 and 10 of
 * files' entries, the journal, and the answer; the response memory after the answer
 * keeps its content. A script that stops at an error has done, and has on trial, the
 * commands before it. */
RFM_MUST_USE uint64_t rfm_run(uint8_t *table, size_t table_len, uint8_t *files, size_t files_len,
                              uint8_t *journal, size_t journal_len,
                              size_t application, uint8_t domain, uint8_t format,
                              const uint8_t *script, size_t script_len,
                              uint8_t *response, size_t response_len);

/* Takes the newest script on trial back: the card is as before its run. Count and
 * length are 0. */
RFM_MUST_USE uint64_t rfm_take_back(uint8_t *table, size_t table_len,
                                    uint8_t *files, size_t files_len,
                                    uint8_t *journal, size_t journal_len);

/* Confirms all scripts on trial, or none: the journal is zero again, and nothing
 * else is written. Count and length are 0. */
RFM_MUST_USE uint64_t rfm_confirm(const uint8_t *table, size_t table_len,
                                  const uint8_t *files, size_t files_len,
                                  uint8_t *journal, size_t journal_len);

/* Takes a call's answer apart. */
RFM_MUST_USE static inline struct rfm_result rfm_result_of(uint64_t packed)
{
    struct rfm_result result;

    result.number = RFM_NUMBER(packed);
    result.count = RFM_COUNT(packed);
    result.length = RFM_LENGTH(packed);
    return result;
}

/* The same three calls on a card. Each memory has a type of its own, so that a
 * compiler sees where two were swapped. */
RFM_MUST_USE static inline struct rfm_result rfm_card_run(const struct rfm_card *card,
                                                          const struct rfm_script *script,
                                                          uint8_t *response, size_t response_len)
{
    return rfm_result_of(rfm_run(RFM_BYTES(card->table), card->entries * RFM_ENTRY_SIZE,
                                 card->files, card->files_len,
                                 RFM_BYTES(card->journal), RFM_JOURNAL_SIZE,
                                 script->application, script->domain, script->format,
                                 script->bytes, script->length, response, response_len));
}

RFM_MUST_USE static inline struct rfm_result rfm_card_take_back(const struct rfm_card *card)
{
    return rfm_result_of(rfm_take_back(RFM_BYTES(card->table), card->entries * RFM_ENTRY_SIZE,
                                       card->files, card->files_len,
                                       RFM_BYTES(card->journal), RFM_JOURNAL_SIZE));
}

RFM_MUST_USE static inline struct rfm_result rfm_card_confirm(const struct rfm_card *card)
{
    return rfm_result_of(rfm_confirm(RFM_BYTES(card->table), card->entries * RFM_ENTRY_SIZE,
                                     card->files, card->files_len,
                                     RFM_BYTES(card->journal), RFM_JOURNAL_SIZE));
}

/* ---- Words ---- */

/* Status words of a command. A script goes on after the first four. */
enum rfm_word {
    RFM_WORD_DONE = 0x9000,
    RFM_WORD_WAITS = 0x6100,       /* and the number of bytes that wait, in compact */
    RFM_WORD_FEWER = 0x6282,       /* fewer bytes than asked for, or nothing found */
    RFM_WORD_DEACTIVATED = 0x6283, /* the file selected */
    RFM_WORD_JOURNAL_FULL = 0x6581,
    RFM_WORD_LENGTH = 0x6700,
    RFM_WORD_KIND = 0x6981,
    RFM_WORD_FORBIDDEN = 0x6982,
    RFM_WORD_NOT_ACTIVATED = 0x6984,
    RFM_WORD_NOT_NOW = 0x6985,
    RFM_WORD_NO_FILE = 0x6986,
    RFM_WORD_NOT_FOUND = 0x6A82,
    RFM_WORD_NO_RECORD = 0x6A83,
    RFM_WORD_P1P2 = 0x6A86,
    RFM_WORD_OFFSET = 0x6B00,
    RFM_WORD_INSTRUCTION = 0x6D00,
    RFM_WORD_CLASS = 0x6E00,
    RFM_WORD_ANSWER_FULL = 0x6F00,
    RFM_WORD_SUM = 0x9850
};

/* The status word of a compact answer. */
RFM_MUST_USE static inline uint32_t rfm_compact_word(const uint8_t *answer)
{
    return answer[1] * UINT32_C(256) + answer[2];
}

/* A call number, or a status word, in words; never NULL. These two are in
 * include/rfm_text.c, for a program that wants them to compile with its own files. */
RFM_MUST_USE const char *rfm_number_text(uint32_t number);
RFM_MUST_USE const char *rfm_word_text(uint32_t word);

#ifdef __cplusplus
}
#endif

#endif
