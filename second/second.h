/* The second program: the paper's three calls, written from the paper and the
 * requests alone.
 *
 * Each call answers   number + 2^8 * count + 2^32 * length.
 * number is the paper's call number (0: accepted), count the commands counted,
 * length the bytes of the answer in the response memory.
 * The lent memories must not overlap; a memory of length 0 may be NULL. */
#ifndef SECOND_H
#define SECOND_H

#include <stddef.h>
#include <stdint.h>

#define SECOND_NUMBER(answer) ((unsigned)((answer) & 0xFFu))
#define SECOND_COUNT(answer)  ((uint32_t)(((answer) >> 8) & 0xFFFFFFu))
#define SECOND_LENGTH(answer) ((size_t)((answer) >> 32))

/* Runs one script: format 0 compact, 1 expanded, 2 whichever its first byte shows. */
uint64_t second_run(uint8_t *table, size_t table_length,
                    uint8_t *files, size_t files_length,
                    uint8_t *journal, size_t journal_length,
                    size_t application, uint8_t domain, uint8_t format,
                    const uint8_t *script, size_t script_length,
                    uint8_t *response, size_t response_length);

/* Takes the newest script back. */
uint64_t second_take_back(uint8_t *table, size_t table_length,
                          uint8_t *files, size_t files_length,
                          uint8_t *journal, size_t journal_length);

/* Confirms all scripts. */
uint64_t second_confirm(uint8_t *table, size_t table_length,
                        uint8_t *files, size_t files_length,
                        uint8_t *journal, size_t journal_length);

#endif
