/* The call numbers and the status words in words, as README's tables have them. */
#include "rfm.h"

const char *rfm_number_text(uint32_t number)
{
    switch (number) {
    case RFM_DONE:
        return "the call was done";
    case RFM_NOT_SOUND:
        return "table, file memory or journal is not sound";
    case RFM_WRONG_ARGUMENT:
        return "the format is not 0, 1 or 2, the application is neither 0 nor an ADF's entry "
               "number, or the access domain is neither 00 nor FF";
    case RFM_SCRIPT_LENGTH:
        return "the script has not 1 to 1,024 bytes";
    case RFM_SMALL_RESPONSE:
        return "the response memory has fewer than 1,024 bytes";
    case RFM_NO_TRIAL_ROOM:
        return "16 scripts are on trial, or the journal has no room for a mark";
    case RFM_NO_TEMPLATE:
        return "a script that is expanded, or found to be, has no template";
    case RFM_NOTHING_ON_TRIAL:
        return "a take-back with no script on trial";
    default:
        return "a number that no call gives";
    }
}

const char *rfm_word_text(uint32_t word)
{
    if (word >> 8 == RFM_WORD_WAITS >> 8)
        word = RFM_WORD_WAITS; /* whatever waits */
    switch (word) {
    case RFM_WORD_DONE:
        return "the command is done";
    case RFM_WORD_WAITS:
        return "compact: xx bytes wait for GET RESPONSE "
               "(SELECT with FCP, SEARCH that found, INCREASE)";
    case RFM_WORD_FEWER:
        return "fewer bytes than asked for were left; or a search found nothing";
    case RFM_WORD_DEACTIVATED:
        return "the selected file is deactivated";
    case RFM_WORD_JOURNAL_FULL:
        return "the journal has no room for what the command would write";
    case RFM_WORD_LENGTH:
        return "too few bytes or no case's size; wrong case, Lc 0 or P3; "
               "a length that does not fit file, record, path or what waits";
    case RFM_WORD_KIND:
        return "the file is of the wrong kind, or INCREASE on records above 127 bytes";
    case RFM_WORD_FORBIDDEN:
        return "access domain FF; or the file's NEVER bit forbids it";
    case RFM_WORD_NOT_ACTIVATED:
        return "the file is deactivated";
    case RFM_WORD_NOT_NOW:
        return "GET RESPONSE with nothing waiting; "
               "compact: bytes after READ BINARY, READ RECORD or GET RESPONSE";
    case RFM_WORD_NO_FILE:
        return "no file is selected";
    case RFM_WORD_NOT_FOUND:
        return "SELECT finds nothing";
    case RFM_WORD_NO_RECORD:
        return "there is no such record";
    case RFM_WORD_P1P2:
        return "P1 or P2 is wrong, or UPDATE RECORD on a cyclic file outside mode 03";
    case RFM_WORD_OFFSET:
        return "the offset is not below the file's length";
    case RFM_WORD_INSTRUCTION:
        return "unknown instruction";
    case RFM_WORD_CLASS:
        return "wrong class";
    case RFM_WORD_ANSWER_FULL:
        return "expanded: the R-APDUs would pass 1,000 bytes; the command changes nothing";
    case RFM_WORD_SUM:
        return "INCREASE: the sum is too long";
    default:
        return "a word that no command gives";
    }
}
