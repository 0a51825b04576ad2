#!/usr/bin/env bash
# Checks include/rfm.h and include/rfm_desk.h: that C and C++ compilers and cppcheck have nothing to say of them, of
# include/rfm_text.c and of the examples; that two memories swapped, or an answer not looked at, are refused; that a
# script's form is the one that the rules say, and an operation's row too; that the texts are README's tables and the
# figures those of docs/MEASURES.md. Takes seconds and needs no library. Build products go to target/header/.
set -euo pipefail
. "$(dirname "${BASH_SOURCE[0]}")/machine.sh"
cd "$root"
need gcc gcc libc6-dev
need g++ g++
need clang clang
need cppcheck cppcheck
out=target/header
mkdir -p "$out"

# Everything that the header declares, used once, as C and as C++. With WRONG set there is one thing in it that no
# compiler may take.
cat > "$out/uses.c" <<'END'
#include "rfm.h"

typedef char entry_size[sizeof(struct rfm_entry) == RFM_ENTRY_SIZE ? 1 : -1];
typedef char journal_size[sizeof(struct rfm_journal) == RFM_JOURNAL_SIZE ? 1 : -1];
typedef char journal_head[offsetof(struct rfm_journal, entries) == RFM_JOURNAL_HEAD ? 1 : -1];
typedef char entry_state[offsetof(struct rfm_entry, state) == 10 ? 1 : -1];
typedef char entry_never[offsetof(struct rfm_entry, never) == 12 ? 1 : -1];

#ifndef WRONG
#define WRONG 0
#endif

int uses(struct rfm_entry *table, uint8_t *files, struct rfm_journal *journal, uint8_t *response);

int uses(struct rfm_entry *table, uint8_t *files, struct rfm_journal *journal, uint8_t *response)
{
    static const uint8_t bytes[] = {0x00, 0xA4, 0x00, 0x0C, 0x02, 0x7F, 0x10};
    struct rfm_card card;
    struct rfm_script script;
    struct rfm_result result;
    uint64_t packed;

    card.table = table;
    card.entries = 1;
    card.files = files;
    card.files_len = 1;
    card.journal = journal;
    script.bytes = bytes;
    script.length = sizeof bytes;
    script.application = 0;
    script.domain = RFM_FULL_ACCESS;
    script.format = RFM_COMPACT;
#if WRONG == 1 /* files and journal swapped */
    card.files = journal;
#elif WRONG == 2
    card.journal = files;
#elif WRONG == 3 /* table and files swapped */
    card.table = files;
#elif WRONG == 4
    card.files = table;
#elif WRONG == 5 /* table and journal swapped */
    card.table = journal;
#elif WRONG == 6
    card.journal = table;
#elif WRONG == 7 /* card and script swapped */
    result = rfm_card_run(&script, &card, response, RFM_LEAST_RESPONSE);
#elif WRONG == 8 /* the answer written over the script */
    result = rfm_card_run(&card, &script, bytes, RFM_LEAST_RESPONSE);
#elif WRONG == 9 /* the answer not looked at */
    rfm_card_take_back(&card);
#elif WRONG == 10
    rfm_take_back(files, 1, files, 1, files, 1);
#endif
    result = rfm_card_run(&card, &script, response, RFM_LEAST_RESPONSE);
    if (result.number == RFM_DONE && rfm_form(&script) == RFM_COMPACT && rfm_compact_word(response) != RFM_WORD_DONE)
        result = rfm_card_take_back(&card);
    if (rfm_used(journal) > RFM_MOST_USED - 8 || rfm_on_trial(journal) == RFM_MOST_ON_TRIAL)
        result = rfm_card_confirm(&card);
    packed = rfm_confirm(bytes, sizeof bytes, bytes, sizeof bytes, files, 1);
    return RFM_NUMBER(packed) == RFM_NOT_SOUND && RFM_COUNT(packed) == 0 && RFM_LENGTH(packed) == 0 &&
           rfm_number_text(result.number) != rfm_word_text(RFM_WORD_SUM) && table[0].state == RFM_STATE_ACTIVATED;
}
END

# The same for the desk's header.
cat > "$out/uses_desk.c" <<'END'
#include "rfm_desk.h"

typedef char most_operations[RFM_MOST_OPERATIONS == 40 && RFM_MOST_ANSWER == 0xFFFFFF ? 1 : -1];

#ifndef WRONG
#define WRONG 0
#endif

int uses_desk(uint8_t *row, uint8_t *script);

int uses_desk(uint8_t *row, uint8_t *script)
{
    static const uint8_t data[] = {0x7F, 0x10};
    const size_t size = RFM_OPERATION_SIZE;
    uint64_t packed;

    rfm_operation(row, RFM_SELECT, RFM_NO_MODE, 0, 0, sizeof data);
#if WRONG == 1 /* the script written over the data */
    packed = rfm_build(RFM_COMPACT, row, size, script, RFM_MOST_SCRIPT, data, sizeof data);
#elif WRONG == 2 /* the answer not looked at */
    rfm_build(RFM_COMPACT, row, size, data, sizeof data, script, RFM_MOST_SCRIPT);
#elif WRONG == 3
    rfm_read_answer(RFM_COMPACT, data, sizeof data);
#endif
    packed = rfm_build(RFM_COMPACT, row, size, data, sizeof data, script, RFM_MOST_SCRIPT);
    if (RFM_NUMBER(packed) != RFM_BUILT || RFM_COUNT(packed) != 1)
        return RFM_NUMBER(packed) == RFM_NOT_CARRIED;
    packed = rfm_read_answer(RFM_EXPANDED, data, sizeof data);
    if (RFM_NUMBER(packed) != RFM_ANSWER_READ)
        return RFM_NUMBER(packed) == RFM_ANSWER_DAMAGED;
    packed = rfm_result(RFM_EXPANDED, data, sizeof data, RFM_LENGTH(packed));
    return RFM_WORD(packed) == RFM_OTHER_TAG && RFM_DATA(packed) + RFM_DATA_LENGTH(packed) == 0;
}
END

# Compiles each source by itself: compile COMPILER WORD.. -- SOURCE..
compile() {
    local words=()
    while [ "$1" != -- ]; do words+=("$1"); shift; done
    for source in "${@:2}"; do "${words[@]}" -O2 -Iinclude -c -o "$out/one.o" "$source"; done
}

# What the compilers are asked. Not asked of clang, being no fault in C: that members are padded, that a declaration
# follows a statement, that a pointer is indexed.
strict=(-Wall -Wextra -Wpedantic -Wconversion -Werror)
all=(-Weverything -Wno-padded -Wno-declaration-after-statement -Wno-unknown-warning-option -Wno-unsafe-buffer-usage)
header=(include/rfm_text.c "$out/uses.c" "$out/uses_desk.c")
for standard in c99 c11; do
    compile gcc -std=$standard "${strict[@]}" -- "${header[@]}" examples/*.c
    compile clang -std=$standard "${strict[@]}" "${all[@]}" -- "${header[@]}" examples/*.c
done
for standard in c++98 c++11 c++17; do
    compile g++ -x c++ -std=$standard "${strict[@]}" -Wold-style-cast -- "${header[@]}"
    compile clang++ -x c++ -std=$standard "${strict[@]}" -Wold-style-cast -- "${header[@]}"
done
cppcheck -q --enable=warning,style,performance,portability --inconclusive --error-exitcode=1 --std=c99 -Iinclude \
    "${header[@]}" examples/*.c

# What must be refused: by C, where a pointer of another type is an error, and by C++: refuse SOURCE MISTAKES
refuse() {
    for ((wrong = 1; wrong <= $2; wrong++)); do
        if compile gcc -std=c11 -pedantic-errors -Werror=unused-result -DWRONG=$wrong -- "$1" 2> /dev/null ||
            compile g++ -x c++ -std=c++17 -Werror=unused-result -DWRONG=$wrong -- "$1" 2> /dev/null; then
            echo "the header lets mistake $wrong of $1 pass" >&2
            exit 1
        fi
    done
}
refuse "$out/uses.c" 10
refuse "$out/uses_desk.c" 3

# The form of a script: by its number, or expanded where it starts with AA or AE and compact else.
cat > "$out/forms.c" <<'END'
#include "rfm.h"

int main(void)
{
    for (uint32_t first = 0; first < 0x100; first++) {
        const uint8_t byte = (uint8_t)first;
        const enum rfm_format found = byte == 0xAA || byte == 0xAE ? RFM_EXPANDED : RFM_COMPACT;
        struct rfm_script script = {.bytes = &byte, .length = 1, .format = 2};
        if (rfm_form(&script) != found)
            return 1;
        for (script.format = 0; script.format < 2; script.format++)
            if (rfm_form(&script) != (script.format == 0 ? RFM_COMPACT : RFM_EXPANDED))
                return 1;
    }
    return rfm_form(&(struct rfm_script){.bytes = NULL, .length = 0, .format = 2}) != RFM_COMPACT;
}
END
gcc -Iinclude -o "$out/forms" "$out/forms.c"
"$out/forms" || { echo "include/rfm.h: rfm_form gives a form that is not the script's" >&2; exit 1; }

# The row of an operation: its numbers are big-endian.
cat > "$out/rows.c" <<'END'
#include "rfm_desk.h"

int main(void)
{
    uint8_t row[RFM_OPERATION_SIZE + 1] = {0};

    rfm_operation(row, 0x01, 0x23, 0x4567, 0x89AB, 0xCDEF);
    for (unsigned i = 0; i < RFM_OPERATION_SIZE; i++)
        if (row[i] != 0x22 * i + 1)
            return 1;
    return row[RFM_OPERATION_SIZE];
}
END
gcc -Iinclude -o "$out/rows" "$out/rows.c"
"$out/rows" || { echo "include/rfm_desk.h: rfm_operation writes another row" >&2; exit 1; }

# The texts, by README's rows.
cat > "$out/texts.c" <<'END'
#include <stdio.h>
#include <string.h>

#include "rfm.h"

int main(void)
{
    for (uint32_t number = 0; number < 0x100; number++)
        if (strcmp(rfm_number_text(number), rfm_number_text(UINT32_MAX)) != 0)
            printf("%u %s\n", number, rfm_number_text(number));
    for (uint32_t word = 0; word < 0x10000; word++)
        if (strcmp(rfm_word_text(word), rfm_word_text(UINT32_MAX)) != 0)
            printf("%04X %s\n", word, rfm_word_text(word));
    return 0;
}
END
gcc -Iinclude -o "$out/texts" "$out/texts.c" include/rfm_text.c
"$out/texts" | sed 's/^61[0-9A-F][0-9A-F]/61xx/' | LC_ALL=C sort -u > "$out/texts.header"
awk '/^## /{ on = /call numbers|status words/ } on' README.md | sed -nE 's/^\| ([0-9A-Fx, ]+) \| (.*) \|$/\1 \2/p' |
    sed -E 's/^(....), (....) (.*), (.*)$/\1 \3\n\2 \4/' | LC_ALL=C sort > "$out/texts.readme"
diff "$out/texts.readme" "$out/texts.header"

# The figures: 1234 stands in the header as 1,234.
for figure in stack text; do
    value=$(sed -nE "s/^$figure=([0-9]+)([0-9]{3})$/\1,\2/p" docs/MEASURES.md)
    grep -qF "$value bytes of" include/rfm.h || { echo "include/rfm.h: $figure is $value in docs/MEASURES.md" >&2; exit 1; }
done
echo "header: clean, and as README and docs/MEASURES.md have it"
