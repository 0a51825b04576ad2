/* What the desk must reach: each refusal of a build, each kind of operation, and each rule by which
 * an answer is damaged. A rule is told by the place of the first bad byte, all before it being as it
 * must be. */
#include "lists.h"

#include <stdio.h>

/* ---- Building ---- */

enum { FORMATS = 3, REFUSALS = 5, KINDS = 7, SIZES = 6 };

static const char *const formats[FORMATS] = {"compact", "expanded", "other"};

/* Lists and scripts that must be reached, by their sizes. */
static const char *const sizes[SIZES] = {"0 operations",  "1",           "40",
                                         "41",            "1,024 bytes", "1,025 bytes"};

static struct {
    unsigned long numbers[FORMATS][REFUSALS], carried[FORMATS][KINDS], at_fault[FORMATS][KINDS + 1];
    unsigned long sizes[FORMATS][SIZES];
} built;

/* The column of a format. */
static size_t column_of(uint8_t format) { return format < 2 ? format : 2; }

/* Notes a build: its number, the kinds that were carried or the one that was not, and its sizes. */
void note_built(const struct list *list, uint8_t format, uint64_t result)
{
    const size_t column = column_of(format), number = RFM_NUMBER(result);
    const size_t operations = list->operations_length / RFM_OPERATION_SIZE;

    built.numbers[column][smaller(number, REFUSALS - 1)]++;
    built.sizes[column][0] += list->operations_length == 0;
    built.sizes[column][1] += number == RFM_BUILT && operations == 1;
    built.sizes[column][2] += number == RFM_BUILT && operations == 40;
    built.sizes[column][3] += number == RFM_NOT_1_TO_40 && operations == 41;
    built.sizes[column][4] += number == RFM_BUILT && RFM_LENGTH(result) == MOST_SCRIPT;
    built.sizes[column][5] += number == RFM_SCRIPT_TOO_LONG && list->meant == MOST_SCRIPT + 1;
    for (size_t i = 0; number == RFM_BUILT && i < operations; i++)
        built.carried[column][list->operations[i * RFM_OPERATION_SIZE] - 1]++;
    if (number == RFM_NOT_CARRIED && RFM_COUNT(result) <= operations) {
        const uint8_t kind = list->operations[(RFM_COUNT(result) - 1) * RFM_OPERATION_SIZE];
        built.at_fault[column][kind >= 1 && kind <= KINDS ? kind - 1 : KINDS]++;
    }
}

/* ---- Reading ---- */

enum form { IN_COMPACT, IN_AB, IN_AF, FORMS };

enum rule {
    FIRST_BYTE, WORD_FIRST, WORD_SECOND, DATA_OF_NONE, TOO_MUCH_DATA, LENGTH_MISSING, LENGTH_FORM,
    LENGTH_CUT, NOT_SHORTEST, PAST_END, AB_EMPTY, NO_COUNT, COUNT_ENDS, COUNT_LENGTH, COUNT_MISSING,
    COUNT_NEGATIVE, COUNT_NOT_SHORTEST, NOT_80, END_BYTE, CUT, AFTER_STOP, AFTER_BAD_FORMAT,
    AFTER_COUNT, OTHER_TAG, TAG_ENDS, CODE_LENGTH, CODE, CODE_MISSING, NO_ROOM_FOR_WORD,
    DATA_MISSING, WORD_FIRST_DATA, WORD_SECOND_DATA, BEHIND_END, NO_RESULT, RULES
};

/* The rules, and the forms that have them: c compact, b AB, f AF. */
static const struct {
    const char *name, *forms;
} rules[RULES] = {[FIRST_BYTE] = {"first byte: count missing or 0, no template", "cb"},
                  [WORD_FIRST] = {"word: first byte", "cbf"},
                  [WORD_SECOND] = {"word: second byte", "cbf"},
                  [DATA_OF_NONE] = {"data behind a word that has none", "c"},
                  [TOO_MUCH_DATA] = {"more data than the most", "c"},
                  [LENGTH_MISSING] = {"length: no byte", "bf"},
                  [LENGTH_FORM] = {"length: 80 or above 82", "bf"},
                  [LENGTH_CUT] = {"length: fewer bytes than its form needs", "bf"},
                  [NOT_SHORTEST] = {"length: not the shortest form", "bf"},
                  [PAST_END] = {"length: past the end of the value", "b"},
                  [AB_EMPTY] = {"empty value", "b"},
                  [NO_COUNT] = {"no 80", "b"},
                  [COUNT_ENDS] = {"80 is the value's last byte", "b"},
                  [COUNT_LENGTH] = {"count: length not 1 or 2", "b"},
                  [COUNT_MISSING] = {"count: a byte missing", "b"},
                  [COUNT_NEGATIVE] = {"count: first byte above 7F", "b"},
                  [COUNT_NOT_SHORTEST] = {"count: 00 and then below 80", "b"},
                  [NOT_80] = {"second byte not 80", "f"},
                  [END_BYTE] = {"00 and then not 00", "f"},
                  [CUT] = {"the answer ends in a tag's place", "bf"},
                  [AFTER_STOP] = {"tag behind a word that stops", "bf"},
                  [AFTER_BAD_FORMAT] = {"tag behind a Bad format", "bf"},
                  [AFTER_COUNT] = {"tag behind as many as the count", "b"},
                  [OTHER_TAG] = {"tag neither 23 nor 90", "bf"},
                  [TAG_ENDS] = {"tag is the value's last byte", "b"},
                  [CODE_LENGTH] = {"90: length not 1", "bf"},
                  [CODE] = {"90: code not 01 to 03", "bf"},
                  [CODE_MISSING] = {"90: code missing", "bf"},
                  [NO_ROOM_FOR_WORD] = {"23: length below 2", "bf"},
                  [DATA_MISSING] = {"23: data missing", "bf"},
                  [WORD_FIRST_DATA] = {"word behind data: first byte", "bf"},
                  [WORD_SECOND_DATA] = {"word behind data: second byte", "bf"},
                  [BEHIND_END] = {"a byte behind the end", "bf"},
                  [NO_RESULT] = {"a count and no result", "b"}};

enum { READINGS = 2, GOOD = 5 };

/* Good answers that must be reached. */
static const char *const good[GOOD] = {"no result", "a result", "data", "Bad format",
                                       "a count above 127"};

static struct {
    unsigned long longest, too_long, numbers[FORMATS][READINGS];
    unsigned long rules[FORMS][RULES], good[FORMS][GOOD];
} read;

/* An answer with the place of its first bad byte. */
struct damaged {
    const uint8_t *at;
    size_t length, bad;
};

/* Looks at a length; a rule if reading stops in it, `own` being that of a length which is not asked
 * for there, else RULES, with the length and the place behind it. */
static enum rule rule_of_length(const struct damaged *of, size_t place, size_t least, size_t most,
                                enum rule own, size_t *length, size_t *behind)
{
    if (place >= of->length)
        return LENGTH_MISSING;
    const uint8_t first = of->at[place];
    const size_t size = first < 0x80 ? 1 : first - 0x7Fu;
    if (first == 0x80 || first > 0x82)
        return LENGTH_FORM;
    if (place + size > of->length)
        return LENGTH_CUT;
    *length = size < 3 ? of->at[place + size - 1] : number_at(of->at + place + 1);
    *behind = place + size;
    if (of->bad >= *behind)
        return RULES;
    if (size > 1 && *length < (size == 2 ? 0x80u : 0x100u))
        return NOT_SHORTEST;
    return *length < least || *length > most ? own : PAST_END;
}

/* The rule of a result that begins at a place, RULES if reading does not stop in it; then the place
 * behind it, and whether nothing may follow. */
static enum rule rule_of_result(const struct damaged *of, size_t *place, enum rule *stop)
{
    const bool code = of->at[*place] == 0x90;
    size_t length, data;
    const enum rule rule =
        code ? rule_of_length(of, *place + 1, 1, 1, CODE_LENGTH, &length, &data)
             : rule_of_length(of, *place + 1, 2, SIZE_MAX, NO_ROOM_FOR_WORD, &length, &data);

    if (rule != RULES)
        return rule;
    const size_t word = data + length - (code ? 0 : 2);
    *place = data + length;
    if (of->bad < *place || of->length < *place) {
        if (code)
            return of->bad == of->length ? CODE_MISSING : CODE;
        if (of->bad < word)
            return DATA_MISSING;
        if (length > 2)
            return of->bad == word ? WORD_FIRST_DATA : WORD_SECOND_DATA;
        return of->bad == word ? WORD_FIRST : WORD_SECOND;
    }
    const unsigned said = code ? 0 : number_at(of->at + word);
    const bool goes_on = said == 0x9000 || said == 0x6282 || said == 0x6283;
    *stop = code ? AFTER_BAD_FORMAT : goes_on ? RULES : AFTER_STOP;
    return RULES;
}

/* The rule by which reading stops in the results, which begin at a place and end at another. */
static enum rule rule_of_results(const struct damaged *of, size_t place, size_t end, size_t count)
{
    const bool definite = of->at[0] == 0xAB;
    enum rule stop = RULES;

    for (size_t results = 0;; results++) {
        if (definite && place == end)
            return results == 0 && count > 0 ? NO_RESULT : BEHIND_END;
        if (place >= of->length)
            return CUT;
        if (!definite && of->at[place] == 0x00)
            return of->bad == place + 1 ? END_BYTE : BEHIND_END;
        if (of->bad == place) {
            if (stop != RULES)
                return stop;
            if (definite && results == count)
                return AFTER_COUNT;
            return of->at[place] == 0x23 || of->at[place] == 0x90 ? TAG_ENDS : OTHER_TAG;
        }
        const enum rule rule = rule_of_result(of, &place, &stop);
        if (rule != RULES)
            return rule;
    }
}

/* The rule by which reading stops in AB. */
static enum rule rule_of_ab(const struct damaged *of)
{
    size_t length, place, count_length, count_place;
    enum rule rule = rule_of_length(of, 1, 1, SIZE_MAX, AB_EMPTY, &length, &place);

    if (rule != RULES)
        return rule;
    const size_t end = place + length;
    if (of->bad == place)
        return place < of->length && of->at[place] == 0x80 ? COUNT_ENDS : NO_COUNT;
    rule = rule_of_length(of, place + 1, 1, 2, COUNT_LENGTH, &count_length, &count_place);
    if (rule != RULES)
        return rule;
    if (of->bad < count_place + count_length) {
        if (of->bad == of->length)
            return COUNT_MISSING;
        return of->bad == count_place ? COUNT_NEGATIVE : COUNT_NOT_SHORTEST;
    }
    const uint8_t *const count = of->at + count_place;
    return rule_of_results(of, count_place + count_length, end,
                           count_length == 1 ? count[0] : number_at(count));
}

/* The rule by which reading stops. */
static enum rule rule_of(const struct damaged *of, enum form form)
{
    static const enum rule in_compact[] = {FIRST_BYTE, WORD_FIRST, WORD_SECOND, DATA_OF_NONE};

    if (form == IN_COMPACT)
        return of->bad < 4 ? in_compact[of->bad] : TOO_MUCH_DATA;
    if (of->bad == 0)
        return FIRST_BYTE;
    if (form == IN_AB)
        return rule_of_ab(of);
    return of->bad == 1 ? NOT_80 : rule_of_results(of, 2, SIZE_MAX, 0);
}

/* Whether a form has a rule. */
static bool has_rule(enum form form, size_t rule)
{
    const char *letter = rules[rule].forms;

    while (*letter != '\0' && *letter != "cbf"[form])
        letter++;
    return *letter != '\0';
}

/* Notes a reading: its number, the rule of a damaged answer, what a good one has; false if no rule
 * has the place of a damaged one. */
bool note_read(uint8_t format, const struct reply *reply, const struct reading *reading)
{
    const unsigned number = RFM_NUMBER(reading->answer);
    const struct damaged of = {reply->at, reply->length, RFM_LENGTH(reading->answer)};
    const bool af = reply->length > 0 && reply->at[0] == 0xAF;
    const enum form form = format == RFM_COMPACT ? IN_COMPACT : af ? IN_AF : IN_AB;

    read.numbers[column_of(format)][smaller(number, READINGS - 1)]++;
    if (format > RFM_EXPANDED)
        return true;
    if (number == RFM_ANSWER_DAMAGED) {
        const enum rule rule = of.bad <= of.length ? rule_of(&of, form) : RULES;
        if (rule == RULES || !has_rule(form, rule))
            return false;
        read.rules[form][rule]++;
    }
    if (number != RFM_ANSWER_READ)
        return true;
    read.good[form][0] += reading->results == 1;
    read.good[form][4] += RFM_COUNT(reading->answer) >= 0x80;
    for (size_t i = 0; i + 1 < reading->results; i++) {
        const bool code = RFM_WORD(reading->result[i]) <= RFM_NO_LENGTH;
        const bool data = RFM_DATA_LENGTH(reading->result[i]) > 0;
        read.good[form][code ? 3 : data ? 2 : 1]++;
    }
    return true;
}

/* Notes a reading of 16,777,215 bytes, or of one more. */
void note_longest(uint64_t result)
{
    read.longest += RFM_NUMBER(result) == RFM_ANSWER_READ;
    read.too_long += RFM_NUMBER(result) == RFM_ANSWER_TOO_LONG;
}

/* ---- Printing ---- */

/* Prints how often something was reached, if it can be. */
static void print_if(bool possible, unsigned long times)
{
    if (possible)
        print_reached(times);
    else
        printf(" %6s", "-");
}

/* Prints the builds. */
static void print_built(void)
{
    static const char *const kinds[KINDS + 1] = {"select", "update", "read",   "upd. r",
                                                 "read r", "incr.",  "search", "other"};

    printf("\n%-12s      0      1      2      3      4", "built");
    for (size_t i = 0; i < SIZES; i++)
        printf("  %s", sizes[i]);
    for (size_t column = 0; column < FORMATS; column++) {
        printf("\n%-12s", formats[column]);
        for (size_t number = 0; number < REFUSALS; number++)
            print_if(column < 2 || number == 1 || number == 2, built.numbers[column][number]);
        for (size_t i = 0; i < SIZES; i++)
            print_if(column < 2 || i == 0 || i == 3, built.sizes[column][i]);
    }
    printf("\n\n%-12s", "operation");
    for (size_t kind = 0; kind <= KINDS; kind++)
        printf(" %6s", kinds[kind]);
    for (size_t column = 0; column < 2; column++) {
        printf("\n%-12s", formats[column]);
        for (size_t kind = 0; kind < KINDS; kind++)
            print_reached(built.carried[column][kind]);
        printf("\n%-12s", "  at fault");
        for (size_t kind = 0; kind <= KINDS; kind++)
            print_reached(built.at_fault[column][kind]);
    }
    printf("\n");
}

/* Prints the readings. */
static void print_read(void)
{
    printf("\n%-12s      0      1", "read");
    for (size_t column = 0; column < FORMATS; column++) {
        printf("\n%-12s", formats[column]);
        print_if(column < 2, read.numbers[column][RFM_ANSWER_READ]);
        print_reached(read.numbers[column][RFM_ANSWER_DAMAGED]);
    }
    printf("\n%-12s", "longest");
    print_reached(read.longest);
    printf("  too long:");
    print_reached(read.too_long);
    printf("\n\n%-44s compact   AB     AF\n", "good answers, and the rules of damaged ones");
    for (size_t i = 0; i < GOOD; i++) {
        printf("%-44s", good[i]);
        print_if(i != 0 && i != 3, read.good[IN_COMPACT][i]);
        print_reached(read.good[IN_AB][i]);
        print_reached(read.good[IN_AF][i]);
        printf("\n");
    }
    for (size_t rule = 0; rule < RULES; rule++) {
        printf("%-44s", rules[rule].name);
        for (size_t form = 0; form < FORMS; form++) {
            print_if(has_rule((enum form)form, rule), read.rules[form][rule]);
        }
        printf("\n");
    }
}

void print_desk_coverage(void)
{
    print_built();
    print_read();
}
