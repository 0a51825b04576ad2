/* The comparison of the library with the second program: compare SEED CALLS.
 * Answers 0 if all calls agree and all that must be reached was reached, 1 on a difference,
 * 2 if something was not reached, 3 if it was called wrongly. */
#include "compare.h"

#include <stdio.h>
#include <stdlib.h>

/* So many calls on cards go with one round at the desk. */
enum { CALLS_PER_ROUND = 20 };

/* Reads a decimal number. */
static bool read_number(const char *text, unsigned long long *number)
{
    char *end;

    *number = strtoull(text, &end, 10);
    return end != text && *end == '\0';
}

/* Prints a difference, where it was found and the shortest history that shows it; answers 1. */
static int show(const char *where, struct history *history, struct difference *difference)
{
    printf("compare: a difference %s\n", where);
    if (difference->against == AT_DESK) {
        print_desk_call(difference);
    } else {
        shorten(history, difference);
        print_history(history, difference);
    }
    return 1;
}

int main(int count, char **arguments)
{
    static struct history history;
    struct difference difference;
    unsigned long long seed, wanted, calls = 0, histories = 0, rounds = 0;

    if (count != 3 || !read_number(arguments[1], &seed) || !read_number(arguments[2], &wanted)) {
        printf("compare SEED CALLS\n");
        return 3;
    }
    if (!sweep(&history, &difference))
        return show("in the sweep", &history, &difference);
    if (!compare_longest(&difference))
        return show("in the longest answer", &history, &difference);
    start_random(seed);
    for (; calls < wanted; calls += history.count, histories++) {
        if (!compare_history(&history, &difference)) {
            char after[40];
            snprintf(after, sizeof after, "after %llu calls", calls + difference.call);
            return show(after, &history, &difference);
        }
    }
    for (; rounds < wanted / CALLS_PER_ROUND; rounds++)
        if (!compare_desk(&history, &difference))
            return show("at the desk", &history, &difference);
    const bool all_reached = print_coverage();
    printf("compare: the sweep; seed %llu, %llu calls in %llu histories, %llu rounds at the desk, "
           "no difference\n", seed, calls, histories, rounds);
    return all_reached ? 0 : 2;
}
