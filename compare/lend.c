/* Lends a call its memories: each against a page that must not be touched, before it or behind it,
 * with canaries on its other side. */
#define _GNU_SOURCE
#include "lend.h"

#include <setjmp.h>
#include <signal.h>
#include <stdio.h>
#include <stdlib.h>
#include <string.h>
#include <sys/mman.h>

/* A multiple of every machine's page size, in which each memory fits with its canaries. */
enum { PAGE = 131072 };

enum { CANARIES = 64 };
static uint8_t canaries[CANARIES];

/* What a call can do outside what it was lent. */
#define OUTSIDE(memory)                                                              \
    {                                                                                \
        [BEFORE] = "page before the " memory " touched",                             \
        [BEHIND] = "page behind the " memory " touched",                             \
        [CHANGED] = "byte beside the " memory " changed"                             \
    }
enum { CHANGED = SIDES };
static const char *const outside[MEMORIES][SIDES + 1] = {
    [TABLE] = OUTSIDE("table"), [FILES] = OUTSIDE("file memory"), [JOURNAL] = OUTSIDE("journal"),
    [SCRIPT] = OUTSIDE("script"), [RESPONSE] = OUTSIDE("response memory"),
    [OPERATIONS] = OUTSIDE("operations"), [DATA] = OUTSIDE("operations' data"),
    [BUILT] = OUTSIDE("script memory"), [ANSWER] = OUTSIDE("answer")};

/* The room for a memory, with a page on both sides, and what is lent in it now. */
static struct room {
    uint8_t *start;
    enum side page;
    struct part lent;
} rooms[MEMORIES];

/* How often each memory was lent on each side, and how often with length 0. */
static unsigned long times[SIDES + 1][MEMORIES];

/* ---- Watching ---- */

static sigjmp_buf before_call;
static volatile sig_atomic_t watching;
static uint8_t *volatile touched;

/* Leaves the call that touched what it must not; a fault of the comparison itself ends it. */
static void leave(int number, siginfo_t *information, void *context)
{
    (void)context;
    if (!watching) {
        signal(number, SIG_DFL);
        return;
    }
    touched = information->si_addr;
    siglongjmp(before_call, 1);
}

/* What the touched byte is. */
static const char *touched_part(void)
{
    for (enum lent_memory memory = TABLE; memory < MEMORIES; memory++) {
        uint8_t *const start = rooms[memory].start;
        if (touched >= start - PAGE && touched < start)
            return outside[memory][BEFORE];
        if (touched >= start + PAGE && touched < start + 2 * PAGE)
            return outside[memory][BEHIND];
    }
    return "memory touched that nobody lent";
}

/* Makes a call; answers what it touched outside what it was lent, NULL for nothing. */
const char *watch(void call(void *), void *context)
{
    const char *what = NULL;

    watching = 1;
    if (sigsetjmp(before_call, 0) == 0)
        call(context);
    else
        what = touched_part();
    watching = 0;
    return what;
}

/* ---- Lending ---- */

/* Copies bytes in blocks: an emulator copies what is longer byte by byte. */
void copy(uint8_t *to, const uint8_t *from, size_t length)
{
    for (size_t block; length > 0; to += block, from += block, length -= block) {
        block = smaller(length, 1024);
        memcpy(to, from, block);
    }
}

/* Makes the rooms and begins to watch. */
static void open_rooms(void)
{
    struct sigaction action = {.sa_sigaction = leave, .sa_flags = SA_SIGINFO | SA_NODEFER};

    for (enum lent_memory memory = TABLE; memory < MEMORIES; memory++) {
        uint8_t *const pages = mmap(NULL, 3 * PAGE, PROT_NONE, MAP_PRIVATE | MAP_ANONYMOUS, -1, 0);
        if (pages == MAP_FAILED || mprotect(pages + PAGE, PAGE, PROT_READ | PROT_WRITE) != 0) {
            perror("compare");
            exit(3);
        }
        rooms[memory].start = pages + PAGE;
    }
    memset(canaries, 0xA5, sizeof canaries);
    sigaction(SIGSEGV, &action, NULL);
    sigaction(SIGBUS, &action, NULL);
}

/* Where the canaries of a room are: on the side without the page. */
static uint8_t *canaries_of(const struct room *room)
{
    const struct part lent = room->lent;

    return room->page == BEFORE ? lent.at + lent.length : lent.at - CANARIES;
}

/* Lends a copy of a memory, with the page before or behind it. */
struct part lend(enum lent_memory memory, enum side page, struct part own)
{
    struct room *const room = &rooms[memory];

    if (room->start == NULL)
        open_rooms();
    room->page = page;
    room->lent.at = room->start + (page == BEFORE ? 0 : PAGE - own.length);
    room->lent.length = own.length;
    copy(room->lent.at, own.at, own.length);
    memcpy(canaries_of(room), canaries, CANARIES);
    times[page][memory]++;
    times[SIDES][memory] += own.length == 0;
    return room->lent;
}

/* Takes what was lent again; answers what was changed beside it, NULL for nothing. */
const char *take_again(enum lent_memory memory, uint8_t *own)
{
    const struct room *const room = &rooms[memory];

    copy(own, room->lent.at, room->lent.length);
    return memcmp(canaries_of(room), canaries, CANARIES) == 0 ? NULL : outside[memory][CHANGED];
}

/* Prints how often each memory was lent. */
void print_lent(void)
{
    static const char *const rows[SIDES + 1] = {"page before", "page behind", "length 0"};

    printf("\n%-12s  table  files journal script response oper.  data  built answer", "lent");
    for (size_t row = 0; row <= SIDES; row++) {
        printf("\n%-12s", rows[row]);
        for (enum lent_memory memory = TABLE; memory < MEMORIES; memory++)
            print_reached(times[row][memory]);
    }
    printf("\n");
}
