/*
 * Tests of the entry points for C, linked from the proved archive: here of tender_list, and of the program beside it.
 *   host PROGRAM [ROUNDS]     ROUNDS small random tenders and as many with a byte changed (default 100000), the other sorts in proportion
 */
#define _GNU_SOURCE
#include "bids.h"
#include "calls.h"
#include "entry.h"
#include "highest.h"
#include "prices.h"
#include "rewrites.h"
#include "second.h"
#include "texts.h"
#include "tries.h"

#include <pthread.h>
#include <stdio.h>
#include <stdlib.h>
#include <string.h>
#include <sys/wait.h>
#include <unistd.h>

/* the list; where it is a refusal, it is that of the highest price too */
static void lists(const char *text, size_t n, const char *want)
{
    writes(tender_list, LIST_MAX, text, n, want);
    if (want[1] == 'r') highest_declines(text, n, want);
}

/* a text that cannot be read: each call writes its refusal */
static void refuses(const char *text, size_t n, const char *want)
{
    lists(text, n, want);
    writes(tender_rewrite, rewrite_room(n), text, n, want);
}

#define LISTS(text, want) lists(text, sizeof text - 1, want)
#define REFUSES(text, want) refuses(text, sizeof text - 1, want)

static const char EXAMPLE[] =
    "(tender single 0 100)\n(bid 11 30 (0 50))\n(bid 12 40 (40 100))\n(bid 13 90 (0 100))\n(bid 14 35 (0 60))\n(bid 15 50 (60 100))\n";
static const char EXAMPLE_LIST[] = "(award single 0 100)\n(win 11 35)\n(win 12 55)\n(total 70 90)\n";

static void worked(void)
{
    LISTS(EXAMPLE, EXAMPLE_LIST);
    LISTS("(tender multi 0 10)\n(bid 21 12 (0 4) (6 8))\n(bid 22 15 (4 10))\n(bid 23 30 (0 10))\n(bid 24 9 (8 10) (4 5))\n",
          "(award multi 0 10)\n(win 21 30)\n(win 22 30)\n(win 24 11)\n(total 36 71)\n");
    LISTS("(tender single 0 10)\n(bid 1 0 (0 10))\n(bid 2 0 (0 10))\n", "(award single 0 10)\n(win 1 0)\n(total 0 0)\n");
    LISTS("(tender multi 0 10)\n(bid 1 0 (0 10))\n(bid 2 0 (0 10))\n", "(award multi 0 10)\n(win 1 0)\n(total 0 0)\n");
}

/* the house: after all bids, with every minute */

#define HALF(price) "(tender multi 0 10)\n(reserve 100)\n(bid 1 " #price " (0 5))\n"

static void reserves(void)
{
    LISTS("(tender single 0 1)\n(reserve 5000)\n", "(award single 0 1)\n(house 5000)\n(total 5000 0)\n");
    LISTS("(tender multi 0 1)\n(reserve 0)\n", "(award multi 0 1)\n(house 0)\n(total 0 0)\n");
    LISTS("(tender multi 0 10080)\n(reserve 100000000)\n", "(award multi 0 10080)\n(house 100000000)\n(total 100000000 0)\n");
    LISTS(HALF(10), "(award multi 0 10)\n(win 1 50)\n(house 100)\n(total 110 50)\n");
    LISTS(HALF(50), "(award multi 0 10)\n(win 1 50)\n(house 100)\n(total 150 50)\n");
    LISTS(HALF(51), "(award multi 0 10)\n(house 100)\n(total 100 0)\n");
    LISTS("(tender single 0 10)\n(reserve 100)\n(bid 1 10 (0 5))\n", "(award single 0 10)\n(house 100)\n(total 100 0)\n");
    /* on a tie the house, the last entry, loses */
    LISTS("(tender single 0 10)\n(reserve 20)\n(bid 1 20 (0 10))\n", "(award single 0 10)\n(win 1 20)\n(total 20 20)\n");
    LISTS("(tender single 0 10)\n(reserve 20)\n(bid 1 21 (0 10))\n", "(award single 0 10)\n(house 20)\n(total 20 0)\n");
    LISTS("(tender multi 0 10)\n(reserve 20)\n(bid 1 20 (0 10))\n", "(award multi 0 10)\n(win 1 20)\n(total 20 20)\n");
    LISTS("(tender multi 0 10)\n(reserve 20)\n(bid 1 21 (0 10))\n", "(award multi 0 10)\n(house 20)\n(total 20 0)\n");
    LISTS("(tender single 0 10)\n(reserve 20)\n(bid 1 10 (0 5))\n(bid 2 10 (5 10))\n",
          "(award single 0 10)\n(win 1 10)\n(win 2 10)\n(total 20 20)\n");
    LISTS("(tender multi 0 10)\n(reserve 20)\n(bid 1 10 (0 5))\n(bid 2 10 (5 10))\n",
          "(award multi 0 10)\n(win 1 20)\n(win 2 20)\n(total 20 40)\n");
    LISTS("(tender single 0 10)\n(reserve 0)\n(bid 1 0 (0 10))\n", "(award single 0 10)\n(win 1 0)\n(total 0 0)\n");
    LISTS("(tender multi 0 10)\n(reserve 0)\n(bid 1 0 (0 10))\n", "(award multi 0 10)\n(win 1 0)\n(total 0 0)\n");
    LISTS("(tender multi 0 10)\n(reserve 0)\n(bid 1 1 (0 10))\n(bid 2 2 (0 5))\n", "(award multi 0 10)\n(house 0)\n(total 0 0)\n");
    /* a lone owner, and no one in a minute */
    LISTS("(tender single 480 600)\n(reserve 5000)\n(bid 31 1200 (480 560))\n(bid 32 900 (540 600))\n(bid 33 1500 (500 600))\n",
          "(award single 480 600)\n(win 31 4100)\n(win 32 1500)\n(total 2100 5600)\n");
    /* beside a bid that costs nothing, and one with no minute of the tender */
    LISTS("(tender single 0 10)\n(reserve 7)\n(bid 1 0 (0 5))\n", "(award single 0 10)\n(house 7)\n(total 7 0)\n");
    LISTS("(tender multi 0 10)\n(reserve 7)\n(bid 1 0 (0 5))\n(bid 2 0 (20 30))\n",
          "(award multi 0 10)\n(win 1 3)\n(house 7)\n(total 7 3)\n");
}

static void misplaced_reserves(void)
{
    REFUSES("(tender single 0 9)\n(bid 1 1 (0 9))\n(reserve 5000)\n", "(refused 16 3)\n");
    REFUSES("(tender single 0 9)\n(reserve 5000)\n(reserve 5000)\n", "(refused 16 3)\n");
    REFUSES("(tender single 0 9)\n(bid 1 1 (0 9))\n(reserve 100000001)\n", "(refused 16 3)\n");
    REFUSES("(tender single 0 9)\n(reserve 5000)\n(bid 1 1 (0 9))\n(reserve 6000)\n", "(refused 16 4)\n");
    REFUSES("(tender single 0 9)\n(bid 1 1 (0 9))\n(reserve 007)\n", "(refused 2 3)\n");
    REFUSES("(tender single 0 9)\n(bid 1 1 (0 9))\n(reserve 5000)", "(refused 2 3)\n");
    REFUSES("(reserve 5000)\n", "(refused 2 1)\n");
    REFUSES("(reserve 5000)\n(tender single 0 9)\n", "(refused 2 1)\n");
    REFUSES("(tender single 9 9)\n(reserve 007)\n", "(refused 5 1)\n");
    REFUSES("(tender single 0 9)\n(reserve 100000001)\n", "(refused 3 2)\n");
    REFUSES("(tender single 0 9)\n(reserve 100000001)\n(reserve 5000)\n", "(refused 3 2)\n");
    REFUSES("(tender single 0 9)\n(reserve 999999999)\n", "(refused 3 2)\n");
    REFUSES("(tender single 0 9)\n(reserve 1000000000)\n", "(refused 2 2)\n");
    REFUSES("(tender single 0 9)\n(reserve 007)\n", "(refused 2 2)\n");
    REFUSES("(tender single 0 9)\n(reserve)\n", "(refused 2 2)\n");
    REFUSES("(tender single 0 9)\n(reserve )\n", "(refused 2 2)\n");
    REFUSES("(tender single 0 9)\n(reserve 5 )\n", "(refused 2 2)\n");
    REFUSES("(tender single 0 9)\n(reserve 5 6)\n", "(refused 2 2)\n");
    REFUSES("(tender single 0 9)\n(reserve  5)\n", "(refused 2 2)\n");
    REFUSES("(tender single 0 9)\n(reserve (0 5))\n", "(refused 2 2)\n");
    REFUSES("(tender single 0 9)\n(reserves 5)\n", "(refused 2 2)\n");
    REFUSES("(tender single 0 9)\n(reserve 5)", "(refused 2 2)\n");
    REFUSES("(tender single 0 9)\n(house 5)\n", "(refused 2 2)\n");
    /* bids then begin on line 3 */
    REFUSES("(tender single 0 9)\n(reserve 5)\n(bid 0 1 (0 9))\n", "(refused 3 3)\n");
    REFUSES("(tender single 0 9)\n(reserve 5)\n(bid 7 1 (0 9))\n(bid 7 1 (0 9))\n", "(refused 6 4)\n");
}

/* a text of so many bids of all the minutes, each a cent dearer than the one before, after these lines */
static size_t many_bids(char *s, const char *lines, int bids)
{
    size_t n = (size_t)sprintf(s, "%s", lines);
    for (int i = 1; i <= bids; i++) n += (size_t)sprintf(s + n, "(bid %d %d (0 10))\n", i, 100 + i);
    return n;
}

/* the house counts toward no limit, and its line counts in line numbers */
static void many_beside_a_reserve(void)
{
    static char big[TEXT_ROOM];
    refuses(big, many_bids(big, "(tender multi 0 10)\n(reserve 5)\n", 1001), "(refused 4 1003)\n");
    lists(big, many_bids(big, "(tender multi 0 10)\n(reserve 5)\n", 1000), "(award multi 0 10)\n(house 5)\n(total 5 0)\n");
    lists(big, many_bids(big, "(tender single 0 10)\n(reserve 5)\n", 1000), "(award single 0 10)\n(house 5)\n(total 5 0)\n");
    lists(big, many_bids(big, "(tender multi 0 10)\n(reserve 101)\n", 1000), "(award multi 0 10)\n(win 1 101)\n(total 101 101)\n");
    lists(big, many_bids(big, "(tender single 0 10)\n(reserve 101)\n", 1000), "(award single 0 10)\n(win 1 101)\n(total 101 101)\n");
    size_t n = many_bids(big, "(tender multi 0 10)\n", 1000);
    n += (size_t)sprintf(big + n, "(reserve 5)\n");
    refuses(big, n, "(refused 16 1002)\n");
    n = many_bids(big, "(tender multi 0 10)\n", 1001);
    n += (size_t)sprintf(big + n, "(reserve 5)\n");
    refuses(big, n, "(refused 4 1002)\n");
}

/* 11 and 12 name the earliest minute, counted from 0 and not from the tender's start; 11 stands before 12 wherever it falls */
static void earliest(void)
{
    LISTS("(tender single 0 10)\n(bid 1 1 (0 5))\n(bid 2 1 (5 10))\n", "(refused 12 0)\n");
    LISTS("(tender multi 0 10)\n(bid 1 1 (0 5))\n(bid 2 1 (5 10))\n", "(refused 12 0)\n");
    LISTS("(tender single 480 600)\n(bid 1 1 (480 500))\n(bid 2 1 (480 500))\n(bid 3 1 (510 600))\n(bid 4 1 (510 600))\n",
          "(refused 11 500)\n");
    LISTS("(tender single 0 9)\n(bid 1 1 (0 7))\n(bid 2 1 (0 3))\n(bid 3 1 (4 7))\n(bid 4 1 (8 9))\n", "(refused 11 7)\n");
    LISTS("(tender multi 0 9)\n(bid 1 1 (0 7))\n(bid 2 1 (0 3) (4 7) (8 9))\n", "(refused 11 7)\n");
    LISTS("(tender multi 0 128)\n(bid 1 1 (0 64))\n(bid 2 1 (0 64))\n(bid 3 1 (65 128))\n(bid 4 1 (65 128))\n", "(refused 11 64)\n");
    LISTS("(tender multi 0 128)\n(bid 1 1 (0 63))\n(bid 2 1 (0 128))\n(bid 3 1 (64 128))\n", "(refused 12 63)\n");
    LISTS("(tender multi 100 300)\n(bid 1 1 (0 10080))\n(bid 2 1 (0 163) (164 10080))\n", "(refused 12 163)\n");
    LISTS("(tender multi 10000 10080)\n(bid 1 1 (0 10079))\n(bid 2 1 (0 10079))\n", "(refused 11 10079)\n");
}

static void refusals(void)
{
    static char big[70000];
    memset(big, 'x', sizeof big);
    refuses(big, 65537, "(refused 1 0)\n");
    refuses(big, 65536, "(refused 2 1)\n");
    REFUSES("", "(refused 2 1)\n");
    REFUSES("(tender single 0 100)", "(refused 2 1)\n");
    REFUSES("(tender single 0 100)\r\n", "(refused 2 1)\n");
    REFUSES("(tender single 0 100)\n\n", "(refused 2 2)\n");
    REFUSES("(tender single 0 100)\n(bid 007 1 (0 1))\n", "(refused 2 2)\n");
    REFUSES("(tender single 0 100)\n(bid 1 1 (0 1))\0\n", "(refused 2 2)\n");
    REFUSES("(tender single 0 100)\n(bid 1 1 (0 1))\n(bid 0 1 (0 1))\n", "(refused 3 3)\n");
    REFUSES("(tender single 0 100)\n(bid 1 100000001 (0 1))\n", "(refused 3 2)\n");
    REFUSES("(tender single 0 100)\n(bid 1 1 (5 5))\n", "(refused 5 2)\n");
    REFUSES("(tender single 7 7)\n", "(refused 5 1)\n");
    REFUSES("(tender single 10082 10081)\n", "(refused 5 1)\n");
    REFUSES("(tender single 0 100)\n(bid 1 1 (9 3))\n", "(refused 5 2)\n");
    REFUSES("(tender single 0 100)\n(bid 1 1 (10081 10081))\n", "(refused 5 2)\n");
    REFUSES("(tender multi 0 100)\n(bid 1 1 (0 10081) (5 5))\n", "(refused 5 2)\n");
    REFUSES("(tender multi 0 100)\n(bid 1 1 (5 5) (0 10081))\n", "(refused 5 2)\n");
    REFUSES("(tender single 0 10081)\n", "(refused 15 1)\n");
    REFUSES("(tender single 0 100)\n(bid 1 1 (0 10081))\n", "(refused 15 2)\n");
    REFUSES("(tender multi 0 100)\n(bid 1 1 (0 10080) (0 10081) (1 2))\n", "(refused 15 2)\n");
    REFUSES("(tender single 0 100)\n(bid 1 1 (0 1))\n(bid 1 1 (0 10081))\n", "(refused 15 3)\n");
    REFUSES("(tender single 0 100)\n(bid 1 1 (0 10081) (0 10082))\n", "(refused 7 2)\n");
    REFUSES("(tender single 0 100)\n(bid 1 1 (0 1))\n(bid 1 1 (0 1))\n", "(refused 6 3)\n");
    REFUSES("(tender single 0 100)\n(bid 1 1 (0 1) (2 3))\n", "(refused 7 2)\n");
    LISTS("(tender multi 0 1)\n", "(refused 11 0)\n");
    LISTS("(tender single 3 4)\n(bid 1 1 (0 10))\n", "(refused 12 3)\n");
    earliest();
    misplaced_reserves();
    many_beside_a_reserve();
    size_t n = (size_t)sprintf(big, "(tender multi 0 10)\n(bid 1 1");
    for (int i = 0; i < 33; i++) n += (size_t)sprintf(big + n, " (0 1)");
    n += (size_t)sprintf(big + n, ")\n");
    refuses(big, n, "(refused 4 2)\n");
    n = (size_t)sprintf(big, "(tender multi 0 10)\n");
    for (int i = 1; i <= 1001; i++) n += (size_t)sprintf(big + n, "(bid %d 1 (0 10))\n", i);
    refuses(big, n, "(refused 4 1002)\n");
}

/* random texts */

/* the list is the second implementation's, byte for byte */
static bool agrees(const uint8_t *text, size_t n, const uint8_t *out, size_t k)
{
    static char other[1 << 16];
    return k == second_list(text, n, other, sizeof other) && !memcmp(out, other, k);
}

static bool awarded(const uint8_t *out, size_t k)
{
    return k > 6 && !memcmp(out, "(award", 6);
}

/* the list has a line of the house */
static bool housed(const uint8_t *out, size_t k)
{
    return memmem(out, k, "\n(house ", 8);
}

static void random_texts(long rounds)
{
    static char s[TEXT_ROOM];
    static uint8_t out[ROOM];
    long awards = 0, houses = 0;
    for (long i = 0; i < 2 * rounds; i++) {
        size_t n = small_text(s);
        if (i % 2) n = mutated(s, n);
        size_t k = called(tender_list, s, n, LIST_MAX, out);
        expect(agrees((const uint8_t *)s, n, out, k), "differs from the second implementation", s, n);
        awards += awarded(out, k);
        houses += housed(out, k);
    }
    for (long i = 0; i < rounds / 4; i++) {
        size_t n = below(64);
        for (size_t j = 0; j < n; j++) s[j] = (char)below(256);
        size_t k = called(tender_list, s, n, LIST_MAX, out);
        expect(agrees((const uint8_t *)s, n, out, k), "random bytes", s, n);
    }
    printf("small tenders: %ld awarded, the house booked in %ld, %ld declined; %ld texts of random bytes\n", awards, houses,
           2 * rounds - awards, rounds / 4);
}

/* texts with several faults on a line: the order in which they are told */
static void faulty_texts(long rounds)
{
    enum { NUMBERS = 17 };
    static char s[TEXT_ROOM];
    static uint8_t out[ROOM];
    long told[NUMBERS] = {0};
    for (long i = 0; i < rounds; i++) {
        size_t n = faulty_text(s), k = called(tender_list, s, n, LIST_MAX, out);
        unsigned number = 0;
        expect(agrees((const uint8_t *)s, n, out, k), "the order of a line's faults", s, n);
        sscanf((const char *)out, "(refused %u", &number);
        told[number < NUMBERS ? number : 0]++;
    }
    printf("faulty lines: %ld texts;", rounds);
    for (int i = 1; i < NUMBERS; i++) if (told[i]) printf(" %d told %ld times;", i, told[i]);
    printf(" %ld awarded\n", told[0]);
}

/* tenders of several words; a buffer of one byte too few is declined */

enum { WEEK = 10080 };

typedef struct { long awarded[2], housed[2], declined[2]; } Wide;      /* multi, single */

static void wide(Size size, Wide *count)
{
    static char s[TEXT_ROOM];
    static uint8_t out[ROOM];
    size_t n = wide_text(s, size), k = called(tender_list, s, n, LIST_MAX, out);
    expect(agrees((const uint8_t *)s, n, out, k), "a wide tender", s, n);
    if (awarded(out, k)) count->awarded[size.single]++;
    else count->declined[size.single]++;
    count->housed[size.single] += housed(out, k);
    expect(k && called(tender_list, s, n, k - 1, out) == 0, "a wide tender, a short buffer", s, n);
}

static void say(const char *what, const Wide *w)
{
    printf("%s: single %ld awarded, the house booked in %ld, %ld declined; multi %ld awarded, in %ld, %ld declined\n", what, w->awarded[1],
           w->housed[1], w->declined[1], w->awarded[0], w->housed[0], w->declined[0]);
}

static void wide_tenders(long rounds)
{
    enum { SIZES = 12 };
    static const Size week[SIZES] = {{true, WEEK, 1000, 1}, {false, WEEK, 10, 3}, {true, WEEK, 10, 1}, {false, WEEK, 20, 32},
                                     {true, WEEK, 50, 1}, {false, WEEK, 40, 8}, {true, WEEK, 300, 1}, {false, WEEK, 100, 32},
                                     {true, WEEK, 20, 1}, {false, WEEK, 300, 4}, {true, WEEK, 100, 1}, {false, WEEK, 1000, 2}};
    Wide some = {0}, weeks = {0};
    for (long i = 0; i < rounds / 20; i++) wide(wide_size(), &some);
    for (long i = 0; i < rounds / 4000; i++) wide(week[i % SIZES], &weeks);
    say("60 to 600 minutes", &some);
    say("10,080 minutes", &weeks);
}

/* several threads at once: each runs all the texts, of both kinds and all widths, beginning at another */

enum { THREADS = 4, TEXTS = 60, PASSES = 5 };
static struct {
    char text[TEXT_ROOM], list[1 << 16], rewritten[TEXT_ROOM], highest[64];
    size_t n, k, m, h;
    uint64_t bidder;        /* one of the text's, or 0 where it has none */
} shared[TEXTS];

static void *thread(void *arg)
{
    int *wrong = arg, from = *wrong * TEXTS / THREADS;
    uint8_t *out = malloc(ROOM);
    if (!out) exit(2);
    *wrong = 0;
    for (int i = 0; i < TEXTS * PASSES; i++) {
        int at = (from + i) % TEXTS;
        size_t k = tender_list((const uint8_t *)shared[at].text, shared[at].n, out, ROOM);
        *wrong += k != shared[at].k || memcmp(out, shared[at].list, k);
        size_t m = tender_rewrite((const uint8_t *)shared[at].text, shared[at].n, out, ROOM);
        *wrong += m != shared[at].m || memcmp(out, shared[at].rewritten, m);
        size_t h = tender_highest((const uint8_t *)shared[at].text, shared[at].n, shared[at].bidder, out, ROOM);
        *wrong += h != shared[at].h || memcmp(out, shared[at].highest, h);
    }
    free(out);
    return NULL;
}

/* a text for the threads, and what each call is to write of it */
static void share(int i)
{
    static Bidders in;
    Size size = i < 4 ? (Size){i % 2, WEEK, 40, 8} : wide_size();
    size_t n = i % 3 == 2 ? small_text(shared[i].text) : wide_text(shared[i].text, size);
    const uint8_t *text = (const uint8_t *)shared[i].text;
    bidders_in(text, n, &in);
    shared[i].n = n;
    shared[i].bidder = in.count ? in.number[(unsigned)i % in.count] : 0;
    shared[i].k = second_list(text, n, shared[i].list, sizeof shared[i].list);
    shared[i].m = second_rewrite(text, n, shared[i].rewritten, sizeof shared[i].rewritten);
    shared[i].h = second_highest(text, n, shared[i].bidder, shared[i].highest, sizeof shared[i].highest);
}

static void threads(void)
{
    pthread_t id[THREADS];
    int wrong[THREADS];
    long awards = 0;
    pthread_attr_t attr;
    for (int i = 0; i < TEXTS; i++) {
        share(i);
        awards += awarded((const uint8_t *)shared[i].list, shared[i].k);
    }
    pthread_attr_init(&attr);
    pthread_attr_setstacksize(&attr, STACK);
    for (int i = 0; i < THREADS; i++) {
        wrong[i] = i;
        if (pthread_create(&id[i], &attr, thread, &wrong[i])) exit(2);
    }
    for (int i = 0; i < THREADS; i++) {
        pthread_join(id[i], NULL);
        expect(!wrong[i], "threads", NULL, 0);
    }
    printf("threads: %d with %d texts each, %ld of them awarded, %d times\n", THREADS, TEXTS, awards, PASSES);
}

/* the program writes the same list, however its input arrives */
static void program(const char *path, const char *text, size_t n, size_t chunk)
{
    int in[2], out[2];
    static uint8_t got[ROOM], want[ROOM];
    if (pipe(in) || pipe(out)) exit(2);
    pid_t pid = fork();
    if (!pid) {
        dup2(in[0], 0);
        dup2(out[1], 1);
        close(in[0]); close(in[1]); close(out[0]); close(out[1]);
        execl(path, path, (char *)NULL);
        _exit(127);
    }
    close(in[0]);
    close(out[1]);
    pid_t writer = fork();
    if (!writer) {
        close(out[0]);
        for (size_t i = 0; i < n; i += chunk) {
            size_t m = n - i < chunk ? n - i : chunk;
            if (write(in[1], text + i, m) != (ssize_t)m) break;
        }
        _exit(0);
    }
    close(in[1]);
    size_t k = 0;
    for (ssize_t r; (r = read(out[0], got + k, sizeof got - k)) > 0;) k += (size_t)r;
    close(out[0]);
    waitpid(writer, NULL, 0);
    waitpid(pid, NULL, 0);
    size_t w = tender_list((const uint8_t *)text, n, want, LIST_MAX);
    expect(k == w && !memcmp(got, want, w), "the program's list", text, n);
}

static void programs(const char *path)
{
    static char big[TEXT_ROOM];
    program(path, EXAMPLE, sizeof EXAMPLE - 1, 1 << 16);
    program(path, EXAMPLE, sizeof EXAMPLE - 1, 1);
    program(path, "", 0, 1);
    memset(big, 'x', sizeof big);
    program(path, big, 65536, 4096);
    program(path, big, 65537, 65537);
    program(path, big, 65537, 1);
    program(path, big, 100000, 1000);
    for (int i = 0; i < 40; i++) program(path, big, small_text(big), 1 + below(30));
    for (int i = 0; i < 20; i++) program(path, big, wide_text(big, wide_size()), 1 + below(3000));
}

int main(int argc, char **argv)
{
    if (argc < 2) return 2;
    long rounds = argc > 2 ? atol(argv[2]) : 100000;
    setvbuf(stdout, NULL, _IOLBF, 0);
    worked();
    reserves();
    refusals();
    named_prices();
    named_rewrites();
    named_highest();
    threads();
    programs(argv[1]);
    random_texts(rounds);
    tried_lists(rounds / 5);
    wide_tenders(rounds);
    random_rewrites(rounds);
    respelt_prices(rounds);
    faulty_texts(rounds);
    random_highest(rounds);
    printf("host: %ld checks, %ld faults\n", checks, faults);
    return faults != 0;
}
