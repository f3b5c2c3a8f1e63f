/* Tests of tender_rewrite: near misses by name, the longest texts, random texts, and pairs of texts. */
#include "rewrites.h"
#include "calls.h"
#include "entry.h"
#include "second.h"
#include "spellings.h"
#include "texts.h"

#include <stdio.h>
#include <string.h>

static bool same(const void *a, size_t n, const void *b, size_t m)
{
    return n == m && !memcmp(a, b, n);
}

/* of an accepted text: what is written reads back as the same and has no more bytes */
static void reads_back(const void *text, size_t n, const void *out, size_t k)
{
    const char *difference = second_difference(text, n, out, k);
    expect(!difference, difference, text, n);
    expect(k <= n, "longer than the text", text, n);
}

/* what is written is written again as it is, and a buffer of one byte too few is declined */
static void stays(const void *text, size_t n, const void *out, size_t k)
{
    static uint8_t again[ROOM];
    size_t l = called(tender_rewrite, out, k, k, again);
    expect(same(again, l, out, k), "rewritten again it changes", text, n);
    expect(called(tender_rewrite, text, n, k - 1, again) == 0, "rewritten, a short buffer", text, n);
}

/* near misses */

static void rewrites(const char *text, const char *want)
{
    size_t n = strlen(text);
    writes(tender_rewrite, rewrite_room(n), text, n, want);
    reads_back(text, n, want, strlen(want));
    stays(text, n, want, strlen(want));
}

/* the windows of one bid in a tender of the minutes 0 to 9 */
static void joins(const char *windows, const char *want)
{
    static char text[1024], spelt[1024];
    sprintf(text, "(tender multi 0 10)\n(bid 7 30 %s)\n", windows);
    sprintf(spelt, "(tender multi 0 10)\n(bid 7 30 %s)\n", want);
    rewrites(text, spelt);
}

/* 32 windows of one minute each, `step` from one to the next */
static const char *minutes(int from, int step)
{
    static char text[4][512];
    static int turn;
    char *s = text[turn++ % 4];
    size_t at = 0;
    for (int k = 0; k < 32; k++) at += (size_t)sprintf(s + at, "%s(%d %d)", k ? " " : "", from + step * k, from + step * k + 1);
    return s;
}

static void near_misses(void)
{
    joins("(5 9) (0 5)", "(0 9)");
    joins("(0 5) (6 9)", "(0 5) (6 9)");
    joins("(6 9) (0 5)", "(0 5) (6 9)");
    joins("(0 5) (4 9) (9 10)", "(0 10)");
    joins("(2 8) (3 4)", "(2 8)");
    joins("(3 4) (3 4)", "(3 4)");
    joins("(0 1) (9 10) (8 9)", "(0 1) (8 10)");
    joins("(99 100) (100 101) (9 10) (10 11)", "(9 11) (99 101)");
    joins("(9 20) (0 1)", "(0 1) (9 20)");
    joins("(700 800) (20 30)", "(20 30) (700 800)");                 /* all outside the tender */
    joins("(0 10080)", "(0 10080)");
    joins("(5040 10080) (0 5040)", "(0 10080)");
    joins("(10079 10080) (10078 10079)", "(10078 10080)");
    joins("(10079 10080) (0 10078)", "(0 10078) (10079 10080)");
    joins("(63 64) (64 65)", "(63 65)");                             /* at a word's edge */
    joins("(64 128) (0 64)", "(0 128)");
    joins("(65 128) (0 64)", "(0 64) (65 128)");
    joins(minutes(0, 2), minutes(0, 2));                             /* 32 windows */
    joins(minutes(62, -2), minutes(0, 2));
    joins(minutes(0, 1), "(0 32)");
    joins(minutes(31, -1), "(0 32)");
    rewrites("(tender multi 0 1)\n", "(tender multi 0 1)\n");        /* no bids */
    rewrites("(tender single 0 10080)\n", "(tender single 0 10080)\n");
    rewrites("(tender single 0 9)\n(reserve 0)\n", "(tender single 0 9)\n(reserve 0)\n");
    rewrites("(tender multi 0 9)\n(reserve 100000000)\n(bid 7 30 (5 9) (0 5))\n",
             "(tender multi 0 9)\n(reserve 100000000)\n(bid 7 30 (0 9))\n");
    rewrites("(tender multi 0 9)\n(reserve 50.00)\n(bid 7 2.50 (5 9) (0 5))\n(bid 8 0.05 (0 9))\n",
             "(tender multi 0 9)\n(reserve 5000)\n(bid 7 250 (0 9))\n(bid 8 5 (0 9))\n");
    rewrites("(tender single 480 600)\n(bid 999999 100000000 (470 660))\n(bid 1 0 (0 1))\n",
             "(tender single 480 600)\n(bid 999999 100000000 (470 660))\n(bid 1 0 (0 1))\n");
}

/* pairs: the bytes are equal where nothing that counts differs, and unequal where `difference` does */

static void compared(const char *a, size_t n, const char *b, size_t m, const char *difference)
{
    static uint8_t ours[ROOM], theirs[ROOM];
    size_t k = called(tender_rewrite, a, n, rewrite_room(n), ours), l = called(tender_rewrite, b, m, rewrite_room(m), theirs);
    expect(same(ours, k, theirs, l) == !difference, difference ? difference : "unequal bytes", a, n);
    expect(!second_difference((const uint8_t *)a, n, (const uint8_t *)b, m) == !difference, "a pair made wrong", a, n);
}

#define TENDER "(tender multi 0 9)\n"
#define BID_1 "(bid 1 5 (0 4) (6 8))\n"
#define BID_2 "(bid 2 5 (2 9))\n"

static void named_pairs(void)
{
    static const struct { const char *text, *difference; } others[] = {
        {TENDER "(bid 1 5 (6 8) (0 4))\n" BID_2, NULL},
        {TENDER "(reserve 5)\n" BID_1 BID_2, "a reserve more"},
        {TENDER "(reserve 0)\n" BID_1 BID_2, "a reserve of 0 more"},
        {TENDER "(bid 1 5 (6 7) (7 8) (0 3) (1 4))\n(bid 2 5 (2 9) (2 9))\n", NULL},
        {TENDER BID_2 BID_1, "two bids in another order"},
        {TENDER "(bid 2 5 (0 4) (6 8))\n(bid 1 5 (2 9))\n", "two bidders exchanged"},
        {TENDER BID_1 "(bid 3 5 (2 9))\n", "another bidder"},
        {TENDER BID_1 "(bid 2 6 (2 9))\n", "another price"},
        {TENDER "(bid 1 0.05 (0 4) (6 8))\n(bid 2 0.05 (2 9))\n", NULL},
        {TENDER BID_1 "(bid 2 0.50 (2 9))\n", "another price, with a point"},
        {TENDER BID_1 "(bid 2 5.00 (2 9))\n", "the same digits before the point"},
        {TENDER "(bid 1 5 (0 4) (5 8))\n" BID_2, "a minute more"},
        {TENDER "(bid 1 5 (0 4) (4 8))\n" BID_2, "the minutes between two windows"},
        {TENDER BID_1 "(bid 2 5 (2 9) (10 11))\n", "a minute more outside the tender"},
        {TENDER BID_1, "a bid fewer"},
        {"(tender multi 1 9)\n" BID_1 BID_2, "another start"},
        {"(tender multi 0 8)\n" BID_1 BID_2, "another end"},
    };
    static const char SINGLE[] = "(tender single 0 9)\n(bid 1 5 (0 4))\n", MULTI[] = "(tender multi 0 9)\n(bid 1 5 (0 4))\n";
    static const char RESERVED[] = TENDER "(reserve 60)\n" BID_1, LESS[] = TENDER "(reserve 59)\n" BID_1;
    static const char POINTED[] = TENDER "(reserve 0.60)\n" BID_1, DEARER[] = TENDER "(reserve 60.00)\n" BID_1;
    static const char HOUSE_BID[] = TENDER BID_1 "(bid 2 60 (0 9))\n";
    for (size_t i = 0; i < sizeof others / sizeof *others; i++)
        compared(TENDER BID_1 BID_2, strlen(TENDER BID_1 BID_2), others[i].text, strlen(others[i].text), others[i].difference);
    compared(SINGLE, strlen(SINGLE), MULTI, strlen(MULTI), "another kind");
    compared(RESERVED, strlen(RESERVED), RESERVED, strlen(RESERVED), NULL);
    compared(RESERVED, strlen(RESERVED), POINTED, strlen(POINTED), NULL);
    compared(RESERVED, strlen(RESERVED), DEARER, strlen(DEARER), "another reserve, with a point");
    compared(RESERVED, strlen(RESERVED), LESS, strlen(LESS), "another reserve");
    compared(RESERVED, strlen(RESERVED), HOUSE_BID, strlen(HOUSE_BID), "a bid for a reserve");
}

/* the longest texts */

enum { LONGEST = TENDER_TEXT_MAX, LINE = 399 };

/* A bid's line of this length: 14 bytes, 12 for each of up to 32 windows a minute apart, and a price of as many digits as are left. */
static size_t put_bid(char *s, unsigned bidder, size_t length, bool falling)
{
    unsigned windows = (unsigned)(length - 15) / 12, price = 1;
    for (size_t digits = length - 14 - 12 * windows; digits > 1; digits--) price *= 10;
    size_t at = (size_t)sprintf(s, "(bid %u %u", bidder, price);
    for (unsigned k = 0; k < windows; k++) {
        unsigned m = 1000 + 2 * (falling ? windows - 1 - k : k);
        at += (size_t)sprintf(s + at, " (%u %u)", m, m + 1);
    }
    return at + (size_t)sprintf(s + at, ")\n");
}

static void put_long(char *s, size_t n, bool falling)
{
    size_t at = (size_t)sprintf(s, "(tender multi 0 10080)\n(reserve 100000000)\n");
    for (unsigned bidder = 100000; at < n; bidder++) at += put_bid(s + at, bidder, n - at < LINE ? n - at : LINE, falling);
    expect(at == n, "a long text made wrong", NULL, 0);
}

/* the reserve with a point, which is a byte more */
static const char *point_reserve(char *s)
{
    char *cents = strstr(s, "00)");
    memmove(cents + 1, cents, strlen(cents) + 1);
    *cents = '.';
    return s;
}

static void longest(void)
{
    static char rising[TEXT_ROOM], falling[TEXT_ROOM];
    put_long(rising, LONGEST, false);
    put_long(falling, LONGEST, true);
    rewrites(rising, rising);
    rewrites(falling, rising);
    put_long(rising, LONGEST + 1, false);
    writes(tender_rewrite, LONGEST, rising, LONGEST + 1, "(refused 1 0)\n");
    put_long(rising, LONGEST, false);
    writes(tender_rewrite, LONGEST, point_reserve(rising), LONGEST + 1, "(refused 1 0)\n");
    put_long(rising, LONGEST - 1, false);
    put_long(falling, LONGEST - 1, true);
    rewrites(point_reserve(falling), rising);
    size_t n = (size_t)sprintf(rising, "(tender multi 0 10)\n(reserve 5)\n"), m = n;
    memcpy(falling, rising, n);
    for (int i = 1; i <= 1000; i++) {
        n += (size_t)sprintf(rising + n, "(bid %d 1 (5 9) (0 5) (3 4))\n", i);
        m += (size_t)sprintf(falling + m, "(bid %d 1 (0 9))\n", i);
    }
    rewrites(rising, falling);
}

void named_rewrites(void)
{
    near_misses();
    named_pairs();
    longest();
}

/* random texts */

typedef struct { long rewritten, as_it_was, declined; } Tally;

/* what is written of a text is the second implementation's, byte for byte; `all`: also what costs more calls */
static size_t judged(const char *text, size_t n, bool all, uint8_t *out, Tally *tally)
{
    static char other[ROOM];
    size_t k = called(tender_rewrite, text, n, rewrite_room(n), out), m = second_rewrite((const uint8_t *)text, n, other, sizeof other);
    expect(same(out, k, other, m), "rewritten, differs from the second implementation", text, n);
    bool accepted = other[1] == 't', still = same(out, k, text, n);
    *(!accepted ? &tally->declined : still ? &tally->as_it_was : &tally->rewritten) += 1;
    if (!accepted || !k) return k;
    reads_back(text, n, out, k);
    if (all) stays(text, n, out, k);
    return k;
}

static void random_texts(long rounds, Tally *tally)
{
    static char text[TEXT_ROOM];
    static uint8_t out[ROOM];
    for (long i = 0; i < 2 * rounds; i++) {
        size_t n = small_text(text);
        if (i % 2) n = mutated(text, n);
        judged(text, n, i % 8 == 0, out, tally);
    }
    for (long i = 0; i < rounds / 8; i++) {
        size_t n = below(64);
        for (size_t j = 0; j < n; j++) text[j] = (char)below(256);
        judged(text, n, false, out, tally);
    }
    for (long i = 0; i < rounds / 50; i++) {
        size_t n = wide_text(text, wide_size());
        if (!below(4)) n = mutated(text, n);
        judged(text, n, true, out, tally);
    }
}

/* Bids given by their minutes: a text of them is rewritten to the one that is known, and another text is just where nothing was changed. */
static void random_pairs(long rounds, Tally *tally)
{
    static Spelt bids;
    static char text[TEXT_ROOM], other[TEXT_ROOM], plain[TEXT_ROOM];
    static uint8_t out[ROOM];
    for (long i = 0; i < rounds; i++) {
        some_bids(&bids);
        size_t n = any_text(text, &bids), m = plain_text(plain, &bids), k = judged(text, n, i % 8 == 0, out, tally);
        expect(same(out, k, plain, m), "not the text of these minutes", text, n);
        const char *difference = i % 2 ? change(&bids) : NULL;
        compared(plain, m, other, any_text(other, &bids), difference);
    }
}

void random_rewrites(long rounds)
{
    Tally tally = {0};
    random_texts(rounds, &tally);
    random_pairs(rounds / 2, &tally);
    printf("rewritten: %ld texts, %ld as they were, %ld declined; %ld pairs\n", tally.rewritten, tally.as_it_was, tally.declined,
           rounds / 2);
}
