/* Tests of tender_highest: near misses by name, random texts, and every price tried in the list. */
#include "highest.h"
#include "bids.h"
#include "calls.h"
#include "entry.h"
#include "second.h"
#include "texts.h"

#include <inttypes.h>
#include <stdio.h>
#include <string.h>

/* the call for the bidder asked for, in the shape of the others */
static uint64_t asked;

static size_t highest(const uint8_t *text, size_t n, uint8_t *out, size_t room)
{
    return tender_highest(text, n, asked, out, room);
}

static void writes_for(uint64_t bidder, const char *text, size_t n, const char *want)
{
    asked = bidder;
    writes(highest, HIGHEST_MAX, text, n, want);
}

/* near misses */

static void answers(const char *text, uint64_t bidder, const char *price)
{
    char want[64];
    sprintf(want, "(highest %" PRIu64 " %s)\n", bidder, price);
    writes_for(bidder, text, strlen(text), want);
}

static void declines(const char *text, uint64_t bidder, const char *want)
{
    writes_for(bidder, text, strlen(text), want);
}

void highest_declines(const char *text, size_t n, const char *want)
{
    static Bidders in;
    bidders_in(text, n, &in);
    if (in.count) writes_for(in.number[in.count - 1], text, n, want);
    writes_for(0, text, n, want);
    writes_for(UINT64_MAX, text, n, want);
}

#define MARKET_DAY \
    "(tender single 0 100)\n(bid 11 30 (0 50))\n(bid 12 40 (40 100))\n(bid 13 90 (0 100))\n(bid 14 35 (0 60))\n(bid 15 50 (60 100))\n"
#define SEVERAL "(tender multi 0 10)\n(bid 21 12 (0 4) (6 8))\n(bid 22 15 (4 10))\n(bid 23 30 (0 10))\n(bid 24 9 (8 10) (4 5))\n"
#define LONE "(bid 31 1200 (480 560))\n(bid 32 900 (540 600))\n(bid 33 1500 (500 600))\n"

/* the two worked lists: winners have what they are paid, losers less than they named */
static void worked(void)
{
    answers(MARKET_DAY, 11, "35");
    answers(MARKET_DAY, 12, "55");
    answers(MARKET_DAY, 13, "69");
    answers(MARKET_DAY, 14, "29");
    answers(MARKET_DAY, 15, "34");
    answers(SEVERAL, 21, "30");
    answers(SEVERAL, 22, "30");
    answers(SEVERAL, 23, "19");
    answers(SEVERAL, 24, "11");
}

static const char *kind[] = {"single", "multi"};

/* a tie falls to the earlier entry; where it does not fall to the bid, the price is a cent less, or there is none */
static void ties(void)
{
    static char text[256];
    for (int k = 0; k < 2; k++) {
        sprintf(text, "(tender %s 0 10)\n(bid 1 40 (0 10))\n(bid 2 30 (0 10))\n", kind[k]);
        answers(text, 1, "30");
        answers(text, 2, "39");
        sprintf(text, "(tender %s 0 10)\n(bid 1 30 (0 10))\n(bid 2 40 (0 10))\n", kind[k]);
        answers(text, 1, "40");
        answers(text, 2, "29");
        sprintf(text, "(tender %s 0 10)\n(bid 1 0 (0 10))\n(bid 2 0 (0 10))\n", kind[k]);
        answers(text, 1, "0");
        answers(text, 2, "none");
        sprintf(text, "(tender %s 0 10)\n(bid 1 1 (0 10))\n(bid 2 0.00 (0 10))\n", kind[k]);
        answers(text, 1, "0");
        answers(text, 2, "0");
        sprintf(text, "(tender %s 0 10)\n(bid 1 2.50 (0 10))\n(bid 2 0.05 (0 10))\n(bid 3 7 (10 20))\n(bid 4 0 (9 10))\n", kind[k]);
        answers(text, 1, "5");
        answers(text, 2, "249");
        answers(text, 3, "none");               /* no minute inside the tender */
        answers(text, 4, k ? "0" : "none");     /* no cover that is least has it; a run takes it first, where it costs nothing */
    }
}

/* the house: an entry after all bids, with every minute, which loses every tie and is no bidder */
static void beside_the_house(void)
{
    answers("(tender single 480 600)\n(reserve 5000)\n" LONE, 31, "4100");
    answers("(tender single 480 600)\n(reserve 5000)\n" LONE, 32, "1500");
    answers("(tender single 480 600)\n(reserve 5000)\n" LONE, 33, "899");
    answers("(tender single 0 10)\n(reserve 20)\n(bid 1 90 (0 10))\n", 1, "20");
    answers("(tender multi 0 10)\n(reserve 20)\n(bid 1 90 (0 10))\n", 1, "20");
    answers("(tender single 0 10)\n(reserve 0)\n(bid 1 90 (0 10))\n", 1, "0");
    answers("(tender multi 0 10)\n(reserve 0)\n(bid 1 90 (0 10))\n", 1, "0");
    answers("(tender single 0 10)\n(reserve 20)\n(bid 1 0 (0 9))\n", 1, "none");
    answers("(tender multi 0 10)\n(reserve 20)\n(bid 1 0 (0 9))\n", 1, "18");
    answers("(tender multi 0 10)\n(reserve 20)\n(bid 1 0 (10 90))\n", 1, "none");
    answers("(tender multi 0 10)\n(reserve 1000000.00)\n(bid 999999 0 (0 10080))\n", 999999, "100000000");
    declines("(tender single 0 1)\n(reserve 5000)\n", 0, "(refused 17 0)\n");
    declines("(tender multi 0 1)\n(reserve 5000)\n", 5000, "(refused 17 0)\n");
}

/* 999 bids at the limit, of a minute each, and one more of all the minutes, entered first or last */
static void put_dearest(char *s, const char *kind, bool first)
{
    static const char whole[] = "(bid 999999 100000000 (0 999))\n";
    size_t at = (size_t)sprintf(s, "(tender %s 0 999)\n%s", kind, first ? whole : "");
    for (int i = 1; i < 1000; i++) at += (size_t)sprintf(s + at, "(bid %d 1000000.00 (%d %d))\n", i, i - 1, i);
    sprintf(s + at, "%s", first ? "" : whole);
}

/* prices above the limit of 100,000,000: as much as others ask together */
static void above_the_limit(void)
{
    static const char halves[] = "(bid 1 100000000 (0 5))\n(bid 2 100000000 (5 10))\n";
    static char text[TEXT_ROOM];
    for (int k = 0; k < 2; k++) {
        sprintf(text, "(tender %s 0 10)\n%s(bid 3 0 (0 10))\n", kind[k], halves);
        answers(text, 3, "199999999");
        sprintf(text, "(tender %s 0 10)\n(bid 3 100000000 (0 10))\n%s", kind[k], halves);
        answers(text, 3, "200000000");
        sprintf(text, "(tender %s 0 10)\n(reserve 100000000)\n%s(bid 3 100000000 (0 10))\n", kind[k], halves);
        answers(text, 3, "100000000");          /* the house caps it */
        put_dearest(text, kind[k], true);
        answers(text, 999999, "99900000000");
        put_dearest(text, kind[k], false);
        answers(text, 999999, "99899999999");
    }
}

/* 17 is told of a number that no bid has, and after what the list declines */
static void no_such_bidder(void)
{
    static const uint64_t none[] = {0, 1, 10, 16, 110, 999999, 11 + (UINT64_C(1) << 32), UINT64_MAX};
    static char long_text[TENDER_TEXT_MAX + 1];
    for (size_t i = 0; i < sizeof none / sizeof *none; i++) {
        declines(MARKET_DAY, none[i], "(refused 17 0)\n");
        declines(SEVERAL, none[i], "(refused 17 0)\n");
        declines("(tender single 480 600)\n" LONE, none[i], "(refused 12 480)\n");
        declines(MARKET_DAY "(bid 16 007 (0 9))\n", none[i], "(refused 2 7)\n");
    }
    declines("(tender single 480 600)\n" LONE, 31, "(refused 12 480)\n");
    declines("(tender single 0 10)\n", 7, "(refused 11 0)\n");
    declines("(tender multi 0 10)\n(bid 7 1 (0 10))\n(bid 7 1 (0 10))\n", 7, "(refused 6 3)\n");
    declines("(tender multi 0 10)\n(bid 7 1 (0 10))\n(reserve 5)\n", 8, "(refused 16 3)\n");
    declines("", 7, "(refused 2 1)\n");
    memset(long_text, 'x', sizeof long_text);
    writes_for(7, long_text, sizeof long_text, "(refused 1 0)\n");
}

void named_highest(void)
{
    worked();
    ties();
    beside_the_house();
    above_the_limit();
    no_such_bidder();
}

/* random texts: the line is the second implementation's, byte for byte, and where it is a refusal, but for 17, the list's */

typedef struct { long prices, none, unknown, declined; } Tally;

static void compared(const char *text, size_t n, uint64_t bidder, Tally *tally)
{
    static uint8_t out[ROOM], list[ROOM];
    static char other[64];
    unsigned number = 0;
    asked = bidder;
    size_t k = called(highest, text, n, HIGHEST_MAX, out), m = second_highest((const uint8_t *)text, n, bidder, other, sizeof other);
    expect(k == m && !memcmp(out, other, m), "highest, differs from the second implementation", text, n);
    if (sscanf(other, "(refused %u", &number) == 1 && number != 17)
        expect(called(tender_list, text, n, LIST_MAX, list) == k && !memcmp(out, list, k), "highest, refused and not as the list", text, n);
    *(number == 17 ? &tally->unknown : number ? &tally->declined : strstr(other, "none") ? &tally->none : &tally->prices) += 1;
}

static void small_texts(long rounds, Tally *tally)
{
    static char text[TEXT_ROOM];
    static Bidders in;
    for (long i = 0; i < rounds; i++) {
        size_t n = i % 4 == 3 ? faulty_text(text) : small_text(text);
        if (i % 4 == 2) n = mutated(text, n);
        bidders_in(text, n, &in);
        for (unsigned k = 0; k < in.count; k++) compared(text, n, in.number[k], tally);
        compared(text, n, below(60), tally);
        compared(text, n, below(60) + (UINT64_C(1) << 32), tally);
    }
}

/* three bids of a wide tender */
static void wide_text_of(Size size, Tally *tally)
{
    static char text[TEXT_ROOM];
    static Bidders in;
    size_t n = wide_text(text, size);
    bidders_in(text, n, &in);
    for (unsigned k = 0; k < 3 && in.count; k++) compared(text, n, in.number[below(in.count)], tally);
}

static void wide_texts(long rounds, Tally *tally)
{
    enum { WEEK = 10080, SIZES = 4 };
    static const Size week[SIZES] = {{true, WEEK, 1000, 1}, {false, WEEK, 100, 32}, {true, WEEK, 40, 1}, {false, WEEK, 1000, 2}};
    for (long i = 0; i < rounds; i++) wide_text_of(wide_size(), tally);
    for (long i = 0; i < rounds / 100; i++) wide_text_of(week[i % SIZES], tally);
}

/* every price tried: the list of the text with that price shows whether the bid wins, and it does up to the highest, and no further */

enum { NONE = -1, CEILING = 10 * TINY_TOP };    /* no price from CEILING on can win: others ask less for each of up to ten minutes */

static struct { long bids, none, prices, winning, paid, cent_less, refused; } tried;

/* what the call answers for a bidder of an accepted text */
static long highest_of(const char *text, size_t n, unsigned bidder)
{
    static uint8_t out[HIGHEST_MAX + 1];        /* the last byte stays 0 */
    char want[HIGHEST_MAX];
    long price = NONE;
    asked = bidder;
    size_t k = called(highest, text, n, HIGHEST_MAX, out), w = (size_t)sprintf(want, "(highest %u none)\n", bidder);
    if (sscanf((const char *)out, "(highest %*u %ld", &price) == 1) w = (size_t)sprintf(want, "(highest %u %ld)\n", bidder, price);
    expect(k == w && !memcmp(out, want, w), "highest, no answer", text, n);
    return price;
}

/* whether the list of a text shows that this bidder wins, and what it is paid */
static bool wins(const char *text, size_t n, unsigned bidder, long *paid)
{
    static char list[LIST_MAX + 1];
    char start[32];
    list[tender_list((const uint8_t *)text, n, (uint8_t *)list, LIST_MAX)] = 0;
    sprintf(start, "\n(win %u ", bidder);
    const char *line = strstr(list, start);
    return line && sscanf(line, "\n(win %*u %ld)", paid) == 1;
}

static void try_price(const char *text, size_t n, unsigned bidder, long most, unsigned price)
{
    static char other[TEXT_ROOM];
    char word[16];
    long paid;
    put_price(word, price, tried.prices++ & 1);
    bool won = wins(other, with_price(other, text, bidder, word), bidder, &paid);
    tried.winning += won;
    expect(won == ((long)price <= most), "highest, another price wins or loses", text, n);
}

/* Beside the list of the text itself: a multi winner's is what is paid, a single winner's that or a cent less, a loser's below the price
   named. */
static void beside_the_list(const char *text, size_t n, unsigned bidder, long most)
{
    long named = price_in(text, bidder), paid;
    if (!wins(text, n, bidder, &paid)) {
        expect(most < named || most == NONE, "highest of a loser, not below the price named", text, n);
        return;
    }
    expect(most == paid || (text[8] == 's' && most == paid - 1), "highest of a winner, not what is paid", text, n);
    expect(most >= named, "highest of a winner, below the price named", text, n);
    *(most == paid ? &tried.paid : &tried.cent_less) += 1;
}

static void try_bid(const char *text, size_t n, unsigned bidder)
{
    long most = highest_of(text, n, bidder), far = most == NONE ? TINY_TOP : most < CEILING ? most + 2 : CEILING;
    beside_the_list(text, n, bidder, most);
    for (unsigned price = 0; (long)price <= far; price++) try_price(text, n, bidder, most, price);
    try_price(text, n, bidder, most, (unsigned)far * 2 + 1);
    try_price(text, n, bidder, most, 100000000);
    tried.bids++;
    tried.none += most == NONE;
}

/* each bid of so many tenders that are awarded; those between them are refused by both calls with the same line */
static void try_prices(long awards)
{
    static char text[TEXT_ROOM], list[LIST_MAX + 1];
    static Bidders in;
    for (long left = 10 * awards; awards > 0 && left > 0; left--) {
        size_t n = tiny_text(text);
        list[tender_list((const uint8_t *)text, n, (uint8_t *)list, LIST_MAX)] = 0;
        bool awarded = list[1] == 'a';
        bidders_in(text, n, &in);
        for (unsigned k = 0; k < in.count && awarded; k++) try_bid(text, n, in.number[k]);
        if (!awarded) highest_declines(text, n, list);
        tried.refused += !awarded;
        awards -= awarded && in.count;
    }
    expect(awards == 0, "highest, too few tenders are awarded", NULL, 0);
}

void random_highest(long rounds)
{
    Tally small = {0}, wide = {0};
    small_texts(rounds / 10, &small);
    wide_texts(1 + rounds / 100, &wide);
    try_prices(rounds / 40);
    printf("highest: %ld prices, %ld times none, %ld declined, %ld unknown; of wide tenders %ld prices, %ld times none, %ld declined\n",
           small.prices, small.none, small.declined, small.unknown, wide.prices, wide.none, wide.declined);
    printf("highest, tried: %ld bids, no price of %ld; %ld prices, of which %ld win; of winners %ld up to what is paid, %ld a cent less; "
           "%ld tenders refused\n", tried.bids, tried.none, tried.prices, tried.winning, tried.paid, tried.cent_less, tried.refused);
}
