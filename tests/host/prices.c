/* Tests of prices in both spellings: near misses by name, and random texts with each price in the other spelling. */
#include "prices.h"
#include "calls.h"
#include "entry.h"
#include "highest.h"
#include "texts.h"

#include <stdio.h>
#include <stdlib.h>
#include <string.h>

/* near misses */

static void lists(const char *text, const char *want)
{
    writes(tender_list, LIST_MAX, text, strlen(text), want);
}

static void rewrites(const char *text, const char *want)
{
    writes(tender_rewrite, rewrite_room(strlen(text)), text, strlen(text), want);
}

static void refuses(const char *text, const char *want)
{
    lists(text, want);
    rewrites(text, want);
    highest_declines(text, strlen(text), want);
}

/* this word as the price of two bids, and as the reserve of no bids, is so many cents in the list and in the rewritten text */
static void means(const char *word, long cents)
{
    static char text[256], want[256];
    sprintf(text, "(tender single 0 9)\n(bid 1 %s (0 9))\n(bid 2 %s (0 9))\n", word, word);
    sprintf(want, "(award single 0 9)\n(win 1 %ld)\n(total %ld %ld)\n", cents, cents, cents);
    lists(text, want);
    sprintf(want, "(tender single 0 9)\n(bid 1 %ld (0 9))\n(bid 2 %ld (0 9))\n", cents, cents);
    rewrites(text, want);
    sprintf(text, "(tender multi 0 9)\n(reserve %s)\n", word);
    sprintf(want, "(award multi 0 9)\n(house %ld)\n(total %ld 0)\n", cents, cents);
    lists(text, want);
    sprintf(want, "(tender multi 0 9)\n(reserve %ld)\n", cents);
    rewrites(text, want);
}

/* this word as the price of the bid on line 3, and as the reserve on line 2, is refused with this number at that line */
static void declines(const char *word, int number)
{
    static char text[256], want[64];
    sprintf(text, "(tender single 0 9)\n(bid 1 5 (0 9))\n(bid 2 %s (0 9))\n", word);
    sprintf(want, "(refused %d 3)\n", number);
    refuses(text, want);
    sprintf(text, "(tender single 0 9)\n(reserve %s)\n(bid 1 5 (0 9))\n", word);
    sprintf(want, "(refused %d 2)\n", number);
    refuses(text, want);
}

/* a point anywhere but in a price */
static void elsewhere(void)
{
    refuses("(tender single 0 9)\n(bid 1.00 5 (0 9))\n", "(refused 2 2)\n");
    refuses("(tender single 0 9)\n(bid 1 5 (0.00 5))\n", "(refused 2 2)\n");
    refuses("(tender single 0 9)\n(bid 1 5 (0 5.00))\n", "(refused 2 2)\n");
    refuses("(tender single 0.00 5)\n", "(refused 2 1)\n");
    refuses("(tender single 0 5.00)\n", "(refused 2 1)\n");
    refuses("(tender single 0 9)\n(reserve 2.50 )\n", "(refused 2 2)\n");
    refuses("(tender single 0 9)\n(bid 1 2 .50 (0 9))\n", "(refused 2 2)\n");
    refuses("(tender single 0 9)\n(bid 1 2. 50 (0 9))\n", "(refused 2 2)\n");
}

/* beside other faults of the line */
static void among_faults(void)
{
    refuses("(tender single 0 9)\n(bid 1 5 (0 9))\n(reserve 50.00)\n", "(refused 16 3)\n");
    refuses("(tender single 0 9)\n(reserve 50.00)\n(reserve 1000000.01)\n", "(refused 16 3)\n");
    refuses("(tender single 0 9)\n(bid 1 5 (0 9))\n(reserve 50.0)\n", "(refused 2 3)\n");
    refuses("(tender single 0 9)\n(bid 0 2.5 (0 9))\n", "(refused 2 2)\n");
    refuses("(tender single 0 9)\n(bid 1 1000000.01 (0 4) (6 8))\n", "(refused 3 2)\n");
    refuses("(tender single 0 9)\n(bid 1 2.50 (0 4) (6 8))\n", "(refused 7 2)\n");
    refuses("(tender single 0 9)\n(bid 1 2.50 (9 9))\n", "(refused 5 2)\n");
    refuses("(tender single 0 9)\n(bid 1 2.50 (0 9))\n(bid 1 250 (0 9))\n", "(refused 6 3)\n");
    refuses("(tender single 0 9)\n(bid 1 2.50 (0 9))", "(refused 2 2)\n");
}

void named_prices(void)
{
    static const struct { const char *word; long cents; } prices[] = {
        {"250", 250}, {"2.50", 250}, {"5", 5}, {"0.05", 5}, {"0.50", 50}, {"0", 0}, {"0.00", 0}, {"10.00", 1000}, {"1000000.00", 100000000},
        {"100000000", 100000000}, {"999999.99", 99999999},
    };
    static const char *above[] = {"1000000.01", "100000001", "9999999.99", "999999999"};
    static const char *misspelt[] = {".50", "2.", "2.5", "2.500", "02.50", "00.50", "00.05", "2.5.0", "2..50", "2.50.", ".", "2,50",
                                     "12345678.00", "10000000.00", "1000000000", "-2.50", "+2.50", "2.5x", "x2.50", "2.50c", "007"};
    for (size_t i = 0; i < sizeof prices / sizeof *prices; i++) means(prices[i].word, prices[i].cents);
    for (size_t i = 0; i < sizeof above / sizeof *above; i++) declines(above[i], 3);
    for (size_t i = 0; i < sizeof misspelt / sizeof *misspelt; i++) declines(misspelt[i], 2);
    elsewhere();
    among_faults();
}

/* random texts */

/* the price in the other spelling; a word that is not spelt as a price stays */
static size_t other_spelling(char *out, const char *word, size_t n)
{
    char digits[16] = {0};
    bool pointed = n > 3 && word[n - 3] == '.';
    size_t whole = pointed ? n - 3 : n, count = pointed ? n - 1 : n;
    if (count <= 9) {
        memcpy(digits, word, whole);
        if (pointed) memcpy(digits + whole, word + n - 2, 2);
    }
    bool spelt = count && strspn(digits, "0123456789") == count && (whole == 1 || digits[0] != '0');
    if (spelt) return put_price(out, (unsigned)atol(digits), !pointed);
    memcpy(out, word, n);
    return n;
}

/* where a line's price would begin: its second word, or its third where it begins as a bid */
static const char *price_in(const char *line, const char *stop)
{
    size_t n = (size_t)(stop - line);
    const char *bidder_end = n > 5 && !memcmp(line, "(bid ", 5) ? memchr(line + 5, ' ', n - 5) : NULL;
    if (bidder_end) return bidder_end + 1;
    return n > 9 && !memcmp(line, "(reserve ", 9) ? line + 9 : stop;
}

/* the text with each price in the other spelling */
static size_t respelt(char *out, const char *text, size_t n)
{
    size_t at = 0;
    const char *end = text + n;
    while (text < end) {
        const char *stop = memchr(text, '\n', (size_t)(end - text));
        stop = stop ? stop + 1 : end;
        const char *price = price_in(text, stop), *after = price;
        while (after < stop && *after != ' ' && *after != ')') after++;
        memcpy(out + at, text, (size_t)(price - text));
        at += (size_t)(price - text);
        at += other_spelling(out + at, price, (size_t)(after - price));
        memcpy(out + at, after, (size_t)(stop - after));
        at += (size_t)(stop - after);
        text = stop;
    }
    return at;
}

typedef struct { long same, awarded, refused, longer; } Tally;

/* both texts have the same list and are rewritten to the same bytes */
static void alike(const char *text, size_t n, Tally *tally)
{
    static char other[TEXT_ROOM], again[TEXT_ROOM];
    static uint8_t ours[ROOM], theirs[ROOM];
    size_t m = respelt(other, text, n), l = respelt(again, other, m);
    expect(l == n && !memcmp(again, text, n), "a text respelt wrong", text, n);
    if (n > TENDER_TEXT_MAX || m > TENDER_TEXT_MAX) { tally->longer++; return; }
    size_t k = called(tender_list, text, n, LIST_MAX, ours);
    expect(k == called(tender_list, other, m, LIST_MAX, theirs) && !memcmp(ours, theirs, k), "respelt, another list", text, n);
    *(n == m && !memcmp(text, other, n) ? &tally->same : ours[1] == 'a' ? &tally->awarded : &tally->refused) += 1;
    k = called(tender_rewrite, text, n, rewrite_room(n), ours);
    expect(k == called(tender_rewrite, other, m, rewrite_room(m), theirs) && !memcmp(ours, theirs, k), "respelt, other bytes", text, n);
}

void respelt_prices(long rounds)
{
    static char text[TEXT_ROOM];
    Tally tally = {0};
    for (long i = 0; i < rounds; i++) {
        size_t n = i % 4 ? small_text(text) : faulty_text(text);
        if (i % 4 && below(2)) n = mutated(text, n);
        alike(text, n, &tally);
    }
    for (long i = 0; i < rounds / 50; i++) alike(text, wide_text(text, wide_size()), &tally);
    printf("prices respelt: %ld texts awarded, %ld refused; %ld without a price, %ld longer than a text may be\n", tally.awarded,
           tally.refused, tally.same, tally.longer);
}
