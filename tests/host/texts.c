/* Random bid texts, the same in each run. */
#include "texts.h"

#include <stdint.h>
#include <stdio.h>
#include <string.h>

enum { WEEK = 10080, TOP_PRICE = 100000000, MAX_BIDS = 1000, MAX_WINDOWS = 32 };
enum { TEXT_BYTES = 65000, BID_BYTES = 27, WINDOW_BYTES = 14 };     /* of a text, and at most of a bid but its windows and of a window */

static uint64_t state = 20261115;

unsigned below(unsigned n)
{
    state = state * 6364136223846793005u + 1442695040888963407u;
    return (unsigned)((state >> 33) % n);
}

size_t put_price(char *s, unsigned cents, bool pointed)
{
    return (size_t)(pointed ? sprintf(s, "%u.%02u", cents / 100, cents % 100) : sprintf(s, "%u", cents));
}

size_t some_price(char *s, unsigned cents)
{
    return put_price(s, cents, !below(3));
}

/* a reserve's line */
static size_t put_reserve(char *s, unsigned cents)
{
    size_t at = (size_t)sprintf(s, "(reserve ");
    at += some_price(s + at, cents);
    return at + (size_t)sprintf(s + at, ")\n");
}

/* a bid's line up to its windows */
static size_t open_bid(char *s, unsigned bidder, unsigned cents)
{
    size_t at = (size_t)sprintf(s, "(bid %u ", bidder);
    return at + some_price(s + at, cents);
}

/* so many minutes from a start on, so many bids with prices below `top`, and windows of up to so many minutes more than the tender */
typedef struct { unsigned start, cells, bids, single, top, more; } Small;

static size_t put_small(char *s, Small t)
{
    size_t at = (size_t)sprintf(s, "(tender %s %u %u)\n", t.single ? "single" : "multi", t.start, t.start + t.cells);
    if (below(2)) at += put_reserve(s + at, below(4) ? below(3 * t.top) : below(5));
    for (unsigned i = 0; i < t.bids; i++) {
        unsigned who = 1 + i * 7 + below(7);
        at += open_bid(s + at, who, below(4) ? below(t.top) : below(5));
        for (unsigned k = t.single ? 1 : 1 + below(4); k; k--) {
            unsigned a = below(t.start + t.cells + 3), e = a + 1 + below(t.cells + t.more);
            at += (size_t)sprintf(s + at, " (%u %u)", a, e);
        }
        at += (size_t)sprintf(s + at, ")\n");
    }
    return at;
}

size_t small_text(char *s)
{
    unsigned start = below(30), cells = 1 + below(below(8) ? 40 : 200), n = below(9), single = below(2);
    return put_small(s, (Small){start, cells, n, single, .top = 50, .more = 10});
}

size_t tiny_text(char *s)
{
    unsigned start = below(4), cells = 1 + below(10), n = below(7), single = below(2);
    return put_small(s, (Small){start, cells, n, single, .top = TINY_TOP, .more = 3});
}

/* a window: mostly lawful, and at times empty, late or both, or with a point in it */
static size_t some_window(char *s)
{
    static const unsigned odd[] = {0, 5, 9, 10079, 10080, 10081, 10082, 999999999};
    unsigned a = below(20), e = a + 1 + below(20);
    if (!below(4)) a = odd[below(8)];
    if (!below(4)) e = odd[below(8)];
    if (!below(150)) return (size_t)sprintf(s, below(2) ? " (%u.00 %u)" : " (%u %u.00)", a, e);
    return (size_t)sprintf(s, " (%u %u)", a, e);
}

/* a word that is just not a price */
static const char *misspelt_price(void)
{
    static const char *word[] = {".50", "2.", "2.5", "2.500", "02.50", "00.50", "2.5.0", "2..50", "2.50.", "2,50", "12345678.00",
                                 "10000000.00", "-2.50", "2.5O", ".", "007", "1000000000"};
    return word[below(sizeof word / sizeof *word)];
}

/* a reserve's line: of any price, or, one in eight, just not one */
static size_t some_reserve(char *s)
{
    static const unsigned price[] = {0, 5000, 100000000, 100000001, 999999999};
    static const char *misspelt[] = {"(reserve)", "(reserve 007)", "(reserve 5 )", "(reserve  5)", "(reserve 5 6)", "(reserve 5",
                                     "(reserve5)", "(reserve 1000000000)", "(reserve -1)", " (reserve 5)", "(reserve 5))",
                                     "(reserve (0 5))", "(reserves 5)"};
    if (!below(8)) return (size_t)sprintf(s, "%s\n", misspelt[below(sizeof misspelt / sizeof *misspelt)]);
    if (!below(16)) return (size_t)sprintf(s, "(reserve %s)\n", misspelt_price());
    return put_reserve(s, below(2) ? below(100) : price[below(5)]);
}

size_t faulty_text(char *s)
{
    static const unsigned bidder[] = {0, 1, 2, 999999, 1000000}, price[] = {0, 250, 100000000, 100000001, 999999999};
    bool single = below(2);
    unsigned start = below(8) ? 0 : 10081, end = below(8) ? 20 : below(2) ? 10081 : 0;
    size_t at = below(60) ? 0 : some_reserve(s);
    at += (size_t)sprintf(s + at, below(200) ? "(tender %s %u %u)\n" : "(tender %s %u.00 %u)\n", single ? "single" : "multi", start, end);
    for (unsigned k = below(2) ? 0 : 1 + !below(12); k; k--) at += some_reserve(s + at);
    for (unsigned i = 0, n = below(6); i < n; i++) {
        unsigned who = below(3) ? 10 + i : below(2) ? 10 + below(4) : bidder[below(5)];
        unsigned cents = below(6) ? below(50) : price[below(5)];
        if (!below(60)) at += (size_t)sprintf(s + at, "(bid %u %s", who, misspelt_price());
        else if (!below(200)) at += (size_t)sprintf(s + at, "(bid %u.00 %u", who, cents);
        else at += open_bid(s + at, who, cents);
        for (unsigned k = !below(8) ? 31 + below(3) : single && below(4) ? 1 : 1 + below(3); k; k--) at += some_window(s + at);
        at += (size_t)sprintf(s + at, ")\n");
        if (!below(30)) at += some_reserve(s + at);
    }
    return at;
}

size_t mutated(char *s, size_t n)
{
    static const char odd[] = "0123456789() \nabdegilmnrstuv\r.,-\0\377";
    for (unsigned k = 1 + below(2); k; k--) {
        size_t at = n ? below((unsigned)n) : 0;
        char c = odd[below(sizeof odd - 1)];
        switch (below(3)) {
        case 0: if (n) s[at] = c; break;
        case 1: if (n) { memmove(s + at, s + at + 1, n - at - 1); n--; } break;
        default: memmove(s + at + 1, s + at, n - at); s[at] = c; n++;
        }
    }
    return n;
}

/* wide tenders */

typedef struct { unsigned start, end; } Window;
typedef struct { unsigned price, count; Window window[MAX_WINDOWS]; } Bid;

static Bid bid[MAX_BIDS];
static unsigned bids;

static unsigned lesser(unsigned a, unsigned b)
{
    return a < b ? a : b;
}

/* the window made lawful: not empty, and not past the week's end */
static void add_window(Bid *b, unsigned s, unsigned e)
{
    s = lesser(s, WEEK - 1);
    e = lesser(e > s ? e : s + 1, WEEK);
    b->window[b->count++] = (Window){s, e};
}

/* where piece j of q pieces of the minutes from `start` on begins: anywhere in its share, or at a word's edge and a minute beside it */
static unsigned cut(unsigned start, unsigned minutes, unsigned j, unsigned q, bool words)
{
    if (j == 0 || j == q) return start + (j ? minutes : 0);
    unsigned c = (j * minutes + below(minutes)) / q;
    if (words) c = lesser((c + 32) / 64 * 64 + below(3), minutes + 1) - (c >= 32);
    return start + c;
}

/* n bids of `windows` windows each that together have all the minutes: pieces that touch or overlap, dealt out in a random order */
static void add_layer(unsigned start, unsigned minutes, unsigned n, unsigned windows)
{
    static unsigned order[MAX_BIDS * MAX_WINDOWS], edge[MAX_BIDS * MAX_WINDOWS + 1];
    unsigned q = n * windows, overlap = below(3) ? 0 : 1 + below(1 + minutes / q);
    bool words = !below(3);
    for (unsigned j = 0; j <= q; j++) edge[j] = cut(start, minutes, j, q, words);
    for (unsigned j = 0; j < q; j++) {
        unsigned other = below(j + 1);
        order[j] = order[other];
        order[other] = j;
    }
    for (unsigned j = 0; j < q; j++) {
        unsigned piece = order[j], before = lesser(edge[piece], overlap ? below(overlap) : 0);
        add_window(&bid[bids + j % n], edge[piece] - before, edge[piece + 1] + (overlap ? below(overlap) : 0));
    }
    bids += n;
}

/* a bid with windows anywhere: inside, across an end, wholly outside */
static void add_any(unsigned start, unsigned minutes, unsigned windows, unsigned longest)
{
    Bid *b = &bid[bids++];
    for (unsigned k = 1 + below(windows); k; k--) {
        unsigned s = below(12) ? start + below(minutes) : below(WEEK);
        add_window(b, s - lesser(s, below(longest)), s + 1 + below(longest));
    }
}

static unsigned time_of(const Bid *b)
{
    unsigned sum = 0;
    for (unsigned k = 0; k < b->count; k++) sum += b->window[k].end - b->window[k].start;
    return sum;
}

/* a price in one of several manners: by the minute, with ties, near ties and some way off; few values; zeros; near the limit; anything */
static unsigned price_of(const Bid *b, unsigned manner, unsigned rate)
{
    if (!below(20)) manner = below(9);
    switch (manner) {
    case 0: return rate * time_of(b);
    case 1: return rate * time_of(b) + below(3);
    case 2: case 3: return rate * time_of(b) * (80 + below(41)) / 100;
    case 4: return 1000 * time_of(b) + below(1000);
    case 5: return below(8);
    case 6: return below(2) ? 0 : below(100);
    case 7: return TOP_PRICE - below(3);
    default: return below(TOP_PRICE + 1);
    }
}

/* a reserve: priced as a bid of all the minutes, as some bids together, or as one of many minutes */
static unsigned reserve_for(unsigned start, unsigned minutes, unsigned manner, unsigned rate)
{
    Bid whole = {0, 1, {{start, start + minutes}}};
    uint64_t sum = 0;
    switch (bids ? below(3) : 0) {
    case 0: return price_of(&whole, manner, rate);
    case 1: return price_of(&whole, manner, rate) / (1 + below(8));
    default: for (unsigned k = 1 + below(bids); k && sum < TOP_PRICE; k--) sum += bid[below(bids)].price;
             return sum < TOP_PRICE ? (unsigned)sum : TOP_PRICE;
    }
}

static void shuffle(void)
{
    for (unsigned i = bids; i > 1; i--) {
        unsigned j = below(i);
        Bid b = bid[i - 1];
        bid[i - 1] = bid[j];
        bid[j] = b;
    }
}

/* a minute to begin at: often beside a word's edge */
static unsigned start_for(unsigned minutes)
{
    unsigned room = WEEK - minutes, near = 64 * below(4) + below(3);
    switch (below(3)) {
    case 0: return 0;
    case 1: return lesser(room, near - (near > 0));
    default: return below(room + 1);
    }
}

size_t wide_text(char *s, Size size)
{
    unsigned start = start_for(size.minutes), manner = below(9), rate = 1 + below(9);
    unsigned layers = 2 + below(2), share = size.bids / (layers + 1);
    unsigned windows = size.single ? 1 : lesser(size.windows, (TEXT_BYTES / size.bids - BID_BYTES) / WINDOW_BYTES);
    unsigned longest = 1 + below(4) * size.minutes / (1 + share);
    bool thin = !below(8), some_long = below(2);
    bids = 0;
    memset(bid, 0, sizeof bid);
    for (unsigned k = 0; k < layers; k++)
        add_layer(start, size.minutes, 1 + (below(3) ? share / 2 : 0) + below(1 + share / 2), 1 + below(windows));
    while (!thin && bids < size.bids) add_any(start, size.minutes, windows, some_long && !below(16) ? 1 + below(size.minutes) : longest);
    shuffle();
    if (thin) bids -= 1 + below(2);
    for (unsigned i = 0; i < bids; i++) bid[i].price = lesser(price_of(&bid[i], manner, rate), TOP_PRICE);
    size_t at = (size_t)sprintf(s, "(tender %s %u %u)\n", size.single ? "single" : "multi", start, start + size.minutes);
    if (below(2)) at += put_reserve(s + at, lesser(reserve_for(start, size.minutes, manner, rate), TOP_PRICE));
    unsigned step = 1 + below(900), first = 1 + below(90000);
    for (unsigned i = 0; i < bids; i++) {
        at += open_bid(s + at, first + i * step, bid[i].price);
        for (unsigned k = 0; k < bid[i].count; k++) at += (size_t)sprintf(s + at, " (%u %u)", bid[i].window[k].start, bid[i].window[k].end);
        at += (size_t)sprintf(s + at, ")\n");
    }
    return at;
}

Size wide_size(void)
{
    unsigned words = 64 * (1 + below(9)) + below(3) - 1;
    return (Size){.single = below(2), .minutes = below(2) ? 60 + below(541) : words, .bids = 3 + below(below(8) ? 58 : 298),
                  .windows = 1 + below(below(4) ? 6 : MAX_WINDOWS)};
}
