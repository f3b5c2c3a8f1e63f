/*
 * Lists of small tenders held to the rules themselves, by trying: every set of entries, every price of a bid, every part of its minutes.
 * The house is the last entry here, with every minute, as paper 02 says it. Nothing is shared with the second implementation.
 */
#include "tries.h"
#include "calls.h"
#include "entry.h"
#include "texts.h"

#include <stdio.h>
#include <string.h>

enum { MOST = 5, MINUTES = 10, TOP = 40, TRIED = 60, CEILING = (TOP + 2) * (MINUTES + 1) };     /* no price from CEILING on can win */

/* entry i has the minutes of the bits of has[i], counted from the tender's start; entry n is the house, where there is a reserve */
typedef struct {
    bool single, reserved;
    unsigned start, minutes, n, entries, price[MOST + 1], has[MOST + 1], all;
    unsigned week[MOST];        /* the minutes that a bid has, also those outside the tender, counted from the week's start */
    bool pointed[MOST + 1];     /* how the price is spelt */
    char windows[MOST][256];
} Tried;

/* what a list tells: of each bid whether it won and its payment, whether the house did, cost and sum paid; or the refusal */
typedef struct { bool won[MOST + 1]; long paid[MOST], cost, sum; unsigned number; } Told;

static void some_tender(Tried *t)
{
    *t = (Tried){.single = below(2), .reserved = below(2), .start = below(4), .minutes = 1 + below(MINUTES), .n = below(MOST + 1)};
    t->all = (1u << t->minutes) - 1;
    t->entries = t->n + t->reserved;
    for (unsigned i = 0; i < t->n; i++) {
        size_t at = 0;
        t->price[i] = below(4) ? below(TOP) : below(4);
        for (unsigned k = t->single ? 1 : 1 + below(3); k; k--) {
            unsigned s = below(t->start + t->minutes), e = s + 1 + below(t->minutes + 3);
            for (unsigned m = s; m < e; m++) t->week[i] |= 1u << m;
            at += (size_t)sprintf(t->windows[i] + at, " (%u %u)", s, e);
        }
        t->has[i] = t->week[i] >> t->start & t->all;
    }
    t->price[t->n] = below(3) ? below(2 * TOP) : below(4);
    t->has[t->n] = t->all;
    for (unsigned i = 0; i <= t->n; i++) t->pointed[i] = !below(3);
}

static size_t put(char *s, const Tried *t)
{
    char price[16];
    size_t at = (size_t)sprintf(s, "(tender %s %u %u)\n", t->single ? "single" : "multi", t->start, t->start + t->minutes);
    put_price(price, t->price[t->n], t->pointed[t->n]);
    if (t->reserved) at += (size_t)sprintf(s + at, "(reserve %s)\n", price);
    for (unsigned i = 0; i < t->n; i++) {
        put_price(price, t->price[i], t->pointed[i]);
        at += (size_t)sprintf(s + at, "(bid %u %s%s)\n", i + 1, price, t->windows[i]);
    }
    return at;
}

/* The list's lines in their order: the award's or the refusal's, winners rising, the house, the total. */
static Told list_of(const Tried *t)
{
    static char text[TEXT_ROOM], list[LIST_MAX + 1];
    Told told = {0};
    size_t n = put(text, t);
    list[tender_list((const uint8_t *)text, n, (uint8_t *)list, LIST_MAX)] = 0;
    if (sscanf(list, "(refused %u", &told.number) == 1) return told;
    const char *at = strchr(list, '\n') + 1;
    unsigned bidder, last = 0, price;
    long paid;
    int used;
    for (used = 0; sscanf(at, "(win %u %ld)\n%n", &bidder, &paid, &used) == 2 && used; at += used, used = 0) {
        expect(last < bidder && bidder <= t->n, "tried: the winners' order", text, n);
        if (bidder < 1 || bidder > t->n) return told;
        told.won[bidder - 1] = true;
        told.paid[bidder - 1] = paid;
        last = bidder;
    }
    used = 0;
    if (sscanf(at, "(house %u)\n%n", &price, &used) == 1 && used) {
        expect(t->reserved && price == t->price[t->n], "tried: the house's line", text, n);
        told.won[t->n] = true;
        at += used;
    }
    used = 0;
    expect(sscanf(at, "(total %ld %ld)\n%n", &told.cost, &told.sum, &used) == 2 && used && !at[used], "tried: the total", text, n);
    return told;
}

/* sets of entries: entry i is bit i */

static bool covers(const Tried *t, unsigned set)
{
    unsigned minutes = 0;
    for (unsigned i = 0; i < t->entries; i++) if (set >> i & 1) minutes |= t->has[i];
    return minutes == t->all;
}

static long cost_of(const Tried *t, unsigned set)
{
    long sum = 0;
    for (unsigned i = 0; i < t->entries; i++) if (set >> i & 1) sum += t->price[i];
    return sum;
}

/* the latest-entered that one of two unlike sets has is not in this one */
static bool stands(const Tried *t, unsigned set, unsigned other)
{
    for (unsigned i = t->entries; i--;) if ((set >> i & 1) != (other >> i & 1)) return other >> i & 1;
    return false;
}

/* the covering set of least cost without entry `skip`, of all where no entry has that number */
static unsigned least_set(const Tried *t, unsigned skip)
{
    unsigned best = 0;
    bool any = false;
    for (unsigned set = 0; set < 1u << t->entries; set++) {
        if ((set >> skip & 1) || !covers(t, set)) continue;
        long less = any ? cost_of(t, best) - cost_of(t, set) : 1;
        if (less > 0 || (less == 0 && stands(t, set, best))) best = set;
        any = true;
    }
    return best;
}

/* the entries that the rounds take, entry k at this price */
static unsigned greedy_set(const Tried *t, unsigned k, long price)
{
    unsigned set = 0, open = t->all;
    while (open) {
        unsigned pick = t->entries, reach = 0;
        long least = 0;
        for (unsigned i = 0; i < t->entries; i++) {
            unsigned r = (unsigned)__builtin_popcount(t->has[i] & open);
            long p = i == k ? price : (long)t->price[i];
            if (r && (pick == t->entries || p * reach < least * r)) { pick = i; reach = r; least = p; }
        }
        if (pick == t->entries) break;
        set |= 1u << pick;
        open &= ~t->has[pick];
    }
    return set;
}

static long largest_price(const Tried *t, unsigned i)
{
    long price = CEILING;
    while (price >= 0 && !(greedy_set(t, i, price) >> i & 1)) price--;
    return price;
}

static unsigned fewest(const Tried *t)
{
    unsigned least = MOST;
    for (unsigned m = 0; m < t->minutes; m++) {
        unsigned owners = 0;
        for (unsigned i = 0; i < t->n; i++) owners += t->has[i] >> m & 1;
        if (owners < least) least = owners;
    }
    return least;
}

static void judge(const Tried *t, const Told *told, const char *text, size_t n)
{
    unsigned set = t->single ? least_set(t, t->entries) : greedy_set(t, t->entries, 0), owners = set & ((1u << t->n) - 1);
    long sum = 0;
    for (unsigned i = 0; i < t->entries; i++) expect(told->won[i] == (set >> i & 1), "tried: who wins", text, n);
    for (unsigned i = 0; i < t->n; i++) {
        long paid = 0;
        if (owners >> i & 1) paid = t->single ? cost_of(t, least_set(t, i)) - cost_of(t, set) + t->price[i] : largest_price(t, i);
        expect(told->paid[i] == paid, "tried: what is paid", text, n);
        expect(!told->won[i] || told->paid[i] >= t->price[i], "tried: paid less than named", text, n);
        sum += paid;
    }
    expect(told->cost == cost_of(t, set) && told->sum == sum, "tried: cost and sum paid", text, n);
}

static long gain(const Told *told, unsigned i, long cost)
{
    return told->won[i] ? told->paid[i] - cost : 0;
}

/* no price, however it is spelt, gains an owner more than the true cost, which the bid names */
static void no_gain(const Tried *t, const Told *told, unsigned i, const char *text, size_t n)
{
    Tried other = *t;
    for (other.price[i] = 0; other.price[i] < TRIED; other.price[i]++) {
        other.pointed[i] = below(2);
        Told with = list_of(&other);
        expect(gain(&with, i, t->price[i]) <= gain(told, i, t->price[i]), "tried: a gain by a false price", text, n);
    }
}

/* minutes held back */

static struct { long parts, refused, prices, winning; } less;

/* some bits, the same in each run */
static unsigned mixed(void)
{
    return (unsigned)((unsigned long)less.parts * 0x9e3779b97f4a7c15u >> 32);
}

/* the minutes as windows, one for each run, and another from each minute of `cuts` inside a run on; the last of them twice, where asked */
static void put_windows(char *s, unsigned minutes, unsigned cuts, bool twice)
{
    unsigned firsts = minutes & (~(minutes << 1) | cuts), lasts = minutes & (~(minutes >> 1) | cuts >> 1), start = 0, end = 0;
    for (unsigned m = 0; m < 31; m++) {
        if (firsts >> m & 1) start = m;
        if (lasts >> m & 1) s += sprintf(s, " (%u %u)", start, end = m + 1);
    }
    if (twice) sprintf(s, " (%u %u)", start, end);
}

/* Bid i names this price in `other`, where it has a part of the minutes that it has in `t`: its owner gains no more than told. With the
   same price and minutes, however they are spelt, all is as told. */
static void no_gain_at(const Tried *t, const Told *told, Tried *other, unsigned i, unsigned price, const char *text, size_t n)
{
    unsigned few = fewest(other);
    other->price[i] = price;
    other->pointed[i] = less.prices++ & 1;
    Told with = list_of(other);
    less.winning += with.won[i];
    expect(with.number == (t->reserved || few >= 2 ? 0 : 11 + few), "tried: whether less time is refused", text, n);
    expect(gain(&with, i, t->price[i]) <= gain(told, i, t->price[i]), "tried: a gain by less time", text, n);
    if (other->has[i] != t->has[i] || price != t->price[i]) return;
    expect(with.won[i] == told->won[i] && with.cost == told->cost && with.sum == told->sum, "tried: the same minutes", text, n);
}

/* a part of its minutes, offered at every price below TRIED, the true cost among them */
static void offer_part(const Tried *t, const Told *told, unsigned i, unsigned part, const char *text, size_t n)
{
    Tried other = *t;
    put_windows(other.windows[i], part, t->single ? 0 : mixed() & mixed() >> 7, !t->single && mixed() & 1);
    other.has[i] = part >> t->start & t->all;
    for (unsigned price = 0; price < TRIED; price++) no_gain_at(t, told, &other, i, price, text, n);
    less.parts++;
    less.refused += !t->reserved && fewest(&other) < 2;
}

/* Every part of the minutes of bid i: in a single tender each window inside the bid's, in a multi tender each set of its minutes inside the
   tender, with some of those outside it. */
static void no_gain_by_less(const Tried *t, const Told *told, unsigned i, const char *text, size_t n)
{
    unsigned had = t->week[i], inside = t->has[i] << t->start, set = inside;
    for (unsigned s = 0; t->single && s < 31; s++)
        for (unsigned e = s; had >> e & 1; e++) offer_part(t, told, i, (2u << e) - (1u << s), text, n);
    if (t->single) return;
    do {
        unsigned part = set | (mixed() >> 2 & had & ~inside);
        if (part) offer_part(t, told, i, part, text, n);
        set = (set - 1) & inside;
    } while (set != inside);
}

void tried_lists(long rounds)
{
    static char text[TEXT_ROOM];
    long awards[2] = {0}, refused[2] = {0}, houses = 0, beside = 0;
    for (long r = 0; r < rounds; r++) {
        Tried t;
        some_tender(&t);
        size_t n = put(text, &t);
        Told told = list_of(&t);
        unsigned few = fewest(&t);
        expect(told.number == (t.reserved || few >= 2 ? 0 : 11 + few), "tried: whether it is refused", text, n);
        *(told.number ? &refused[t.reserved] : &awards[t.reserved]) += 1;
        if (r % 128 == 3) for (unsigned i = 0; i < t.n; i++) no_gain_by_less(&t, &told, i, text, n);
        if (told.number) continue;
        judge(&t, &told, text, n);
        houses += told.won[t.n];
        beside += told.won[t.n] && told.cost > t.price[t.n];
        if (r % 16 == 0) for (unsigned i = 0; i < t.n; i++) no_gain(&t, &told, i, text, n);
    }
    printf("tried: %ld awarded and %ld declined without a reserve; %ld and %ld with one, the house booked in %ld, in %ld beside owners\n",
           awards[0], refused[0], awards[1], refused[1], houses, beside);
    printf("tried: %ld parts of a bid's minutes, %ld of them refused, with %ld prices, of which %ld win\n",
           less.parts, less.refused, less.prices, less.winning);
}
