/*
 * A second implementation of the list, of the one spelling and of the highest price, written for plainness and not for speed, to compare
 * the proved one with.
 *
 * The text is read into a Tender. A rewritten text is made from one flag for each minute of the week, bid by bid.
 * For a list all speak of cells, of which one question is asked, whether a bid has a cell (`has`); it is asked once of each bid and cell,
 * and the answers are kept both ways: the bids that have a cell, and the cells that a bid has.
 * Single: the least cover cell by cell, sets compared where costs tie, and the whole selection again without each winner.
 * Multi: the greedy run, replayed from the start at each price tried; the critical price by bisection, not by document 000's maximum.
 * The highest price with which a bid would win is found by bisection in either kind, the bid's fate being decided from the start at each
 * price tried, and not from what is paid.
 * The house is no bid here. It has every cell and comes last, so in a single tender it stands alone or not at all, where the bids cost more
 * than the reserve, and in a multi tender the run ends where it is taken.
 */
#include "second.h"

#include <stdbool.h>
#include <stdio.h>
#include <string.h>

enum { MAX_BIDS = 1000, MAX_WINDOWS = 32, WEEK = 10080, MAX_TEXT = 65536, TOP_PRICE = 100000000, WORDS = (MAX_BIDS + 63) / 64 };
enum { HOUSE = MAX_BIDS };      /* the house, where a bid is asked for by its entry */
static const int64_t NONE = INT64_MAX;

typedef struct { long bidder, price; int count; int start[MAX_WINDOWS + 1], end[MAX_WINDOWS + 1]; } Bid;
typedef struct { int count; uint16_t bid[MAX_BIDS]; } Owners;   /* of a cell: the bids that have it, in entry order */
typedef struct { int count; uint16_t cell[WEEK]; } Cells;       /* of a bid: the cells that it has, rising */
typedef struct {
    bool single;
    long start, end;
    bool reserved;
    long reserve;
    int n;
    Bid bid[MAX_BIDS];
    int cells;
    Owners owners[WEEK];
    Cells held[MAX_BIDS];
} Tender;

/* reading */

typedef struct { const uint8_t *at, *end; } Line;

static bool word(Line *l, const char *w)
{
    size_t n = strlen(w);
    if ((size_t)(l->end - l->at) < n || memcmp(l->at, w, n)) return false;
    l->at += n;
    return true;
}

static bool number(Line *l, long *v)
{
    const uint8_t *from = l->at;
    for (*v = 0; l->at < l->end && *l->at >= '0' && *l->at <= '9' && l->at - from < 10; l->at++) *v = *v * 10 + (*l->at - '0');
    long digits = l->at - from;
    return digits >= 1 && digits <= 9 && (digits == 1 || *from != '0');
}

/* A price is the word up to the next space or bracket. Its digits make the cents, and it has to be one of the two words for so many. */
static bool price(Line *l, long *cents)
{
    enum { NINE_DIGITS = 999999999 };
    const uint8_t *from = l->at;
    char whole[24], pointed[24];
    for (*cents = 0; l->at < l->end && *l->at != ' ' && *l->at != ')' && *cents <= NINE_DIGITS; l->at++)
        if (*l->at >= '0' && *l->at <= '9') *cents = *cents * 10 + (*l->at - '0');
    if (*cents > NINE_DIGITS) return false;
    Line first = {from, l->at}, second = first;
    sprintf(whole, "%ld", *cents);
    sprintf(pointed, "%ld.%02ld", *cents / 100, *cents % 100);
    return (word(&first, whole) && first.at == first.end) || (word(&second, pointed) && second.at == second.end);
}

static bool form_of_tender(Line l, Tender *t)
{
    if (!word(&l, "(tender ")) return false;
    if (word(&l, "single ")) t->single = true;
    else if (word(&l, "multi ")) t->single = false;
    else return false;
    return number(&l, &t->start) && word(&l, " ") && number(&l, &t->end) && word(&l, ")") && l.at == l.end;
}

static bool form_of_reserve(Line l, long *cents)
{
    return word(&l, "(reserve ") && price(&l, cents) && word(&l, ")") && l.at == l.end;
}

/* the form of the whole line; `windows` counts them all, of which the first 33 are kept, `empty` and `late` those of either fault */
static bool form_of_bid(Line l, Bid *b, long *windows, long *empty, long *late)
{
    *windows = *empty = *late = 0;
    if (!word(&l, "(bid ") || !number(&l, &b->bidder) || !word(&l, " ") || !price(&l, &b->price)) return false;
    do {
        long s, e;
        if (!word(&l, " (") || !number(&l, &s) || !word(&l, " ") || !number(&l, &e) || !word(&l, ")")) return false;
        *empty += s >= e;
        *late += e > WEEK;
        if (*windows <= MAX_WINDOWS) { b->start[*windows] = (int)s; b->end[*windows] = (int)e; }
        ++*windows;
    } while (l.at < l.end && *l.at == ' ');
    return word(&l, ")") && l.at == l.end;
}

static int read_text(const uint8_t *text, size_t len, Tender *t, long *place)
{
    *place = 0;
    if (len > MAX_TEXT) return 1;
    t->n = 0;
    t->reserved = false;
    const uint8_t *at = text, *end = text + len;
    for (*place = 1; *place == 1 || at < end; ++*place) {
        const uint8_t *stop = at < end ? memchr(at, '\n', (size_t)(end - at)) : NULL;
        if (!stop) return 2;
        Line l = {at, stop};
        at = stop + 1;
        if (*place == 1) {
            if (!form_of_tender(l, t)) return 2;
            if (t->start >= t->end) return 5;
            if (t->end > WEEK) return 15;
            continue;
        }
        if (form_of_reserve(l, &t->reserve)) {
            if (*place > 2) return 16;
            if (t->reserve > TOP_PRICE) return 3;
            t->reserved = true;
            continue;
        }
        Bid b;
        long windows, empty, late;
        if (!form_of_bid(l, &b, &windows, &empty, &late)) return 2;
        if (t->n == MAX_BIDS || windows > MAX_WINDOWS) return 4;
        if (b.bidder < 1 || b.bidder > 999999 || b.price > TOP_PRICE) return 3;
        if (t->single && windows > 1) return 7;
        if (empty) return 5;
        if (late) return 15;
        for (int i = 0; i < t->n; i++) if (t->bid[i].bidder == b.bidder) return 6;
        b.count = (int)windows;
        t->bid[t->n++] = b;
    }
    return 0;
}

/* cells: cell 0 is the tender's first minute, and so on */

static long minute_of(const Tender *t, int cell)
{
    return t->start + cell;
}

static bool has(const Tender *t, int i, int cell)
{
    const Bid *b = &t->bid[i];
    long minute = minute_of(t, cell);
    for (int j = 0; j < b->count; j++) if (b->start[j] <= minute && minute < b->end[j]) return true;
    return false;
}

static void lay_out(Tender *t)
{
    t->cells = (int)(t->end - t->start);
    for (int i = 0; i < t->n; i++) t->held[i].count = 0;
    for (int c = 0; c < t->cells; c++) {
        t->owners[c].count = 0;
        for (int i = 0; i < t->n; i++) {
            if (!has(t, i, c)) continue;
            t->owners[c].bid[t->owners[c].count++] = (uint16_t)i;
            t->held[i].cell[t->held[i].count++] = (uint16_t)c;
        }
    }
}

/* the first cell that just so many bids have, or -1 */
static int cell_with(const Tender *t, int bids)
{
    for (int c = 0; c < t->cells; c++) if (t->owners[c].count == bids) return c;
    return -1;
}

/* Reads the text, lays its tender out and answers what the tender is refused with, by number and place; 0 where it is not. */
static int open_tender(const uint8_t *text, size_t len, Tender *t, long *place)
{
    int no = read_text(text, len, t, place);
    if (no) return no;
    lay_out(t);
    for (int few = 0; few < 2 && !t->reserved; few++) {
        int c = cell_with(t, few);
        if (c < 0) continue;
        *place = minute_of(t, c);
        return 11 + few;
    }
    return 0;
}

/* single */

typedef struct { int64_t cost; uint64_t set[WORDS]; } Cover;

static bool in_set(const Cover *c, int i)
{
    return c->set[i / 64] >> (i % 64) & 1;
}

/* the set without the latest bid that only one of them has stands: as numbers, bid i being bit i, the lesser */
static bool better(const Cover *a, const Cover *b)
{
    if (a->cost != b->cost) return a->cost < b->cost;
    for (int w = WORDS - 1; w >= 0; w--) if (a->set[w] != b->set[w]) return a->set[w] < b->set[w];
    return false;
}

/* The best cover of the tender by the bids but `skip`; with HOUSE by all of them. best[c] covers the cells before c; its last bid has cell
   c - 1, and, having one window, all from its first cell on, so the others cover the cells before that. */
static Cover least_cover(const Tender *t, int skip)
{
    static Cover best[WEEK + 1];
    memset(&best[0], 0, sizeof best[0]);
    for (int c = 1; c <= t->cells; c++) {
        const Owners *last = &t->owners[c - 1];
        best[c].cost = NONE;
        for (int k = 0; k < last->count; k++) {
            int i = last->bid[k];
            const Cover *others = &best[t->held[i].cell[0]];
            if (i == skip || others->cost == NONE || others->cost + t->bid[i].price > best[c].cost) continue;
            Cover with = *others;
            with.cost += t->bid[i].price;
            with.set[i / 64] |= (uint64_t)1 << (i % 64);
            if (better(&with, &best[c])) best[c] = with;
        }
    }
    return best[t->cells];
}

/* the least cost without bid `skip`: the other bids', or the house alone where that is less */
static int64_t least_cost(const Tender *t, int skip)
{
    int64_t cost = least_cover(t, skip).cost;
    return t->reserved && t->reserve < cost ? t->reserve : cost;
}

/* multi */

/* The greedy run with bid k at this price, all else standing, until it is known whether k is taken; with HOUSE the whole run, in `won`, and
   whether the house is taken. The house reaches all that is open; it is taken only where no bid is as cheap, and nothing is open then. */
static bool greedy(const Tender *t, int k, int64_t price, bool *won)
{
    static bool open[WEEK];
    static int reach[MAX_BIDS];
    for (int c = 0; c < t->cells; c++) open[c] = true;
    for (int i = 0; i < t->n; i++) { won[i] = false; reach[i] = t->held[i].count; }
    for (int left = t->cells; left;) {
        int pick = -1;
        int64_t least = 0;
        for (int i = 0; i < t->n; i++) {
            int64_t p = i == k ? price : t->bid[i].price;
            if (reach[i] && (pick < 0 || p * reach[pick] < least * reach[i])) { pick = i; least = p; }
        }
        if (t->reserved && (pick < 0 || t->reserve * reach[pick] < least * left)) return k == HOUSE;
        if (pick < 0) return false;
        won[pick] = true;
        if (pick == k) return true;
        for (int j = 0; j < t->held[pick].count; j++) {
            int c = t->held[pick].cell[j];
            if (!open[c]) continue;
            open[c] = false;
            left--;
            for (int o = 0; o < t->owners[c].count; o++) reach[t->owners[c].bid[o]]--;
        }
        if (k != HOUSE && !reach[k]) return false;
    }
    return false;
}

/* which prices win */

/* whether bid i wins with this price, all else standing: decided from the start */
static bool wins_at(Tender *t, int i, int64_t price)
{
    static bool won[MAX_BIDS];
    if (!t->single) return greedy(t, i, price, won);
    long named = t->bid[i].price;
    t->bid[i].price = price;
    Cover bids = least_cover(t, HOUSE);
    t->bid[i].price = named;
    return in_set(&bids, i) && !(t->reserved && t->reserve < bids.cost);
}

/* the largest price with which bid i wins, where `high` loses and `low` wins or is -1; -1 then says that none does */
static int64_t largest(Tender *t, int i, int64_t low, int64_t high)
{
    while (high - low > 1) {
        int64_t mid = low + (high - low) / 2;
        if (wins_at(t, i, mid)) low = mid;
        else high = mid;
    }
    return low;
}

/* the largest price at which bid k of a multi tender is taken, as it is at its own */
static int64_t critical(Tender *t, int k)
{
    int64_t low = t->bid[k].price, high = low + 1;     /* low wins */
    while (wins_at(t, k, high)) { low = high; high *= 2; }
    return largest(t, k, low, high);
}

/* A price that surely loses. Others have every cell of bid i: in a single tender it is above all of them together; in a multi tender it is
   for each of i's cells above what any of them asks for one. */
static int64_t too_much(const Tender *t, int i)
{
    int64_t sum = t->reserved ? t->reserve : 0, dearest = sum;
    for (int j = 0; j < t->n; j++) {
        if (j == i) continue;
        sum += t->bid[j].price;
        if (dearest < t->bid[j].price) dearest = t->bid[j].price;
    }
    return (t->single ? sum : dearest * t->cells) + 1;
}

/* the list */

/* who wins and what each is paid; answers whether the house wins */
static bool award(Tender *t, bool *won, int64_t *paid)
{
    if (!t->single) {
        bool house = greedy(t, HOUSE, 0, won);
        for (int i = 0; i < t->n; i++) paid[i] = won[i] ? critical(t, i) : 0;
        return house;
    }
    Cover bids = least_cover(t, HOUSE);
    bool house = t->reserved && t->reserve < bids.cost;
    for (int i = 0; i < t->n; i++) {
        won[i] = !house && in_set(&bids, i);
        paid[i] = won[i] ? least_cost(t, i) - bids.cost + t->bid[i].price : 0;
    }
    return house;
}

size_t second_list(const uint8_t *text, size_t len, char *list, size_t room)
{
    static Tender t;
    static bool won[MAX_BIDS];
    static int64_t paid[MAX_BIDS];
    long place;
    int no = open_tender(text, len, &t, &place);
    if (no) return (size_t)snprintf(list, room, "(refused %d %ld)\n", no, place);
    bool house = award(&t, won, paid);
    size_t at = (size_t)snprintf(list, room, "(award %s %ld %ld)\n", t.single ? "single" : "multi", t.start, t.end);
    int64_t cost = 0, sum = 0;
    for (int i = 0; i < t.n; i++) {
        if (!won[i]) continue;
        at += (size_t)snprintf(list + at, room - at, "(win %ld %lld)\n", t.bid[i].bidder, (long long)paid[i]);
        cost += t.bid[i].price;
        sum += paid[i];
    }
    if (house) {
        at += (size_t)snprintf(list + at, room - at, "(house %ld)\n", t.reserve);
        cost += t.reserve;
    }
    return at + (size_t)snprintf(list + at, room - at, "(total %lld %lld)\n", (long long)cost, (long long)sum);
}

/* the highest price */

size_t second_highest(const uint8_t *text, size_t len, uint64_t bidder, char *out, size_t room)
{
    static Tender t;
    long place;
    int i = 0, no = open_tender(text, len, &t, &place);
    if (no) return (size_t)snprintf(out, room, "(refused %d %ld)\n", no, place);
    while (i < t.n && (uint64_t)t.bid[i].bidder != bidder) i++;
    if (i == t.n) return (size_t)snprintf(out, room, "(refused 17 0)\n");
    int64_t price = largest(&t, i, -1, too_much(&t, i));
    if (price < 0) return (size_t)snprintf(out, room, "(highest %ld none)\n", t.bid[i].bidder);
    return (size_t)snprintf(out, room, "(highest %ld %lld)\n", t.bid[i].bidder, (long long)price);
}

/* the one spelling */

/* the minutes that a bid has, a flag each; one more, never set, ends the last run */
static void mark_minutes(const Bid *b, uint8_t *minute)
{
    memset(minute, 0, WEEK + 1);
    for (int j = 0; j < b->count; j++) for (int m = b->start[j]; m < b->end[j]; m++) minute[m] = 1;
}

static size_t put_runs(const uint8_t *minute, char *out, size_t room)
{
    size_t at = 0;
    const uint8_t *start, *end = minute;
    while ((start = memchr(end, 1, (size_t)(minute + WEEK - end)))) {
        end = memchr(start, 0, (size_t)(minute + WEEK + 1 - start));
        at += (size_t)snprintf(out + at, room - at, " (%d %d)", (int)(start - minute), (int)(end - minute));
    }
    return at;
}

size_t second_rewrite(const uint8_t *text, size_t len, char *out, size_t room)
{
    static Tender t;
    static uint8_t minute[WEEK + 1];
    long place;
    int no = read_text(text, len, &t, &place);
    if (no) return (size_t)snprintf(out, room, "(refused %d %ld)\n", no, place);
    size_t at = (size_t)snprintf(out, room, "(tender %s %ld %ld)\n", t.single ? "single" : "multi", t.start, t.end);
    if (t.reserved) at += (size_t)snprintf(out + at, room - at, "(reserve %ld)\n", t.reserve);
    for (int i = 0; i < t.n; i++) {
        mark_minutes(&t.bid[i], minute);
        at += (size_t)snprintf(out + at, room - at, "(bid %ld %ld", t.bid[i].bidder, t.bid[i].price);
        at += put_runs(minute, out + at, room - at);
        at += (size_t)snprintf(out + at, room - at, ")\n");
    }
    return at;
}

const char *second_difference(const uint8_t *text, size_t len, const uint8_t *other, size_t other_len)
{
    static Tender t, u;
    static uint8_t minute[WEEK + 1], others[WEEK + 1];
    long place;
    if (read_text(text, len, &t, &place) || read_text(other, other_len, &u, &place)) return "one cannot be read";
    if (t.single != u.single || t.start != u.start || t.end != u.end) return "another tender";
    if (t.reserved != u.reserved || (t.reserved && t.reserve != u.reserve)) return "another reserve";
    if (t.n != u.n) return "another number of bids";
    for (int i = 0; i < t.n; i++) {
        if (t.bid[i].bidder != u.bid[i].bidder) return "another bidder";
        if (t.bid[i].price != u.bid[i].price) return "another price";
        mark_minutes(&t.bid[i], minute);
        mark_minutes(&u.bid[i], others);
        if (memcmp(minute, others, WEEK)) return "another minute";
    }
    return NULL;
}
