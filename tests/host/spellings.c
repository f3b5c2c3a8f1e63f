/* Random bids given by their minutes, and the many texts that spell them. */
#include "spellings.h"
#include "texts.h"

#include <stdio.h>

enum { WEEK = 10080, TOP_PRICE = 100000000 };

static unsigned lesser(unsigned a, unsigned b)
{
    return a < b ? a : b;
}

/* bids */

/* a minute at or beside the next multiple of 64, but not below `least` */
static unsigned by_word(unsigned minute, unsigned least)
{
    unsigned next = (minute + 63) / 64 * 64 + below(3);
    return next > least ? next - 1 : least;
}

static unsigned first_minute(bool words)
{
    switch (below(3)) {
    case 0: return 0;
    case 1: return words ? by_word(below(WEEK - 64), 0) : below(WEEK);
    default: return WEEK - 1 - below(90);
    }
}

static void some_runs(SpeltBid *b, unsigned most, bool words)
{
    unsigned least = first_minute(words), scale = below(2) ? 3 : below(3) ? 90 : WEEK / most;
    b->runs = 0;
    do {
        unsigned start = least + (b->runs ? below(scale) : 0);
        if (words && b->runs && below(2)) start = by_word(start, least);
        if (start >= WEEK) break;
        unsigned end = start + 1 + below(scale);
        if (words && below(2)) end = by_word(end, start + 1);
        b->run[b->runs++] = (Run){start, lesser(end, WEEK)};
        least = end + 1;
    } while (b->runs < most);
}

void some_bids(Spelt *t)
{
    unsigned step = 2 + below(900), first = 1 + below(below(2) ? 50 : 900000), most = below(4) ? 4 : SPELT_WINDOWS;
    bool words = below(2);
    t->single = !below(8);
    t->start = below(3) ? below(WEEK) : 0;
    t->end = t->start + 1 + below(WEEK - t->start);
    t->reserved = below(2);
    t->reserve = below(2) ? below(100) : below(TOP_PRICE + 1);
    t->n = below(below(8) ? 6 : SPELT_BIDS + 1);
    for (unsigned i = 0; i < t->n; i++) {
        t->bid[i].bidder = first + i * step;
        t->bid[i].price = below(2) ? below(100) : below(TOP_PRICE + 1);
        some_runs(&t->bid[i], t->single ? 1 : 1 + below(most), words);
    }
}

/* changes */

static void drop_run(SpeltBid *b, unsigned k)
{
    for (b->runs--; k < b->runs; k++) b->run[k] = b->run[k + 1];
}

/* the one minute between two runs joins them, or a run loses its first or last minute, or goes, or grows by one */
static void change_minute(SpeltBid *b)
{
    unsigned k = below(b->runs);
    Run *r = &b->run[k];
    if (k + 1 < b->runs && r[1].start == r->end + 1) {
        r->end = r[1].end;
        drop_run(b, k + 1);
    }
    else if (r->end - r->start > 1 && below(2)) r->start++;
    else if (r->end - r->start > 1) r->end--;
    else if (b->runs > 1) drop_run(b, k);
    else if (r->end < WEEK) r->end++;
    else r->start--;
}

static void change_tender(Spelt *t)
{
    if (t->single && below(2)) t->single = false;
    else if (t->end < WEEK) t->end++;
    else if (t->start) t->start--;
    else t->end--;
}

/* a cent more or less, or a reserve more or fewer */
static void change_reserve(Spelt *t)
{
    if (t->reserved && below(2)) t->reserve += t->reserve ? -1u : 1;
    else t->reserved = !t->reserved;
}

const char *change(Spelt *t)
{
    unsigned manner = t->n ? below(7) : below(2), i = t->n ? below(t->n) : 0;
    SpeltBid *b = &t->bid[i], first = *b;
    bool last = i + 1 >= t->n;
    switch (manner) {
    case 0: change_tender(t); return "another tender";
    case 1: change_reserve(t); return "another reserve";
    case 2: b->price += b->price ? -1u : 1; return "another price";
    case 3: b->bidder++; return "another bidder";
    case 4: if (last) { t->n--; return "the last bid dropped"; }
            b[0] = b[1];
            b[1] = first;
            return "two bids in another order";
    default: change_minute(b); return "another minute";
    }
}

/* texts */

/* more windows, with the same minutes: one split in two that touch or overlap, or a part of one again; then all of them shuffled */
static void respell(SpeltBid *b)
{
    unsigned more = below(SPELT_WINDOWS + 1 - b->runs);
    for (more = below(2) ? more : lesser(more, 2); more; more--) {
        Run *w = &b->run[below(b->runs)], *other = &b->run[b->runs++];
        unsigned cut = w->start + below(w->end - w->start);
        if (cut > w->start && below(2)) {
            *other = (Run){cut, w->end};
            w->end = below(2) ? cut : cut + below(w->end - cut + 1);
        }
        else *other = (Run){cut, cut + 1 + below(w->end - cut)};
    }
    for (unsigned k = b->runs; k > 1; k--) {
        unsigned j = below(k);
        Run w = b->run[k - 1];
        b->run[k - 1] = b->run[j];
        b->run[j] = w;
    }
}

static size_t put_text(char *s, const Spelt *t, bool plain)
{
    size_t at = (size_t)sprintf(s, "(tender %s %u %u)\n", t->single ? "single" : "multi", t->start, t->end);
    if (t->reserved) {
        at += (size_t)sprintf(s + at, "(reserve ");
        at += put_price(s + at, t->reserve, !plain && !below(3));
        at += (size_t)sprintf(s + at, ")\n");
    }
    for (unsigned i = 0; i < t->n; i++) {
        SpeltBid b = t->bid[i];
        if (!plain && !t->single) respell(&b);
        at += (size_t)sprintf(s + at, "(bid %u ", b.bidder);
        at += put_price(s + at, b.price, !plain && !below(3));
        for (unsigned k = 0; k < b.runs; k++) at += (size_t)sprintf(s + at, " (%u %u)", b.run[k].start, b.run[k].end);
        at += (size_t)sprintf(s + at, ")\n");
    }
    return at;
}

size_t plain_text(char *s, const Spelt *t)
{
    return put_text(s, t, true);
}

size_t any_text(char *s, const Spelt *t)
{
    return put_text(s, t, false);
}
