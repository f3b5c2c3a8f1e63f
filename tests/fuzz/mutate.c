/* The fuzzer's changes to a text. Those of libFuzzer, of bytes, nearly always break its form; most of these keep it, and some mend it. */
#include <stdbool.h>
#include <stdint.h>
#include <stdio.h>
#include <string.h>

enum { WEEK = 10080, MAX_BIDS = 1000, MAX_WINDOWS = 32, TOP_BIDDER = 999999, TOP_PRICE = 100000000 };

size_t LLVMFuzzerMutate(uint8_t *data, size_t n, size_t most);

static uint32_t seed;

static unsigned below(unsigned n)
{
    seed = seed * 1664525u + 1013904223u;
    return (unsigned)(((uint64_t)seed * n) >> 32);
}

typedef struct { uint8_t *s; size_t n, most; } Text;

/* `len` bytes at `at` replaced; nothing where there is no room */
static void replace(Text *t, size_t at, size_t len, const char *by, size_t m)
{
    if (t->n - len + m > t->most) return;
    memmove(t->s + at + m, t->s + at + len, t->n - at - len);
    memcpy(t->s + at, by, m);
    t->n += m - len;
}

static bool digit(const Text *t, size_t i)
{
    return i < t->n && t->s[i] >= '0' && t->s[i] <= '9';
}

/* the next number from a random place on, cyclically; false where there is none */
static bool some_number(const Text *t, size_t *at, size_t *len)
{
    if (!t->n) return false;
    size_t from = below((unsigned)t->n);
    for (size_t k = 0; k < t->n; k++) {
        size_t i = (from + k) % t->n;
        if (!digit(t, i) || (i && digit(t, i - 1))) continue;
        *at = i;
        for (*len = 0; digit(t, i + *len);) ++*len;
        return true;
    }
    return false;
}

static long value(const Text *t, size_t at, size_t len)
{
    long v = 0;
    for (size_t i = 0; i < len && i < 10; i++) v = v * 10 + (t->s[at + i] - '0');
    return v;
}

/* a number changed: by one or two, to another of the text, to one beside a limit or a word's edge, to any small one */
static void change_number(Text *t)
{
    static const long odd[] = {0, 1, 2, 62, 63, 64, 65, 127, 128, 129, 639, 640, 641, 5040, 10079, 10080, 10081, 999999, 1000000,
                               100000000, 100000001};
    size_t at, len, other, size;
    char s[24];
    if (!some_number(t, &at, &len)) return;
    long v = value(t, at, len);
    switch (below(5)) {
    case 0: v += 1 + below(2); break;
    case 1: v -= v > 1 ? 1 + below(2) : v; break;
    case 2: some_number(t, &other, &size); v = value(t, other, size); break;
    case 3: v = odd[below(sizeof odd / sizeof *odd)]; break;
    default: v = below(below(2) ? 20 : 700);
    }
    replace(t, at, len, s, (size_t)sprintf(s, "%ld", v));
}

/* so many cents in either spelling, one in three with a point; answers its length */
static size_t put_price(char *s, long cents)
{
    return (size_t)(below(3) ? sprintf(s, "%ld", cents) : sprintf(s, "%ld.%02ld", cents / 100, cents % 100));
}

/* where a random line begins, and its length with byte 10 */
static bool some_line(const Text *t, size_t *at, size_t *len)
{
    if (!t->n) return false;
    size_t i = below((unsigned)t->n), e = i;
    while (i && t->s[i - 1] != '\n') i--;
    while (e < t->n && t->s[e] != '\n') e++;
    *at = i;
    *len = e - i + (e < t->n);
    return true;
}

/* the next window from a random place on, cyclically, with the space before it */
static bool some_window(const Text *t, size_t *at, size_t *len)
{
    if (!t->n) return false;
    size_t from = below((unsigned)t->n);
    for (size_t k = 0; k + 2 < t->n; k++) {
        size_t i = (from + k) % t->n;
        if (i + 2 >= t->n || t->s[i] != ' ' || t->s[i + 1] != '(') continue;
        const uint8_t *e = memchr(t->s + i, ')', t->n - i);
        if (!e) continue;
        *at = i;
        *len = (size_t)(e - (t->s + i)) + 1;
        return true;
    }
    return false;
}

/* the price of a random line: its second word, or the third of a line that begins as a bid */
static bool some_price(const Text *t, size_t *at, size_t *len)
{
    size_t line, n;
    if (!some_line(t, &line, &n)) return false;
    size_t i = line, end = line + n;
    for (unsigned words = n > 5 && !memcmp(t->s + line, "(bid ", 5) ? 2 : 1; words; words--) {
        while (i < end && t->s[i] != ' ') i++;
        i += i < end;
    }
    *at = i;
    while (i < end && t->s[i] != ' ' && t->s[i] != ')') i++;
    *len = i - *at;
    return *len > 0 && *len < 12;
}

/* a price in the other spelling, or its point at another place */
static void respell_price(Text *t)
{
    char s[40];
    size_t at, len, n = 0;
    bool pointed = false;
    long cents = 0;
    if (!some_price(t, &at, &len)) return;
    for (size_t i = at; i < at + len; i++) {
        pointed |= t->s[i] == '.';
        if (digit(t, i)) { s[n++] = (char)t->s[i]; cents = cents * 10 + (t->s[i] - '0'); }
    }
    if (!n) return;
    if (below(8)) n = (size_t)(pointed ? sprintf(s, "%ld", cents) : sprintf(s, "%ld.%02ld", cents / 100, cents % 100));
    else {
        size_t point = below((unsigned)n + 1);
        memmove(s + point + 1, s + point, n - point);
        s[point] = '.';
        n++;
    }
    replace(t, at, len, s, n);
}

/* a bid of all the tender's minutes, mostly dear, or of a part, as the last line */
static void add_bid(Text *t, bool whole)
{
    char s[96];
    unsigned start = 0, end = 100;
    if (t->n > 15 && t->n < 1 << 16) {
        char line[64] = {0};
        memcpy(line, t->s, t->n < sizeof line ? t->n : sizeof line - 1);
        if (sscanf(line, "(tender %*s %u %u)", &start, &end) != 2 || end <= start || end > WEEK) start = 0, end = 100;
    }
    unsigned length = end - start, from = whole ? start : start + below(length), to = whole ? end : from + 1 + below(length);
    unsigned price = below(4) ? below(whole ? 40 : 6) * (to - from) + below(2) : below(100);
    size_t n = (size_t)sprintf(s, "(bid %u ", 1 + below(TOP_BIDDER));
    n += put_price(s + n, price);
    replace(t, t->n, 0, s, n + (size_t)sprintf(s + n, " (%u %u))\n", from, to));
}

static bool is_reserve(const uint8_t *line, const uint8_t *end)
{
    return end - line >= 8 && !memcmp(line, "(reserve", 8);
}

/* the reserve on the second line: put in, taken away, or of another price */
static void change_reserve(Text *t)
{
    char s[32];
    uint8_t *stop = t->n ? memchr(t->s, '\n', t->n) : NULL, *end = t->s + t->n, *next;
    if (!stop) return;
    size_t at = (size_t)(stop + 1 - t->s), len = 0;
    if (is_reserve(stop + 1, end) && (next = memchr(stop + 1, '\n', (size_t)(end - stop - 1)))) len = (size_t)(next - stop);
    if (len && below(3)) { replace(t, at, len, "", 0); return; }
    size_t n = (size_t)sprintf(s, "(reserve ");
    n += put_price(s + n, below(4) ? below(below(2) ? 300 : 20000) : below(3));
    replace(t, at, len, s, n + (size_t)sprintf(s + n, ")\n"));
}

/* a line, or a window, dropped, or put in again at another place */
static void move_part(Text *t, bool line)
{
    bool (*some)(const Text *, size_t *, size_t *) = line ? some_line : some_window;
    char part[512];
    size_t at, len, to, size;
    if (!some(t, &at, &len) || len > sizeof part) return;
    memcpy(part, t->s + at, len);
    if (!below(3)) { replace(t, at, len, "", 0); return; }
    if (some(t, &to, &size)) replace(t, below(2) ? to : to + size, 0, part, len);
}

/* a window split in two that touch or overlap, the later one first */
static void split_window(Text *t)
{
    char s[64] = {0};
    size_t at, len;
    unsigned start, end;
    if (!some_window(t, &at, &len) || len >= sizeof s) return;
    memcpy(s, t->s + at, len);
    if (sscanf(s, " (%u %u)", &start, &end) != 2 || end > WEEK || start + 1 >= end) return;
    unsigned cut = start + 1 + below(end - start - 1), over = below(2) * below(end - cut);
    replace(t, at, len, s, (size_t)sprintf(s, " (%u %u) (%u %u)", cut, end, start, cut + over));
}

static void other_kind(Text *t)
{
    if (t->n > 14 && !memcmp(t->s, "(tender single", 14)) replace(t, 8, 6, "multi", 5);
    else if (t->n > 13 && !memcmp(t->s, "(tender multi", 13)) replace(t, 8, 5, "single", 6);
}

/* mending: a text of the right form and with lawful numbers, made of the numbers of each line */

/* the digits on either side of a point are one number */
static long numbers_of(const uint8_t *at, const uint8_t *end, long *v, long most)
{
    long n = 0;
    while (at < end && n < most) {
        if (*at < '0' || *at > '9') { at++; continue; }
        for (v[n] = 0; at < end && ((*at >= '0' && *at <= '9') || *at == '.'); at++)
            if (*at != '.') v[n] = (v[n] * 10 + (*at - '0')) % 1000000000;
        n++;
    }
    return n;
}

/* a lawful window, written after the words before it */
static int window(char *s, const char *before, long start, long end)
{
    start %= WEEK;
    if (end <= start || end > WEEK) end = start + 1 + end % (WEEK - start);
    return sprintf(s, "%s%ld %ld)", before, start, end);
}

static void mend(Text *t)
{
    static char s[1 << 17];
    static long used[MAX_BIDS];
    long v[2 + 2 * MAX_WINDOWS], n, bids = 0;
    const uint8_t *at = t->s, *end = t->s + t->n, *stop;
    size_t len = 0;
    bool multi = false;
    for (long line = 1; at < end && bids < MAX_BIDS && len + 500 < t->most; line++, at = stop + 1) {
        stop = memchr(at, '\n', (size_t)(end - at));
        if (!stop) stop = end;
        n = numbers_of(at, stop, v, line == 1 ? 2 : 2 + 2 * MAX_WINDOWS);
        if (line == 1) {
            multi = memchr(at, 'm', (size_t)(stop - at));
            len += (size_t)window(s, multi ? "(tender multi " : "(tender single ", n > 0 ? v[0] : 0, n > 1 ? v[1] : 100);
        } else if (line == 2 && n && is_reserve(at, stop)) {
            len += (size_t)sprintf(s + len, "(reserve ");
            len += put_price(s + len, v[0] % (TOP_PRICE + 1));
            s[len++] = ')';
        } else {
            if (n < 4) continue;
            bool taken = v[0] < 1 || v[0] > TOP_BIDDER;
            for (long i = 0; i < bids; i++) taken |= used[i] == v[0];
            if (taken) v[0] = 1 + below(TOP_BIDDER);
            used[bids++] = v[0];
            len += (size_t)sprintf(s + len, "(bid %ld ", v[0]);
            len += put_price(s + len, v[1] % (TOP_PRICE + 1));
            for (long k = 2; k + 1 < (multi ? n : 4); k += 2) len += (size_t)window(s + len, " (", v[k], v[k + 1]);
            s[len++] = ')';
        }
        s[len++] = '\n';
    }
    if (len <= t->most) { memcpy(t->s, s, len); t->n = len; }
}

size_t LLVMFuzzerCustomMutator(uint8_t *data, size_t n, size_t most, unsigned from)
{
    Text t = {data, n, most};
    seed = from * 2654435761u;
    if (!below(6)) return LLVMFuzzerMutate(data, n, most);
    for (unsigned k = 1 + below(4); k; k--) {
        switch (below(19)) {
        case 0: other_kind(&t); break;
        case 1: case 2: add_bid(&t, below(2)); break;
        case 3: case 4: case 5: move_part(&t, true); break;
        case 6: case 7: move_part(&t, false); break;
        case 8: split_window(&t); break;
        case 9: change_reserve(&t); break;
        case 10: case 11: respell_price(&t); break;
        default: change_number(&t);
        }
    }
    if (below(4)) mend(&t);
    if (below(2)) { add_bid(&t, true); add_bid(&t, true); }
    if (!t.n) data[t.n++] = '(';        /* libFuzzer allows no empty text */
    return t.n;
}
