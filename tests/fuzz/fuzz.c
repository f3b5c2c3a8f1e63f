/*
 * Fuzzing of the calls for C against the second implementation, in one process (libFuzzer). The second implementation is what is
 * instrumented: a text is kept when it takes that where no text before it did. A text on which the two differ ends the run.
 */
#include "../host/bids.h"
#include "../host/entry.h"
#include "../host/second.h"

#include <stdbool.h>
#include <stdio.h>
#include <stdlib.h>
#include <string.h>

enum { GUARD = 64, FILL = 0xA5 };

static long texts, awards, rewritten, prices;

static void report(void)
{
    printf("fuzz: %ld texts, %ld of them awarded, %ld rewritten; %ld answers on a price\n", texts, awards, rewritten, prices);
}

static void must(bool ok, const char *what, const uint8_t *out, size_t k, const char *other, size_t m)
{
    if (ok) return;
    fprintf(stderr, "DISAGREE: %s\nproved:\n%.*s\nsecond:\n%.*s\n", what, (int)k, (const char *)out, (int)m, other);
    abort();
}

/* the bytes of a buffer from k on, and the guard after it, are as they were: the first is, and each is as the one before */
static bool kept(const uint8_t *out, size_t k, size_t room)
{
    return out[k] == FILL && !memcmp(out + k, out + k + 1, room + GUARD - k - 1);
}

typedef size_t Call(const uint8_t *text, size_t n, uint8_t *out, size_t room);
typedef size_t Second(const uint8_t *text, size_t n, char *out, size_t room);

/* one call and its second implementation; answers the second byte, which tells what was written */
static char compared(const char *what, Call *call, Second *second, const uint8_t *text, size_t n, size_t room)
{
    static uint8_t out[TENDER_TEXT_MAX + GUARD];
    static char other[1 << 17];
    size_t m = second(text, n, other, sizeof other);
    memset(out, FILL, room + GUARD);
    size_t k = call(text, n, out, room);
    must(k == m && !memcmp(out, other, m), what, out, k, other, m);
    must(kept(out, k, room), "bytes past what is written", out, k, other, m);
    memset(out, FILL, k);
    must(call(text, n, out, m - 1) == 0 && kept(out, 0, room), "a buffer one byte short", out, 0, other, m);
    return other[1];
}

/* the highest price for the bidder asked for, in the shape of the others */
static uint64_t asked;

static size_t highest(const uint8_t *text, size_t n, uint8_t *out, size_t room)
{
    return tender_highest(text, n, asked, out, room);
}

static size_t other_highest(const uint8_t *text, size_t n, char *out, size_t room)
{
    return second_highest(text, n, asked, out, room);
}

/* asks for one of the text's bidders, by the sum of its bytes, and for a number that is no bidder's */
static void ask(const uint8_t *text, size_t n)
{
    static Bidders in;
    unsigned sum = 0;
    for (size_t i = 0; i < n; i++) sum += text[i];
    bidders_in(text, n, &in);
    asked = in.count ? in.number[sum % in.count] : 0;
    prices += compared("the highest prices", highest, other_highest, text, n, HIGHEST_MAX) == 'h';
    asked += (uint64_t)1 << 32;
    compared("the highest prices of nobody", highest, other_highest, text, n, HIGHEST_MAX);
}

int LLVMFuzzerTestOneInput(const uint8_t *text, size_t n)
{
    size_t room = n < TENDER_TEXT_MAX ? rewrite_room(n) : TENDER_TEXT_MAX;
    if (!texts++) atexit(report);
    awards += compared("the lists", tender_list, second_list, text, n, LIST_MAX) == 'a';
    rewritten += compared("the rewritten texts", tender_rewrite, second_rewrite, text, n, room) == 't';
    ask(text, n);
    return 0;
}
