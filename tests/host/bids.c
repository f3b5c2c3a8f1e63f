/* A text by its lines: who is asked for in it, and the same text with another price of a bid. */
#include "bids.h"

#include <inttypes.h>
#include <stdio.h>
#include <string.h>

void bidders_in(const void *text, size_t n, Bidders *bidders)
{
    const char *at = text, *end = at + n;
    bidders->count = 0;
    while (at < end && bidders->count < MOST_BIDS) {
        const char *stop = memchr(at, '\n', (size_t)(end - at));
        if (!stop) stop = end;
        if (stop - at > 5 && !memcmp(at, "(bid ", 5)) {
            uint32_t v = 0;
            for (at += 5; at < stop && *at >= '0' && *at <= '9'; at++) v = v * 10 + (uint32_t)(*at - '0');
            bidders->number[bidders->count++] = v;
        }
        at = stop + 1;
    }
}

/* where the price begins */
static const char *place_of_price(const char *text, uint64_t bidder)
{
    char start[32];
    sprintf(start, "\n(bid %" PRIu64 " ", bidder);
    return strstr(text, start) + strlen(start);
}

/* the digits make the cents, with or without a point */
unsigned price_in(const char *text, uint64_t bidder)
{
    unsigned cents = 0;
    for (const char *at = place_of_price(text, bidder); *at != ' '; at++) if (*at != '.') cents = cents * 10 + (unsigned)(*at - '0');
    return cents;
}

size_t with_price(char *out, const char *text, uint64_t bidder, const char *price)
{
    const char *at = place_of_price(text, bidder);
    return (size_t)sprintf(out, "%.*s%s%s", (int)(at - text), text, price, strchr(at, ' '));
}
