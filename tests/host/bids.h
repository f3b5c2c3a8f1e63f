/* A text by its lines: who is asked for in it, and the same text with another price of a bid. */
#ifndef BIDS_H
#define BIDS_H

#include <stddef.h>
#include <stdint.h>

/* the numbers that stand as bidder on the lines that begin as bids, whatever else those lines hold; of the first MOST_BIDS such lines */
enum { MOST_BIDS = 1000 };
typedef struct { unsigned count; uint32_t number[MOST_BIDS]; } Bidders;
void bidders_in(const void *text, size_t n, Bidders *bidders);

/* of a text that is accepted, ends with the byte 0 and has a bid of this bidder: the cents of its price, and the text with this price there
   instead; answers that one's length */
unsigned price_in(const char *text, uint64_t bidder);
size_t with_price(char *out, const char *text, uint64_t bidder, const char *price);

#endif
