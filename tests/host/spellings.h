/* Random bids given by their minutes, and the many texts that spell them. */
#ifndef SPELLINGS_H
#define SPELLINGS_H

#include <stdbool.h>
#include <stddef.h>

enum { SPELT_BIDS = 60, SPELT_WINDOWS = 32 };

/* the windows of a bid rise, with a minute or more between two: one for each run of its minutes */
typedef struct { unsigned start, end; } Run;
typedef struct { unsigned bidder, price, runs; Run run[SPELT_WINDOWS]; } SpeltBid;
typedef struct { bool single, reserved; unsigned start, end, reserve, n; SpeltBid bid[SPELT_BIDS]; } Spelt;

/* up to 5, at times 60 bids, anywhere in the week; in half of the tenders some runs begin or end at or beside a multiple of 64, and half
   have a reserve */
void some_bids(Spelt *t);

/* one thing changed, and which: the tender, its reserve, a price, a bidder, a minute, the order of two bids, the last bid dropped */
const char *change(Spelt *t);

/* the text with prices in whole cents and a window for each run, in rising order */
size_t plain_text(char *s, const Spelt *t);

/* a text with the same prices and minutes: one price in three with a point, and in a multi tender windows split so that they touch or
   overlap, parts of them said again, all in a random order */
size_t any_text(char *s, const Spelt *t);

#endif
