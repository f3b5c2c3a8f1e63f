/* A second implementation of the list, of the one spelling and of the highest price, for comparison. Its tables are static: not for several
   threads at once. */
#ifndef SECOND_H
#define SECOND_H

#include <stddef.h>
#include <stdint.h>

/* the list of a text, as a string in `list`; answers its length */
size_t second_list(const uint8_t *text, size_t len, char *list, size_t room);

/* the text in one spelling, or the line of its refusal, as a string in `out`; answers its length */
size_t second_rewrite(const uint8_t *text, size_t len, char *out, size_t room);

/* the highest price with which this bidder's bid would win, or the line of the refusal, as a string in `out`; answers its length */
size_t second_highest(const uint8_t *text, size_t len, uint64_t bidder, char *out, size_t room);

/* what two texts do not agree in: the tender, its reserve, the number of bids, or in entry order a bidder, a price, a minute; NULL where in
   nothing */
const char *second_difference(const uint8_t *text, size_t len, const uint8_t *other, size_t other_len);

#endif
