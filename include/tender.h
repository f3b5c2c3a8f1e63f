/*
 * The calls of the sound register auction for a host program in C: bytes in, bytes out.
 *
 * Every call has one shape,
 *
 *     size_t tender_X(const uint8_t *text, size_t text_len, [number,] uint8_t *out, size_t out_len);
 *
 * It reads the bid text, writes what it makes of it to `out` and answers how many bytes that is; the bytes of `out`
 * past them stay as they were. It answers 0 where `out_len` is too small; `out` is then unchanged, to the last byte.
 * No call ever has 0 bytes to write. What is declined has the one line "(refused N P)", number and place.
 *
 * `text` is only read. Each pointer is to as many bytes as its length says; where a length is 0 its pointer may be
 * anything and is not followed. `text` and `out` do not overlap. The calls keep nothing between calls, take no memory
 * from the heap and make no system call: they may be made from several threads at once. Each needs TENDER_STACK
 * bytes of stack.
 */
#ifndef TENDER_H
#define TENDER_H

#include <stddef.h>
#include <stdint.h>

#ifdef __cplusplus
extern "C" {
#endif

#define TENDER_STACK (4u << 20)

/* The longest text that can be read. A longer one is declined whatever it holds, so one byte more is enough to tell. */
#define TENDER_TEXT_MAX 65536

/*
 * The list of the tender: who wins and what each is paid. A buffer of TENDER_LIST_MAX bytes holds every list. Amounts
 * are in whole cents, also where the text has a price with a point, "2.50" for 250. Where the text has a line
 * "(reserve C)" and the house wins, the list has the line "(house C)" after the winners and before the total, whose
 * cost includes it and whose sum paid does not. With a reserve no list is "(refused 11 P)" or "(refused 12 P)"; a
 * reserve in the wrong place is "(refused 16 P)", P its line.
 */
#define TENDER_LIST_MAX 51200
size_t tender_list(const uint8_t *text, size_t text_len, uint8_t *list, size_t list_len);

/*
 * The text in one spelling: each bid's windows joined where they overlap or touch, in rising order, also those outside
 * the tender, and prices in whole cents; all else as it was, the reserve included. It reads back as the same tender,
 * with the same reserve if it has one, and the same bidders, prices and minutes in the same entry order, and two texts
 * that can be read have equal bytes here exactly when all of these agree. It is never longer than the text. A buffer
 * as long as the text, but of 64 bytes at least, holds it or the refusal's line; so TENDER_TEXT_MAX bytes hold every
 * one.
 */
size_t tender_rewrite(const uint8_t *text, size_t text_len, uint8_t *out, size_t out_len);

/*
 * What would have won: "(highest B C)", C the largest whole price in cents with which the bid of bidder B would win if
 * all else stood, the limit of 100,000,000 set aside; or "(highest B none)" where not even 0 would. Every lower price
 * would win too, and no higher one. For a winner of a multi tender C is what the list pays, for a winner of a single
 * tender that or one cent less, as the tie falls; for a loser it is less than the price named. Any number may be asked
 * for. What the list declines is declined with the same line; then "(refused 17 0)" says that no bid has the number. A
 * buffer of TENDER_HIGHEST_MAX bytes holds every line.
 */
#define TENDER_HIGHEST_MAX 64
size_t tender_highest(const uint8_t *text, size_t text_len, uint64_t bidder, uint8_t *out, size_t out_len);

#ifdef __cplusplus
}
#endif

#endif
