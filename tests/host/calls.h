/* One call of an entry point for C, in memory where a byte too far is seen; and the count of checks. */
#ifndef CALLS_H
#define CALLS_H

#include <stdbool.h>
#include <stddef.h>
#include <stdint.h>

enum { ROOM = 1 << 17 };        /* for the longest text, and the longest buffer */

extern long checks, faults;

/* counts a check; the first that fail are shown with the text, where there is one */
void expect(bool ok, const char *what, const void *text, size_t len);

typedef size_t Call(const uint8_t *text, size_t text_len, uint8_t *out, size_t out_len);

/* One call with a buffer of `room` bytes: its answer, and in `out` what it wrote. Checks that the text, the bytes past what it wrote and
   those before the buffer stay. */
size_t called(Call *call, const void *text, size_t n, size_t room, uint8_t *out);

/* The call writes just these bytes, into a buffer of `most` bytes and into one that just fits, and declines shorter ones. */
void writes(Call *call, size_t most, const void *text, size_t n, const char *want);

#endif
