/* One call of an entry point for C, in memory where a byte too far is seen; and the count of checks. */
#define _GNU_SOURCE
#include "calls.h"

#include <stdio.h>
#include <stdlib.h>
#include <string.h>
#include <sys/mman.h>

long checks, faults;

void expect(bool ok, const char *what, const void *text, size_t len)
{
    checks++;
    if (ok) return;
    faults++;
    if (faults > 5) return;
    printf("FAULT %s\n", what);
    if (text) { fwrite(text, 1, len, stdout); puts("--"); }
}

/* buffers that end where memory ends: a byte read or written past them faults; `sealed` text faults on a write */

enum { GUARD = 64, FILL = 0xA5 };
static uint8_t *text_room, *out_room, filled[ROOM];

static uint8_t *fenced(void)
{
    uint8_t *m = mmap(NULL, ROOM + 4096, PROT_READ | PROT_WRITE, MAP_PRIVATE | MAP_ANONYMOUS, -1, 0);
    if (m == MAP_FAILED || mprotect(m + ROOM, 4096, PROT_NONE)) exit(2);
    return m + ROOM;
}

static const uint8_t *sealed(const void *bytes, size_t n)
{
    mprotect(text_room - ROOM, ROOM, PROT_READ | PROT_WRITE);
    memcpy(text_room - n, bytes, n);
    mprotect(text_room - ROOM, ROOM, PROT_READ);
    return text_room - n;
}

size_t called(Call *call, const void *text, size_t n, size_t room, uint8_t *out)
{
    if (!text_room) {
        text_room = fenced();
        out_room = fenced();
        memset(filled, FILL, sizeof filled);
    }
    const uint8_t *lent = sealed(text, n);
    uint8_t *buffer = out_room - room;
    memset(buffer - GUARD, FILL, GUARD + room);
    size_t k = call(lent, n, buffer, room);
    bool kept = k <= room && !memcmp(buffer + k, filled, room - k) && !memcmp(buffer - GUARD, filled, GUARD);
    expect(kept, "bytes past what is written or before the buffer changed", text, n);
    expect(!memcmp(lent, text, n), "the text changed", text, n);
    if (k <= room) memcpy(out, buffer, k);
    return k;
}

void writes(Call *call, size_t most, const void *text, size_t n, const char *want)
{
    static uint8_t out[ROOM];
    size_t k = called(call, text, n, most, out), w = strlen(want), step = w < 700 ? 7 : w / 8;
    expect(k == w && !memcmp(out, want, w), want, text, n);
    expect(called(call, text, n, w, out) == w && !memcmp(out, want, w), "a buffer that just fits", text, n);
    for (size_t less = 1; less < w; less += less < 4 ? 1 : step)
        expect(called(call, text, n, w - less, out) == 0, "a buffer that is short", text, n);
    expect(called(call, text, n, 0, out) == 0, "no buffer", text, n);
}
