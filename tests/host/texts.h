/* Random bid texts, the same in each run. */
#ifndef TEXTS_H
#define TEXTS_H

#include <stdbool.h>
#include <stddef.h>

enum { TEXT_ROOM = 1 << 17 };

unsigned below(unsigned n);

/* a price in either spelling, whole cents or a point before the last two digits; and in one of the two, one in three with a point */
size_t put_price(char *s, unsigned cents, bool pointed);
size_t some_price(char *s, unsigned cents);

/* a tender of up to 40, at times 200 minutes with up to 8 bids; half have a reserve, most others are declined. Here and below one price in
   three has a point. */
size_t small_text(char *s);

/* a tender of up to 10 minutes with up to six bids and prices below TINY_TOP; half have a reserve */
enum { TINY_TOP = 20 };
size_t tiny_text(char *s);

/* a text whose lines have the form and often a fault or several: numbers at and past each limit, windows empty or late, too many of them;
   reserves in any place, some of them misspelt; prices with a misspelt point, and points in other numbers */
size_t faulty_text(char *s);

/* a text with one or two bytes changed, dropped or put in */
size_t mutated(char *s, size_t n);

/* A tender of so many minutes and so many bids, 3 to 1000, of up to so many windows: one in a single tender, and fewer where the text would
   be longer than 65,536 bytes. Each minute has two bidders or more, but one text in eight has fewer bids and then lacks one or two more.
   Half have a reserve. */
typedef struct { bool single; unsigned minutes, bids, windows; } Size;
size_t wide_text(char *s, Size size);

/* a size of 60 to 600 minutes, of up to 60 bids and at times 300 */
Size wide_size(void);

#endif
