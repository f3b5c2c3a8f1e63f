/* Lists of small tenders held to the rules themselves, by trying: every set, every price, every part of the minutes. */
#ifndef TRIES_H
#define TRIES_H

/* so many random tenders, half of them with a reserve */
void tried_lists(long rounds);

#endif
