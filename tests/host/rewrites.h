/* Tests of tender_rewrite: near misses by name, the longest texts, random texts, and pairs of texts. */
#ifndef REWRITES_H
#define REWRITES_H

void named_rewrites(void);

/* `rounds` small random texts and as many with a byte changed, the other sorts in proportion */
void random_rewrites(long rounds);

#endif
