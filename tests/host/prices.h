/* Tests of prices in both spellings: near misses by name, and random texts with each price in the other spelling. */
#ifndef PRICES_H
#define PRICES_H

void named_prices(void);

/* so many small random texts, a fourth of them faulty, half of the others with a byte or two changed, and wide ones in proportion */
void respelt_prices(long rounds);

#endif
