/* Tests of tender_highest: near misses by name, random texts, and every price tried in the list. */
#ifndef HIGHEST_H
#define HIGHEST_H

#include <stddef.h>

void named_highest(void);

/* of a text whose list is this refusal: the line is the same, whoever is asked for */
void highest_declines(const char *text, size_t n, const char *want);

/* a tenth of `rounds` small texts, a fourth of them faulty, each bid of them asked for; the other sorts in proportion */
void random_highest(long rounds);

#endif
