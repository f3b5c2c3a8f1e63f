/* The entry points for C, as their header declares them: named here for all the tests in C. */
#ifndef ENTRY_H
#define ENTRY_H

#include "../../include/tender.h"

enum { LIST_MAX = TENDER_LIST_MAX, HIGHEST_MAX = TENDER_HIGHEST_MAX, STACK = TENDER_STACK };

/* room enough for a rewritten text, or the line of a refusal */
static inline size_t rewrite_room(size_t text_len)
{
    return text_len < 64 ? 64 : text_len;
}

#endif
