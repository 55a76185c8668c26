/* The two page slices, presence and ranks: what is lent of them, and what must be left there. */
#ifndef PAGING_H
#define PAGING_H

#include "input.h"
#include "lent.h"
#include "mundeziwa.h"

/* The lengths of what is lent, in numbers. */
struct page_rooms {
    size_t presence, ranks;
};

/* Both slices, lent for one call; are_filled says whether they held pages before it. */
struct pages {
    struct lent presence, ranks;
    int are_filled;
};

/* By one octet: for each slice two numbers more than is needed, just enough, one less, or none. */
struct page_rooms take_page_rooms(struct input *input);

/* Whether a call under this collation can't be lent slices of these lengths (15). */
int are_short(uint32_t collation, struct page_rooms rooms);

/* Makes the least call over a table, and learns from it the pages of that table; 0 if the table is refused. */
int learn_pages(const struct table *table);

/* What was last learnt, for calls that only read pages. */
extern uint64_t learnt_presence[MZ_PAGES], learnt_ranks[MZ_PAGES];
#define LEARNT learnt_presence, MZ_PAGES, learnt_ranks, MZ_PAGES

/* Lends slices that hold no pages or, to a call that only reads them, those that were learnt. */
struct pages lend_pages(enum memory memory, struct page_rooms rooms, int are_filled);

#define LENT(pages) \
    (pages).presence.at, (pages).presence.size / sizeof(uint64_t), (pages).ranks.at, (pages).ranks.size / sizeof(uint64_t)

/* After a call that answered with a number: a table that was checked has left its pages, with and without room for keys; after any
 * other answer both slices are as they were. What lies beyond the pages stays. Gives both back. */
void end_pages(struct pages pages, uint32_t collation, uint64_t number);

#endif
