/* Slices lent to the library, in three kinds of memory. AddressSanitizer doesn't see what the library itself reads and writes, since its
 * archive is compiled without it; pages that can't be touched do, and so do the blocks where the library calls memcpy. */
#ifndef LENT_H
#define LENT_H

#include <stddef.h>
#include <stdint.h>

enum memory {
    BEFORE_SHUT_PAGES, /* the slice ends where pages begin that can't be touched */
    AFTER_SHUT_PAGES,  /* the slice begins where such pages end */
    OWN_BLOCK,         /* a block of malloc of just that size, watched by AddressSanitizer */
    MEMORIES
};

/* Each argument of a call has pages of its own. */
enum slot {
    FIRST, SECOND, ENTRIES, POOL, PRESENCE, RANKS, FIRST_KEY, SECOND_KEY, RECORDS, STORE, PARTNERS, POSITIONS,
    OCTETS, ENDS, KEY_ENDS, VALID, ROW, REPEATS, ANSWER, SLOTS
};

/* The most octets that a slice may have. */
#define LENT_MOST ((size_t)1 << 20)

/* What stands in a slice before a call that writes it: octets that no UTF-8 has, and numbers that no answer brings. */
extern uint8_t pattern[LENT_MOST];

void fill_pattern(void);

struct lent {
    void *at;
    size_t size;
    void *block; /* what give_back frees, or NULL */
};

/* Lends a copy of `size` octets. Pages of a slot hold one slice at a time. */
struct lent lend(enum memory memory, enum slot slot, const void *content, size_t size);

void give_back(struct lent lent);

#endif
