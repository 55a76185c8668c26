// Which names two lists share, written by hand in C, without proof: what the benchmark of lists measures by.
#ifndef BENCH_STRAIGHT_LISTS_H
#define BENCH_STRAIGHT_LISTS_H

#include "peers.h"

// The most names of a list.
#define LIST_MOST 1024

// Names are counted from 1, and a partner of 0 is none.
struct shared {
    size_t first_count, second_count, equal_pairs, names_with_partner;
    uint32_t partners[LIST_MOST], positions[LIST_MOST];
};

// Each says which names two lists of records share, and leaves all keys in the store: false if a list is refused or the store is
// too short. The keys are made by straight C, but for the last.

// A hash table of the second list's keys. The first list's names are not put in order: the positions are not written.
bool share_by_hash(const struct table *table, struct text first, struct text second, struct buffer store, struct shared *shared);

// Both lists sorted by the C library, and walked side by side.
bool share_by_qsort(const struct table *table, struct text first, struct text second, struct buffer store, struct shared *shared);

// The same, sorted by merging.
bool share_by_merge(const struct table *table, struct text first, struct text second, struct buffer store, struct shared *shared);

// The same, with keys made by Mundeziwa, each by a call of its own: what is left between the two is the sort and the walk.
bool share_by_merge_of_our_keys(const struct table *table, struct text first, struct text second, struct buffer store,
                                struct shared *shared);

#endif
