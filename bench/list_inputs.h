// The lists of the benchmark, in records.
#ifndef BENCH_LIST_INPUTS_H
#define BENCH_LIST_INPUTS_H

#include "inputs.h"

struct lists {
    const char *label;
    // The names of each, and how many of them both were made with.
    size_t count, shared;
    struct text first, second;
};

#define LISTS 4

// Makes the same lists at each run: of Latin names, of names of many scripts, and of long names that differ in their last octets
// alone, made to be slow. No name stands twice in a list, and a third of them are in both, in some spelling. Ends the program if
// it can't.
void make_lists(struct lists lists[LISTS], const struct table *table);

// Makes lists that are compared and not timed: of names that stand in them again and again, empty ones and such as are no UTF-8.
struct lists make_odd_lists(void);

#endif
