// The benchmark's inputs: names in mixed spelling, texts of the greatest length, and the published table.
#ifndef BENCH_INPUTS_H
#define BENCH_INPUTS_H

#include "peers.h"

#define NAMES 2048
// The lengths of a name, in octets.
#define NAME_LEAST 5
#define NAME_MOST 20
#define ENTRIES_MOST 16384
#define POOL_MOST 65536

// Names in pairs: those at even places are one name in two spellings, those at odd places two names.
struct names {
    struct text first[NAMES], second[NAMES];
    uint8_t octets[2 * NAMES][NAME_MOST];
};

struct inputs {
    // The lines of UnicodeData.txt, and the table built from them, with its pages.
    struct text lines;
    struct table table;
    // Names in Latin letters, and names in many scripts.
    struct names latin, mixed;
    // Texts of TEXT_MOST octets: names of many scripts with a space between, and English with a few accents.
    uint8_t mixed_text[TEXT_MOST], prose[TEXT_MOST];
};

// How a name is written.
enum spelling { COMPOSED, DECOMPOSED, CAPITALS, DECOMPOSED_CAPITALS, SPELLINGS };

// Ends the program with a message.
_Noreturn void fail(const char *what);

// Begins the draws anew, so that what is made after it does not depend on what was made before.
void begin_draws(void);

// A number below `bound`, at random.
uint32_t draw(uint32_t bound);

// Spells a name anew: its length in octets, or 0 if it would pass `most`.
size_t spell(const struct table *table, const char *name, enum spelling spelling, uint8_t *octets, size_t most);

// Makes the same inputs at each run; ends the program if it can't, or if they are not as said above. The table comes from the
// file, and gives the spellings: what a letter decomposes into, and its capital.
void make_inputs(struct inputs *inputs, const char *path);

#endif
