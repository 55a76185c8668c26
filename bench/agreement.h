// Whether the programs that are timed do the same work.
#ifndef BENCH_AGREEMENT_H
#define BENCH_AGREEMENT_H

#include "inputs.h"

// A buffer of this many times the text holds the key of any Latin name, but the library can't know that before it looks.
#define SHORT_GROWTH 4

// How many names a peer gives Mundeziwa's key for, in buffers of `growth` times the name.
size_t agreeing_keys(const struct peer *peer, const struct inputs *inputs, const struct names *names, size_t growth);

// What a peer that works by the lent table does otherwise than Mundeziwa; NULL if nothing.
const char *difference(const struct peer *peer, const struct inputs *inputs);

#endif
