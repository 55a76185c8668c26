// i;unicode-casemap written by hand in C, without proof: the straight loop that the benchmark measures by.
#ifndef BENCH_STRAIGHT_H
#define BENCH_STRAIGHT_H

#include "peers.h"

// The most code points of a decomposition.
#define PARTS_MOST 32

// Hangul syllables, which decompose by rule; the names are those of the Unicode Standard, section 3.12.
#define S_BASE 0xAC00
#define L_BASE 0x1100
#define V_BASE 0x1161
#define T_BASE 0x11A7
#define L_COUNT 19
#define V_COUNT 21
#define T_COUNT 28
#define N_COUNT (V_COUNT * T_COUNT)
#define S_COUNT (L_COUNT * N_COUNT)

static inline bool is_scalar(uint32_t c) {
    return c <= 0x10FFFF && (c < 0xD800 || c > 0xDFFF);
}

static inline bool is_syllable(uint32_t c) {
    return c >= S_BASE && c < S_BASE + S_COUNT;
}

// One character of UTF-8 at the start of a text: its width in octets, or 0 if it is malformed (RFC 3629).
size_t straight_decode(const uint8_t *octets, size_t length, uint32_t *c);

// The titlecase of a code point, itself if it has none.
uint32_t straight_title(const struct table *table, uint32_t c);

// Writes a code point in UTF-8 at `at` and answers its end; NULL if that would pass `end`.
uint8_t *straight_write(uint32_t c, uint8_t *at, uint8_t *end);

// Writes the full decomposition of a code point in UTF-8 at `at` and answers its end; NULL if that would pass `end`.
uint8_t *straight_unfold(const struct table *table, uint32_t c, uint8_t *at, uint8_t *end);

// Builds a table from lines of UnicodeData.txt; one with no entries if a line is refused.
struct table straight_build(struct text lines, struct table_room room);

#endif
