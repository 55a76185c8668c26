// UTF-8 (RFC 3629) judged and read by hand in C, as quickly as can be, without proof. The functions are compiled into the loops
// that need them.
#ifndef BENCH_STRAIGHT_JUDGE_H
#define BENCH_STRAIGHT_JUDGE_H

#include "peers.h"

#define ALWAYS_INLINE static inline __attribute__((always_inline))

// Reads a character that is known to be well formed, and answers its width.
ALWAYS_INLINE size_t read_valid(const uint8_t *at, uint32_t *c) {
    if (at[0] < 0x80) {
        *c = at[0];
        return 1;
    }
    if (at[0] < 0xE0) {
        *c = (at[0] & 0x1Fu) << 6 | (at[1] & 0x3Fu);
        return 2;
    }
    if (at[0] < 0xF0) {
        *c = (at[0] & 0x0Fu) << 12 | (at[1] & 0x3Fu) << 6 | (at[2] & 0x3Fu);
        return 3;
    }
    *c = (at[0] & 0x07u) << 18 | (at[1] & 0x3Fu) << 12 | (at[2] & 0x3Fu) << 6 | (at[3] & 0x3Fu);
    return 4;
}

ALWAYS_INLINE bool continues(uint8_t octet) {
    return (octet & 0xC0) == 0x80;
}

// The width of the character at a place that is not ASCII, 0 if it is malformed.
ALWAYS_INLINE size_t judged_width(struct text text, size_t i) {
    const uint8_t *at = text.octets + i;
    size_t left = text.length - i;
    if (at[0] < 0xE0) return at[0] >= 0xC2 && left >= 2 && continues(at[1]) ? 2 : 0;
    if (at[0] < 0xF0) {
        if (left < 3 || !continues(at[1]) || !continues(at[2])) return 0;
        // The code point without its last six bits: too low for three octets, or a surrogate.
        uint32_t high = (at[0] & 0x0Fu) << 6 | (at[1] & 0x3Fu);
        return high < 0x800 >> 6 || high - (0xD800 >> 6) < 0x800 >> 6 ? 0 : 3;
    }
    if (at[0] > 0xF4 || left < 4 || !continues(at[1]) || !continues(at[2]) || !continues(at[3])) return 0;
    // Without its last twelve bits: 10000 to 10FFFF hex.
    uint32_t high = (at[0] & 0x07u) << 6 | (at[1] & 0x3Fu);
    return high - (0x10000 >> 12) < 0x100000 >> 12 ? 4 : 0;
}

// The place, in memory, of the first octet of a word that has one of these bits.
ALWAYS_INLINE size_t first_octet(uint64_t bits) {
    bool low_first = __BYTE_ORDER__ == __ORDER_LITTLE_ENDIAN__;
    return (size_t)(low_first ? __builtin_ctzll(bits) : __builtin_clzll(bits)) / 8;
}

// The first place from `i` on that is not ASCII, or the end of the text.
ALWAYS_INLINE size_t past_ascii(struct text text, size_t i) {
    for (; text.length - i >= 8; i += 8) {
        uint64_t word;
        memcpy(&word, text.octets + i, 8);
        uint64_t bits = word & 0x8080808080808080;
        if (bits != 0) return i + first_octet(bits);
    }
    while (i < text.length && text.octets[i] < 0x80) i++;
    return i;
}

// Whether a text is valid: ASCII by eight octets, and tests for each width.
ALWAYS_INLINE bool is_valid_by_tests(struct text text) {
    for (size_t i = 0; i < text.length;) {
        if (text.octets[i] < 0x80) {
            i = past_ascii(text, i);
            continue;
        }
        size_t width = judged_width(text, i);
        if (width == 0) return false;
        i += width;
    }
    return true;
}

// What judging octet by octet can have come to: a whole character, a character with so many octets missing, the first octets that
// not every octet may follow, and a fault. The number is the place in a row of the six bits with what comes next.
enum judged { WHOLE = 0, ONE = 6, TWO = 12, THREE = 18, AFTER_E0 = 24, AFTER_ED = 30, AFTER_F0 = 36, AFTER_F4 = 42, FAULT = 48 };

// The row of an octet: what comes next after each of the above. After a fault comes a fault.
#define ROW(whole, one, two, three, e0, ed, f0, f4)                                                                              \
    ((uint64_t)(whole) << WHOLE | (uint64_t)(one) << ONE | (uint64_t)(two) << TWO | (uint64_t)(three) << THREE |                 \
     (uint64_t)(e0) << AFTER_E0 | (uint64_t)(ed) << AFTER_ED | (uint64_t)(f0) << AFTER_F0 | (uint64_t)(f4) << AFTER_F4 |         \
     (uint64_t)FAULT << FAULT)
// The row of an octet that can only be the first of a character.
#define FIRST(next) ROW(next, FAULT, FAULT, FAULT, FAULT, FAULT, FAULT, FAULT)

static const uint64_t judging_rows[256] = {
    [0x00 ... 0x7F] = FIRST(WHOLE),
    [0x80 ... 0x8F] = ROW(FAULT, WHOLE, ONE, TWO, FAULT, ONE, FAULT, TWO),
    [0x90 ... 0x9F] = ROW(FAULT, WHOLE, ONE, TWO, FAULT, ONE, TWO, FAULT),
    [0xA0 ... 0xBF] = ROW(FAULT, WHOLE, ONE, TWO, ONE, FAULT, TWO, FAULT),
    [0xC0 ... 0xC1] = FIRST(FAULT),
    [0xC2 ... 0xDF] = FIRST(ONE),
    [0xE0] = FIRST(AFTER_E0),
    [0xE1 ... 0xEC] = FIRST(TWO),
    [0xED] = FIRST(AFTER_ED),
    [0xEE ... 0xEF] = FIRST(TWO),
    [0xF0] = FIRST(AFTER_F0),
    [0xF1 ... 0xF3] = FIRST(THREE),
    [0xF4] = FIRST(AFTER_F4),
    [0xF5 ... 0xFF] = FIRST(FAULT),
};

// The same by a shift for each octet and no branch but the loop's.
ALWAYS_INLINE bool is_valid_by_shifts(struct text text) {
    uint64_t state = WHOLE;
    for (size_t i = 0; i < text.length; i++) state = judging_rows[text.octets[i]] >> (state & 63);
    return (state & 63) == WHOLE;
}

#endif
