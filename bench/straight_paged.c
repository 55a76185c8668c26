// i;unicode-casemap written by hand in C over the library's own four slices, without proof: how quick keys can get with this
// layout. Keys and lookup counts are the library's, and a text that is no UTF-8 leaves the buffer, since it is judged before the
// first octet is written: by tests for each width, or in the second peer by a shift for each octet. A buffer that is too short is
// noticed when it is full; the library leaves that one too.
#include "straight.h"
#include "straight_judge.h"

// From this length on it pays to look up all of ASCII first.
#define LONG_TEXT 512
// In place of the octet that an octet becomes, where it does not become one of ASCII.
#define NOT_ONE 0x80

// How far a key is written: its end so far, NULL if the buffer was too short, and the lookups so far.
struct progress {
    uint8_t *at;
    uint64_t lookups;
};

static uint64_t last_lookups;

static uint64_t lookups(void) {
    return last_lookups;
}

// How many ones a word has, without the instruction for it, which plain x86-64 does not have.
ALWAYS_INLINE uint32_t count_ones(uint64_t word) {
    word -= word >> 1 & 0x5555555555555555;
    word = (word & 0x3333333333333333) + (word >> 2 & 0x3333333333333333);
    return (uint32_t)(((word + (word >> 4)) & 0x0F0F0F0F0F0F0F0F) * 0x0101010101010101 >> 56);
}

// Whether a code point has an entry.
ALWAYS_INLINE bool has_entry(const struct table *table, uint32_t c) {
    return table->presence[c / 64] >> c % 64 & 1;
}

// The entry of a code point that has one.
ALWAYS_INLINE const uint32_t *entry_of(const struct table *table, uint32_t c) {
    uint64_t below = table->presence[c / 64] & (((uint64_t)1 << c % 64) - 1);
    return table->entries + 4 * (table->ranks[c / 64] + count_ones(below));
}

// The same for a code point of ASCII. Letters often stand in the table without a gap, from the first entry on.
ALWAYS_INLINE const uint32_t *ascii_entry_of(const struct table *table, uint32_t c) {
    size_t guess = c - table->entries[0];
    if (guess < table->entries_length / 4 && table->entries[4 * guess] == c) return table->entries + 4 * guess;
    return entry_of(table, c);
}

// The entry of a code point that decomposes into parts of the pool; else NULL.
ALWAYS_INLINE const uint32_t *parted_entry_of(const struct table *table, uint32_t c) {
    if (!has_entry(table, c)) return NULL;
    const uint32_t *entry = entry_of(table, c);
    return entry[3] > 0 ? entry : NULL;
}

ALWAYS_INLINE size_t encode(uint32_t c, uint8_t *at) {
    if (c < 0x80) {
        at[0] = (uint8_t)c;
        return 1;
    }
    if (c < 0x800) {
        at[0] = (uint8_t)(0xC0 | c >> 6);
        at[1] = (uint8_t)(0x80 | (c & 0x3F));
        return 2;
    }
    if (c < 0x10000) {
        at[0] = (uint8_t)(0xE0 | c >> 12);
        at[1] = (uint8_t)(0x80 | (c >> 6 & 0x3F));
        at[2] = (uint8_t)(0x80 | (c & 0x3F));
        return 3;
    }
    at[0] = (uint8_t)(0xF0 | c >> 18);
    at[1] = (uint8_t)(0x80 | (c >> 12 & 0x3F));
    at[2] = (uint8_t)(0x80 | (c >> 6 & 0x3F));
    at[3] = (uint8_t)(0x80 | (c & 0x3F));
    return 4;
}

static struct progress unfold(const struct table *table, const uint32_t *parts, uint32_t count, struct progress so_far,
                              uint8_t *end);

// Writes the full decomposition of a Hangul syllable.
static __attribute__((noinline)) struct progress unfold_syllable(const struct table *table, uint32_t c, struct progress so_far,
                                                                 uint8_t *end) {
    uint32_t s = c - S_BASE;
    const uint32_t jamo[3] = {L_BASE + s / N_COUNT, V_BASE + s % N_COUNT / T_COUNT, T_BASE + s % T_COUNT};
    return unfold(table, jamo, s % T_COUNT == 0 ? 2 : 3, so_far, end);
}

// Writes a code point that has no parts in the pool.
ALWAYS_INLINE struct progress write_unparted(const struct table *table, uint32_t c, struct progress so_far, uint8_t *end) {
    if (is_syllable(c)) return unfold_syllable(table, c, so_far, end);
    if (end - so_far.at < 4)
        so_far.at = straight_write(c, so_far.at, end);
    else
        so_far.at += encode(c, so_far.at);
    return so_far;
}

// Writes the full decompositions of parts, each of which is one lookup more.
static struct progress unfold(const struct table *table, const uint32_t *parts, uint32_t count, struct progress so_far,
                              uint8_t *end) {
    so_far.lookups += count;
    for (uint32_t i = 0; i < count && so_far.at; i++) {
        const uint32_t *entry = parted_entry_of(table, parts[i]);
        so_far = entry ? unfold(table, table->pool + entry[2], entry[3], so_far, end)
                       : write_unparted(table, parts[i], so_far, end);
    }
    return so_far;
}

// Writes what a code point becomes: the full decomposition of its titlecase.
ALWAYS_INLINE struct progress expand(const struct table *table, uint32_t c, struct progress so_far, uint8_t *end) {
    if (!has_entry(table, c)) return write_unparted(table, c, so_far, end);
    const uint32_t *entry = entry_of(table, c);
    uint32_t title = entry[1];
    if (title != c) {
        if (!has_entry(table, title)) return write_unparted(table, title, so_far, end);
        entry = entry_of(table, title);
    }
    return entry[3] > 0 ? unfold(table, table->pool + entry[2], entry[3], so_far, end)
                        : write_unparted(table, title, so_far, end);
}

// The one octet that an octet of ASCII becomes, or NOT_ONE.
ALWAYS_INLINE uint8_t raise_octet(const struct table *table, uint32_t c) {
    if (!has_entry(table, c)) return (uint8_t)c;
    const uint32_t *entry = ascii_entry_of(table, c);
    uint32_t title = entry[1];
    if (title >= 0x80) return NOT_ONE;
    if (title != c) {
        if (!has_entry(table, title)) return (uint8_t)title;
        entry = ascii_entry_of(table, title);
    }
    return entry[3] > 0 ? NOT_ONE : (uint8_t)title;
}

// Writes the key of a valid text; `raised` has the one octet that each octet becomes, or is NULL if they are to be looked up.
ALWAYS_INLINE struct text walk(const struct table *table, struct text text, struct buffer key, const uint8_t *raised) {
    struct progress so_far = {key.octets, 0};
    uint8_t *end = key.octets + key.length;
    for (size_t i = 0; i < text.length;) {
        uint8_t octet = text.octets[i], one = raised ? raised[octet] : octet < 0x80 ? raise_octet(table, octet) : NOT_ONE;
        so_far.lookups += 2;
        if (one != NOT_ONE) {
            if (so_far.at == end) return (struct text){NULL, 0};
            *so_far.at++ = one;
            i++;
            continue;
        }
        uint32_t c;
        i += read_valid(text.octets + i, &c);
        so_far = expand(table, c, so_far, end);
        if (!so_far.at) return (struct text){NULL, 0};
    }
    last_lookups = so_far.lookups;
    return (struct text){key.octets, (size_t)(so_far.at - key.octets)};
}

static void raise_ascii(const struct table *table, uint8_t raised[256]) {
    for (uint32_t c = 0; c < 0x80; c++) raised[c] = raise_octet(table, c);
    memset(raised + 0x80, NOT_ONE, 0x80);
}

// The key of a text that was judged.
ALWAYS_INLINE struct text prepare_judged(const struct table *table, struct text text, struct buffer key, bool valid) {
    last_lookups = 0;
    if (!valid) return text;
    if (text.length < LONG_TEXT) return walk(table, text, key, NULL);
    uint8_t raised[256];
    raise_ascii(table, raised);
    return walk(table, text, key, raised);
}

static struct text prepare(const struct table *table, struct text text, struct buffer key) {
    return prepare_judged(table, text, key, is_valid_by_tests(text));
}

static bool equal(const struct table *table, struct text first, struct text second, struct buffer first_key,
                  struct buffer second_key) {
    return same_octets(prepare(table, first, first_key), prepare(table, second, second_key));
}

static struct text prepare_by_shifts(const struct table *table, struct text text, struct buffer key) {
    return prepare_judged(table, text, key, is_valid_by_shifts(text));
}

static bool equal_by_shifts(const struct table *table, struct text first, struct text second, struct buffer first_key,
                            struct buffer second_key) {
    return same_octets(prepare_by_shifts(table, first, first_key), prepare_by_shifts(table, second, second_key));
}

// Fills the pages of a table that was accepted.
static bool fill(const struct table *table, struct page_room pages) {
    size_t count = table->entries_length / 4, before = 0;
    if (pages.length < PAGES) return false;
    for (size_t page = 0; page < PAGES; page++) {
        uint64_t word = 0;
        size_t i = before;
        for (; i < count && table->entries[4 * i] / 64 == page; i++) word |= (uint64_t)1 << table->entries[4 * i] % 64;
        pages.presence[page] = word;
        pages.ranks[page] = before;
        before = i;
    }
    return true;
}

const struct peer paged_peer = {
    .name = "C over pages", .by_table = true, .prepare = prepare, .equal = equal, .lookups = lookups, .fill = fill};

const struct peer paged_shift_peer = {
    .name = "C, shift DFA", .by_table = true, .prepare = prepare_by_shifts, .equal = equal_by_shifts, .lookups = lookups};
