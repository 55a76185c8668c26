// i;unicode-casemap written by hand in C, without proof. One walk: decode, look the titlecase up, unfold what it decomposes into,
// encode; both lookups are binary searches in the lent table, but the parts of a Hangul syllable are counted out. A buffer that
// is too short is noticed before octets further on that are no UTF-8; the library looks at the whole text first.
#include "straight.h"

#define LEVELS_MOST 8

// The entry of a code point, or NULL.
static inline const uint32_t *find_entry(const struct table *table, uint32_t c) {
    size_t low = 0, high = table->entries_length / 4;
    while (low < high) {
        size_t middle = low + (high - low) / 2;
        const uint32_t *entry = table->entries + 4 * middle;
        if (entry[0] == c) return entry;
        if (entry[0] < c)
            low = middle + 1;
        else
            high = middle;
    }
    return NULL;
}

size_t straight_decode(const uint8_t *octets, size_t length, uint32_t *c) {
    uint8_t lead = octets[0];
    if (lead < 0x80) {
        *c = lead;
        return 1;
    }
    size_t width = lead < 0xC2 ? 0 : lead < 0xE0 ? 2 : lead < 0xF0 ? 3 : lead < 0xF5 ? 4 : 0;
    if (width == 0 || length < width) return 0;
    uint32_t value = lead & (0x7Fu >> width);
    for (size_t i = 1; i < width; i++) {
        if ((octets[i] & 0xC0) != 0x80) return 0;
        value = value << 6 | (octets[i] & 0x3F);
    }
    if (width == 3 && (value < 0x800 || (value >= 0xD800 && value <= 0xDFFF))) return 0;
    if (width == 4 && (value < 0x10000 || value > 0x10FFFF)) return 0;
    *c = value;
    return width;
}

static inline size_t encoded_width(uint32_t c) {
    return c < 0x80 ? 1 : c < 0x800 ? 2 : c < 0x10000 ? 3 : 4;
}

// Writes a code point in UTF-8 and answers how many octets it took.
static inline size_t encode(uint32_t c, uint8_t *octets) {
    size_t width = encoded_width(c);
    if (width == 1) {
        octets[0] = (uint8_t)c;
        return 1;
    }
    for (size_t i = width - 1; i > 0; i--) {
        octets[i] = (uint8_t)(0x80 | (c & 0x3F));
        c >>= 6;
    }
    octets[0] = (uint8_t)(0xF00u >> width | c);
    return width;
}

uint32_t straight_title(const struct table *table, uint32_t c) {
    const uint32_t *entry = find_entry(table, c);
    return entry ? entry[1] : c;
}

// The parts of a code point: their number, and where they stand. Those of a syllable are made in `own`.
static inline size_t find_parts(const struct table *table, uint32_t c, uint32_t own[3], const uint32_t **parts) {
    if (is_syllable(c)) {
        uint32_t s = c - S_BASE;
        own[0] = L_BASE + s / N_COUNT;
        own[1] = V_BASE + s % N_COUNT / T_COUNT;
        own[2] = T_BASE + s % T_COUNT;
        *parts = own;
        return s % T_COUNT == 0 ? 2 : 3;
    }
    const uint32_t *entry = find_entry(table, c);
    if (!entry) return 0;
    *parts = table->pool + entry[2];
    return entry[3];
}

uint8_t *straight_write(uint32_t c, uint8_t *at, uint8_t *end) {
    return (size_t)(end - at) < encoded_width(c) ? NULL : at + encode(c, at);
}

uint8_t *straight_unfold(const struct table *table, uint32_t c, uint8_t *at, uint8_t *end) {
    uint32_t own[3];
    const uint32_t *parts;
    size_t count = find_parts(table, c, own, &parts);
    if (count == 0) return straight_write(c, at, end);
    for (size_t i = 0; i < count && at; i++) at = straight_unfold(table, parts[i], at, end);
    return at;
}

static struct text prepare(const struct table *table, struct text text, struct buffer key) {
    uint8_t *at = key.octets, *end = key.octets + key.length;
    for (size_t i = 0; i < text.length;) {
        uint32_t c;
        size_t width = straight_decode(text.octets + i, text.length - i, &c);
        if (width == 0) return text;
        at = straight_unfold(table, straight_title(table, c), at, end);
        if (!at) return (struct text){NULL, 0};
        i += width;
    }
    return (struct text){key.octets, (size_t)(at - key.octets)};
}

static bool equal(const struct table *table, struct text first, struct text second, struct buffer first_key,
                  struct buffer second_key) {
    return same_octets(prepare(table, first, first_key), prepare(table, second, second_key));
}

// Whether a code point unfolds within the levels left; its full decomposition is taken from the code points left. Each leaf takes
// one, so that no table makes this long.
static bool unfolds(const struct table *table, uint32_t c, int levels, int *left) {
    uint32_t own[3];
    const uint32_t *parts;
    size_t count = find_parts(table, c, own, &parts);
    if (count == 0) return --*left >= 0;
    if (levels == 0) return false;
    for (size_t i = 0; i < count; i++)
        if (!unfolds(table, parts[i], levels - 1, left)) return false;
    return true;
}

// Whether every syllable unfolds: its parts have a level less, and the largest syllable is made of the largest part of each row.
static bool syllables_unfold(const struct table *table) {
    static const uint32_t rows[3][2] = {{L_BASE, L_COUNT}, {V_BASE, V_COUNT}, {T_BASE + 1, T_COUNT - 1}};
    int sum = 0;
    for (int row = 0; row < 3; row++) {
        int most = 0;
        for (uint32_t i = 0; i < rows[row][1]; i++) {
            int left = PARTS_MOST;
            if (!unfolds(table, rows[row][0] + i, LEVELS_MOST - 1, &left)) return false;
            if (PARTS_MOST - left > most) most = PARTS_MOST - left;
        }
        sum += most;
    }
    return sum <= PARTS_MOST;
}

// Checks 3 to 6 of document 01, each over the whole table.
static bool has_form(const struct table *table) {
    size_t count = table->entries_length / 4, sum = 0;
    if (table->entries_length % 4 != 0 || count > 16384 || table->pool_length > 65536) return false;
    for (size_t i = 0; i < count; i++) {
        const uint32_t *entry = table->entries + 4 * i;
        if (!is_scalar(entry[0]) || !is_scalar(entry[1]) || (i > 0 && entry[0] <= entry[-4])) return false;
        if (is_syllable(entry[0])) return false;
    }
    for (size_t i = 0; i < count; i++) {
        const uint32_t *entry = table->entries + 4 * i;
        if (entry[3] > PARTS_MOST || entry[2] != sum || (entry[3] == 0 && entry[1] == entry[0])) return false;
        sum += entry[3];
    }
    if (table->pool_length != sum) return false;
    for (size_t i = 0; i < table->pool_length; i++)
        if (!is_scalar(table->pool[i])) return false;
    return true;
}

static bool check(const struct table *table) {
    if (!has_form(table)) return false;
    for (size_t i = 0; i < table->entries_length; i += 4) {
        int left = PARTS_MOST;
        if (!unfolds(table, table->entries[i], LEVELS_MOST, &left)) return false;
    }
    return syllables_unfold(table);
}

const struct peer straight_peer = {
    .name = "straight C", .by_table = true, .prepare = prepare, .equal = equal, .check = check, .build = straight_build};
