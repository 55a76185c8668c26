// Makes the lists out of the benchmark's names, by a generator with a fixed seed.
#include "list_inputs.h"
#include "name_lists.h"
#include "straight_lists.h"
#include "../include/mundeziwa.h"
#include <stdio.h>
#include <stdlib.h>

// A name has up to three listed names, with spaces between; any spelling of it fits.
#define PARTS 3
#define COMPOSED_ROOM (PARTS * (NAME_MOST + 1))
#define SPELLED_MOST 256
// The long names: so many octets, of which a number at the end tells them apart.
#define LONG_LENGTH 4000
#define DIGITS 4
#define LONG_COUNT 256
// How many names differ in two lists that share a third.
#define DIFFERENT(count) (2 * (count) - (count) / 3)

// One name in two spellings.
struct name {
    struct text one, other;
};

static struct name names[DIFFERENT(LIST_MOST)];
static struct text keys[DIFFERENT(LIST_MOST)];

// Keeps a copy of some octets for as long as the program runs.
static struct text keep(const uint8_t *octets, size_t length) {
    uint8_t *copy = malloc(length + 1);
    if (!copy) fail("no memory");
    memcpy(copy, octets, length);
    return (struct text){copy, length};
}

// The key of a short name, until the next one is made.
static struct text key_of(const struct table *table, struct text name) {
    static uint8_t octets[KEY_GROWTH * SPELLED_MOST];
    return straight_peer.prepare(table, name, key_buffer(octets, name, KEY_GROWTH));
}

// Draws a name of one to three listed ones of a row, in composed spelling.
static void draw_composed(name_row row, char name[COMPOSED_ROOM]) {
    size_t length = 0, parts = 1 + draw(PARTS);
    for (size_t i = 0; i < parts; i++)
        length += (size_t)snprintf(name + length, COMPOSED_ROOM - length, i == 0 ? "%s" : " %s", row[draw(NAMES_IN_ROW)]);
}

// Spells a name so that it stays the same name: decomposed, ﬁ and Ǆ are other names than composed.
static struct text draw_spelling(const struct table *table, const char *name, struct text key) {
    for (;;) {
        uint8_t octets[SPELLED_MOST];
        struct text spelled = {octets, spell(table, name, draw(SPELLINGS), octets, SPELLED_MOST)};
        if (same_octets(key_of(table, spelled), key)) return keep(spelled.octets, spelled.length);
    }
}

// Draws the i-th name: one whose key no name before it has.
static void draw_different(const struct table *table, name_row row, size_t i) {
    char name[COMPOSED_ROOM];
    struct text key;
    for (bool found = true; found;) {
        draw_composed(row, name);
        key = key_of(table, (struct text){(const uint8_t *)name, strlen(name)});
        found = false;
        for (size_t j = 0; j < i && !found; j++) found = same_octets(keys[j], key);
    }
    keys[i] = keep(key.octets, key.length);
    names[i].one = draw_spelling(table, name, keys[i]);
    names[i].other = draw_spelling(table, name, keys[i]);
}

static void make_short_names(const struct table *table, name_row *rows, uint32_t count) {
    for (size_t i = 0; i < DIFFERENT(LIST_MOST); i++) draw_different(table, rows[draw(count)], i);
}

// A letter again and again, and then a number.
static struct text long_name(const char *letter, size_t number) {
    static uint8_t octets[LONG_LENGTH + 1];
    for (size_t i = 0; i < LONG_LENGTH - DIGITS; i++) octets[i] = (uint8_t)letter[i % strlen(letter)];
    snprintf((char *)octets + LONG_LENGTH - DIGITS, DIGITS + 1, "%0*zu", DIGITS, number);
    return keep(octets, LONG_LENGTH);
}

static void make_long_names(const char *letter, const char *capital) {
    for (size_t i = 0; i < DIFFERENT(LONG_COUNT); i++) names[i] = (struct name){long_name(letter, i), long_name(capital, i)};
}

// The names from `start` on, `count` of them, in an order at random, as records.
static struct text make_list(size_t start, size_t count, bool other) {
    struct text order[LIST_MOST];
    size_t length = 0;
    for (size_t i = 0; i < count; i++) {
        const struct name *name = &names[start + i];
        size_t at = draw((uint32_t)i + 1);
        if (at < i) order[i] = order[at];
        order[at] = other ? name->other : name->one;
        length += 6 + order[at].length;
    }
    uint8_t *records = malloc(length);
    uint64_t answer[4] = {0};
    if (!records) fail("no memory");
    for (size_t i = 0; i < count && answer[0] == 0; i++)
        mz_write_text(order[i].octets, order[i].length, records, length, answer[3], answer);
    if (answer[0] != 0 || answer[3] != length) fail("a list is not written");
    return (struct text){records, length};
}

// Two lists of the names that were made last: the last third of the first list's are the second's too.
static struct lists lists_of(const char *label, size_t count) {
    struct lists lists = {.label = label, .count = count, .shared = count / 3};
    lists.first = make_list(0, count, false);
    lists.second = make_list(count - lists.shared, count, true);
    return lists;
}

// Draws a name of two parts, of which some are empty and some no UTF-8.
static struct text draw_odd(void) {
    static const char *const parts[] = {"", "e", "E", "é", "É", "e\xCC\x81", "\xC3", "f"};
    const char *start = parts[draw(8)], *end = parts[draw(8)];
    char name[8];
    snprintf(name, sizeof name, "%s%s", start, end);
    return keep((const uint8_t *)name, strlen(name));
}

struct lists make_odd_lists(void) {
    for (size_t i = 0; i < DIFFERENT(LIST_MOST); i++) {
        names[i].one = draw_odd();
        names[i].other = draw_odd();
    }
    return lists_of("odd names", LIST_MOST);
}

void make_lists(struct lists lists[LISTS], const struct table *table) {
    begin_draws();
    make_short_names(table, latin_names, sizeof latin_names / sizeof *latin_names);
    lists[0] = lists_of("Latin names", LIST_MOST);
    make_short_names(table, mixed_names, sizeof mixed_names / sizeof *mixed_names);
    lists[1] = lists_of("names of many scripts", LIST_MOST);
    make_long_names("a", "A");
    lists[2] = lists_of("3,996 letters and a number", LONG_COUNT);
    make_long_names("é", "É");
    lists[3] = lists_of("1,998 accented and a number", LONG_COUNT);
}
