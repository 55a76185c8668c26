// Makes the benchmark's inputs from the name lists, by a generator with a fixed seed.
#include "inputs.h"
#include "name_lists.h"
#include "straight.h"
#include <stdio.h>
#include <stdlib.h>

// Room for two listed names, a space between and the end of the string.
#define NAME_ROOM (2 * NAME_MOST + 2)

static uint32_t seed;

void fail(const char *what) {
    fprintf(stderr, "%s\n", what);
    exit(1);
}

void begin_draws(void) {
    seed = 1;
}

uint32_t draw(uint32_t bound) {
    seed = seed * 1664525 + 1013904223;
    return (seed >> 16) % bound;
}

size_t spell(const struct table *table, const char *name, enum spelling spelling, uint8_t *octets, size_t most) {
    bool is_decomposed = spelling == DECOMPOSED || spelling == DECOMPOSED_CAPITALS;
    bool has_capitals = spelling == CAPITALS || spelling == DECOMPOSED_CAPITALS;
    uint8_t *at = octets, *end = octets + most;
    size_t length = strlen(name);
    for (size_t i = 0; i < length && at;) {
        uint32_t c;
        i += straight_decode((const uint8_t *)name + i, length - i, &c);
        if (has_capitals) c = straight_title(table, c);
        at = is_decomposed ? straight_unfold(table, c, at, end) : straight_write(c, at, end);
    }
    return at ? (size_t)(at - octets) : 0;
}

// Draws one name of a row or two with a space between, in composed spelling.
static void draw_name(name_row row, char name[NAME_ROOM]) {
    const char *given = row[draw(NAMES_IN_ROW)], *family = row[draw(NAMES_IN_ROW)];
    if (draw(2) == 0)
        snprintf(name, NAME_ROOM, "%s", given);
    else
        snprintf(name, NAME_ROOM, "%s %s", given, family);
}

// Draws a pair of names that fit; the same name in two spellings if `same`.
static void draw_pair(struct names *names, size_t i, const struct table *table, name_row row, bool same) {
    uint8_t *first = names->octets[2 * i], *second = names->octets[2 * i + 1];
    size_t first_length, second_length;
    do {
        char name[NAME_ROOM], other[NAME_ROOM];
        enum spelling spelling = draw(SPELLINGS);
        draw_name(row, name);
        draw_name(row, other);
        first_length = spell(table, name, spelling, first, NAME_MOST);
        enum spelling other_spelling = (spelling + 1 + draw(SPELLINGS - 1)) % SPELLINGS;
        second_length = spell(table, same ? name : other, other_spelling, second, NAME_MOST);
    } while (first_length < NAME_LEAST || second_length < NAME_LEAST);
    names->first[i] = (struct text){first, first_length};
    names->second[i] = (struct text){second, second_length};
}

static void make_names(struct names *names, const struct table *table, name_row *rows, uint32_t count) {
    begin_draws();
    for (size_t i = 0; i < NAMES; i++) draw_pair(names, i, table, rows[draw(count)], i % 2 == 0);
}

static void make_mixed_text(uint8_t *octets, const struct names *names) {
    size_t at = 0;
    memset(octets, ' ', TEXT_MOST);
    for (size_t i = 0; i < NAMES && at + names->first[i].length < TEXT_MOST; i++) {
        memcpy(octets + at, names->first[i].octets, names->first[i].length);
        at += names->first[i].length + 1;
    }
}

static void make_prose(uint8_t *octets) {
    static const char *const words[] = {"the ", "storm ", "of ", "and ", "season ", "with ", "a ", "warning ", "in ", "harbour ",
                                        "wind ", "was ", "to ", "coast ", "for ", "names ", "which ", "reached ", "over ",
                                        "night. ", "José ", "Noël "};
    size_t at = 0;
    begin_draws();
    memset(octets, ' ', TEXT_MOST);
    for (;;) {
        const char *word = words[draw(sizeof words / sizeof *words)];
        if (at + strlen(word) > TEXT_MOST) return;
        memcpy(octets + at, word, strlen(word));
        at += strlen(word);
    }
}

// Ends the program unless every name has the right length, which the lists could spoil.
static void check_lengths(const struct names *names) {
    for (size_t i = 0; i < NAMES; i++) {
        size_t first = names->first[i].length, second = names->second[i].length;
        if (first < NAME_LEAST || first > NAME_MOST) fail("a name is too short or too long");
        if (second < NAME_LEAST || second > NAME_MOST) fail("a second name is too short or too long");
    }
}

// Reads all of a file.
static struct text read_file(const char *path) {
    FILE *file = fopen(path, "rb");
    if (!file) fail("UnicodeData.txt can't be read (Debian's package unicode-data has it)");
    fseek(file, 0, SEEK_END);
    size_t length = (size_t)ftell(file);
    uint8_t *octets = malloc(length);
    rewind(file);
    if (!octets || fread(octets, 1, length, file) != length) fail("UnicodeData.txt can't be read to its end");
    fclose(file);
    return (struct text){octets, length};
}

// Builds the table of the lines and fills its pages.
static struct table make_table(struct text lines) {
    static uint32_t entries[4 * ENTRIES_MOST], pool[POOL_MOST];
    static uint64_t presence[PAGES], ranks[PAGES];
    struct table table = mundeziwa_peer.build(lines, (struct table_room){entries, 4 * ENTRIES_MOST, pool, POOL_MOST});
    if (table.entries_length == 0) fail("a line of UnicodeData.txt is refused");
    if (!mundeziwa_peer.fill(&table, (struct page_room){presence, ranks, PAGES})) fail("the table of UnicodeData.txt is refused");
    table.presence = presence;
    table.ranks = ranks;
    return table;
}

void make_inputs(struct inputs *inputs, const char *path) {
    inputs->lines = read_file(path);
    inputs->table = make_table(inputs->lines);
    make_names(&inputs->latin, &inputs->table, latin_names, sizeof latin_names / sizeof *latin_names);
    make_names(&inputs->mixed, &inputs->table, mixed_names, sizeof mixed_names / sizeof *mixed_names);
    check_lengths(&inputs->latin);
    check_lengths(&inputs->mixed);
    make_mixed_text(inputs->mixed_text, &inputs->mixed);
    make_prose(inputs->prose);
}
