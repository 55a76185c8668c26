/* What the fuzzer gives, cut into the arguments of calls.
 *
 * Octet 0 says what the rest is: 0 modulo 4 lines of UnicodeData.txt (lines.c), 5 modulo 8 records (records.c), 6 modulo 8 two
 * lists over a table (lists.c), 7 modulo 8 many texts over a table (many.c), else texts over a table (texts.c). Whatever the
 * octets are, they are some case; what is left out at the end counts as 0.
 *
 * NUMBERS of a table are one octet each: below 80 hex the number itself; 80 to BF the marks 0300 to 033F; C0 to EF the code point of an
 * entry (C0 the first); F0 and two octets; F1 and four octets; F2 to FF numbers at which some rule changes.
 *
 * TEXTS are a length and so many octets; a length of F0 hex or more stands for 4,088 to 4,103 octets, which repeat the next 8.
 *
 * RECORDS are a position; how many octets (a) follow those of the input in the slice; collation, flag, text length and key
 * length of a key to write, whose octets are the first ones of the slice; and the octets of the slice. Numbers are one octet
 * each: below F0 hex the number itself, else one at which some rule changes (records.c).
 *
 * LISTS are a collation, a table, the lengths of the store and of both arrays, and the records of both lists. Texts that were
 * taken before can be taken again, so that names are equal (names.h, lists.c).
 *
 * MANY texts are a collation, a table, which end is put elsewhere and where, how many octets follow the last text, how many names
 * the first list has, the lengths of all six slices that the two calls write, and the texts, each a name (names.h, many.c).
 *
 * Texts, lists and many texts end with an octet that says how long the page slices are (paging.h).
 *
 * Of the stored inputs (corpus), those with a name were written by hand; each found_NN, which libFuzzer found, raises some counter that no
 * other input does. */
#ifndef INPUT_H
#define INPUT_H

#include <stddef.h>
#include <stdint.h>

#define TEXT_ROOM 8192    /* octets that a text of a case may have */
#define ENTRIES_ROOM 1024 /* numbers of entries that a table of a case may have */
#define POOL_ROOM 8192    /* numbers of its pool */

struct input {
    const uint8_t *at;
    size_t left;
};

struct text {
    uint8_t octets[TEXT_ROOM];
    size_t length;
};

struct table {
    uint32_t entries[ENTRIES_ROOM];
    size_t entries_length;
    uint32_t pool[POOL_ROOM];
    size_t pool_length;
};

uint8_t take_octet(struct input *input);

/* A text of so many octets, or of those that are left. */
void take_octets(struct input *input, size_t length, struct text *text);

void take_text(struct input *input, struct text *text);

/* A table: empty, table T of document 01, one that is laid out as it should be, or any numbers. */
void take_table(struct input *input, struct table *table);

#endif
