/* Names of lists, the parts of a slice of octets that they or their keys are, and what is lent for them. */
#ifndef NAMES_H
#define NAMES_H

#include "input.h"
#include "lent.h"

#define STOCK_MOST 32 /* names that can be taken again */

/* Where octets stand: a name's in its list, a key's among all keys. */
struct part {
    size_t start, length;
};

/* The texts that were taken so far, to be taken again. */
struct stock {
    struct text texts[STOCK_MOST];
    size_t count;
};

/* A name by its octet: below C0 hex a text of that length; C0 to DF an earlier text again; from E0 on a text (input.h). What is
 * answered stays until the next name is taken. */
const struct text *take_name(struct input *input, uint8_t octet, struct stock *stock);

/* A length: the most that can be needed, just enough, one less, or up to 63. */
size_t take_room(struct input *input, size_t most, size_t needed);

int is_collation(uint32_t collation);

/* How two keys are ordered, by their octets: below 0, 0, above 0. */
int order_of(const uint8_t *octets, struct part one, struct part other);

/* Of a lent slice only the first octets may be other than before. */
void expect_kept_after(struct lent lent, size_t written);

#endif
