#include "input.h"
#include <string.h>

#define COUNT(array) (sizeof(array) / sizeof *(array))

uint8_t take_octet(struct input *input) {
    if (input->left == 0)
        return 0;
    input->left--;
    return *input->at++;
}

static uint32_t take_wide(struct input *input, int octets) {
    uint32_t number = 0;
    while (octets-- > 0)
        number = number << 8 | take_octet(input);
    return number;
}

void take_octets(struct input *input, size_t length, struct text *text) {
    text->length = length < input->left ? length : input->left;
    if (text->length > 0)
        memcpy(text->octets, input->at, text->length);
    input->at += text->length;
    input->left -= text->length;
}

void take_text(struct input *input, struct text *text) {
    uint8_t length = take_octet(input);
    take_octets(input, length < 0xF0 ? length : 8, text);
    if (length < 0xF0)
        return;
    size_t period = text->length;
    if (period == 0)
        text->octets[period++] = 'a';
    text->length = 4088 + (length - 0xF0);
    for (size_t at = period; at < text->length; at++)
        text->octets[at] = text->octets[at - period];
}

static uint32_t take_number(struct input *input, const struct table *table) {
    static const uint32_t edges[] = {32,      33,       0x7F,     0x80,      0x7FF,      0x800,      0xD7FF,
                                     0xD800,  0xE000,   0xFFFF,   0x10000,   0x10FFFF,   0x110000,   0xFFFFFFFF};
    uint8_t octet = take_octet(input);
    if (octet < 0x80)
        return octet;
    if (octet < 0xC0)
        return 0x0300 + (octet - 0x80);
    if (octet < 0xF0) {
        size_t entry = 4 * (size_t)(octet - 0xC0);
        return entry < table->entries_length ? table->entries[entry] : octet;
    }
    return octet < 0xF2 ? take_wide(input, octet == 0xF0 ? 2 : 4) : edges[(octet - 0xF2) % COUNT(edges)];
}

static void put_table_t(struct table *table) {
    static const uint32_t entries[] = {
        0x0061, 0x0041, 0, 0, 0x0066, 0x0046, 0, 0, 0x0069, 0x0049, 0, 0, 0x007A, 0x005A, 0,  0, 0x00C9, 0x00C9, 0,  2, 0x00E9, 0x00C9, 2,  2,
        0x017D, 0x017D, 4, 2, 0x017E, 0x017D, 6, 2, 0x01C4, 0x01C5, 8, 2, 0x01C5, 0x01C5, 10, 2, 0x01C6, 0x01C5, 12, 2, 0xFB01, 0xFB01, 14, 2,
    };
    static const uint32_t pool[] = {0x45, 0x301, 0x65, 0x301, 0x5A, 0x30C, 0x7A, 0x30C, 0x44, 0x17D, 0x44, 0x17E, 0x64, 0x17E, 0x66, 0x69};
    memcpy(table->entries, entries, sizeof entries);
    table->entries_length = COUNT(entries);
    memcpy(table->pool, pool, sizeof pool);
    table->pool_length = COUNT(pool);
}

/* Entries in ascending order from U+0040 on, each start the sum of the counts before: a step, the titlecase, the count and the parts. A
 * step of 0 gives the code point before again. */
static void take_laid_out(struct input *input, struct table *table) {
    uint32_t code_point = 0x3F;
    for (size_t entry = take_octet(input) % 64; entry > 0; entry--) {
        uint8_t step = take_octet(input);
        code_point += step < 0xF0 ? step : (uint32_t)(step - 0xEF) << 12;
        uint32_t titlecase = take_number(input, table);
        uint32_t count = take_octet(input) % 35;
        const uint32_t row[] = {code_point, titlecase, (uint32_t)table->pool_length, count};
        memcpy(table->entries + table->entries_length, row, sizeof row);
        table->entries_length += COUNT(row);
        while (count-- > 0)
            table->pool[table->pool_length++] = take_number(input, table);
    }
}

static void take_any(struct input *input, struct table *table) {
    size_t entries = take_octet(input), pool = take_octet(input);
    while (table->entries_length < entries)
        table->entries[table->entries_length++] = take_number(input, table);
    while (table->pool_length < pool)
        table->pool[table->pool_length++] = take_number(input, table);
}

void take_table(struct input *input, struct table *table) {
    table->entries_length = table->pool_length = 0;
    switch (take_octet(input) % 4) {
    case 0:
        return;
    case 1:
        put_table_t(table);
        return;
    case 2:
        take_laid_out(input, table);
        return;
    default:
        take_any(input, table);
    }
}
