// Records read and written by hand in C, without proof, with all checks of document 02. The caller is in another file, so that it
// gets every number, as it does from the library.
#include "straight_records.h"
#include <string.h>

#define TEXT_MOST 4096
#define KEY_GROWTH 128

static inline uint16_t two_octets(const uint8_t *at) {
    return (uint16_t)(at[0] | at[1] << 8);
}

static inline uint32_t four_octets(const uint8_t *at) {
    return two_octets(at) | (uint32_t)two_octets(at + 2) << 16;
}

int straight_read(const uint8_t *records, size_t length, size_t position, struct straight_record *record) {
    if (position == length) {
        *record = (struct straight_record){0};
        return 0;
    }
    if (position > length || length - position < 4) return 11;
    const uint8_t *at = records + position;
    size_t after = four_octets(at);
    if (after < 2 || after > length - position - 4) return 11;
    size_t end = position + 4 + after;
    uint16_t kind = two_octets(at + 4);
    if (kind == 1) {
        if (after - 2 > TEXT_MOST) return 13;
        *record = (struct straight_record){.kind = 1, .start = position + 6, .end = end};
        return 0;
    }
    if (kind != 2) return 12;
    if (after < 6) return 13;
    uint8_t collation = at[6], valid = at[7];
    uint16_t text_length = two_octets(at + 8);
    size_t key_length = after - 6;
    if (collation < 1 || collation > 3 || valid > 1 || text_length > TEXT_MOST) return 13;
    if (collation == 3 && valid == 1) {
        if (key_length > (size_t)KEY_GROWTH * text_length) return 13;
    } else if (key_length != text_length || (collation != 3 && valid == 0)) {
        return 13;
    }
    *record = (struct straight_record){2, collation, valid, text_length, position + 10, end};
    return 0;
}

int straight_write_text(const uint8_t *text, size_t text_length, uint8_t *records, size_t length, size_t *position) {
    if (text_length > TEXT_MOST) return 13;
    if (*position > length || length - *position < 6 + text_length) return 8;
    uint8_t *at = records + *position;
    uint32_t after = (uint32_t)text_length + 2;
    for (int i = 0; i < 4; i++) at[i] = (uint8_t)(after >> 8 * i);
    at[4] = 1;
    at[5] = 0;
    memcpy(at + 6, text, text_length);
    *position += 6 + text_length;
    return 0;
}
