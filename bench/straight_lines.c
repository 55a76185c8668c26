// The builder of the table written by hand in C, without proof: the rules of document 01 for lines of UnicodeData.txt, but with
// no numbers for the refusals.
#include "straight.h"

// Reads a code point of 4 to 6 digits at `at` and answers its end, or NULL.
static const uint8_t *read_code_point(const uint8_t *at, const uint8_t *end, uint32_t *c) {
    const uint8_t *start = at;
    uint32_t value = 0;
    for (; at < end && at - start < 6; at++) {
        if (*at >= '0' && *at <= '9')
            value = value << 4 | (uint32_t)(*at - '0');
        else if (*at >= 'A' && *at <= 'F')
            value = value << 4 | (uint32_t)(*at - 'A' + 10);
        else
            break;
    }
    if (at - start < 4 || (at - start > 4 && *start == '0') || value > 0x10FFFF) return NULL;
    *c = value;
    return at;
}

// Whether a field is one code point, and which.
static bool is_code_point(struct text field, uint32_t *c) {
    const uint8_t *end = field.octets + field.length;
    return read_code_point(field.octets, end, c) == end;
}

// Reads field 5 into parts and answers how many there are, or -1 if it is malformed.
static int read_parts(struct text field, uint32_t parts[PARTS_MOST]) {
    const uint8_t *at = field.octets, *end = at + field.length;
    if (at == end) return 0;
    if (*at == '<') {
        const uint8_t *tag = ++at;
        while (at < end && ((*at >= 'A' && *at <= 'Z') || (*at >= 'a' && *at <= 'z'))) at++;
        if (at == tag || end - at < 2 || at[0] != '>' || at[1] != ' ') return -1;
        at += 2;
    }
    for (int count = 0; count < PARTS_MOST; at++) {
        at = read_code_point(at, end, &parts[count++]);
        if (!at) return -1;
        if (at == end) return count;
        if (*at != ' ') return -1;
    }
    return -1;
}

// Where the fields of a line start, and one past the end of the last, as if a semicolon stood there.
struct fields {
    size_t starts[16];
};

// Cuts a line at its semicolons; answers whether there are 14.
static bool cut_fields(struct text line, struct fields *fields) {
    int count = 0;
    if (line.length > 512) return false;
    fields->starts[0] = 0;
    for (size_t i = 0; i < line.length; i++) {
        if (line.octets[i] != ';') continue;
        if (++count == 15) return false;
        fields->starts[count] = i + 1;
    }
    fields->starts[15] = line.length + 1;
    return count == 14;
}

static struct text field(struct text line, const struct fields *fields, int i) {
    size_t start = fields->starts[i];
    return (struct text){line.octets + start, fields->starts[i + 1] - 1 - start};
}

// A table so far: numbers used, and one more than the last code point.
struct state {
    size_t entries_used, pool_used;
    uint32_t next;
};

// Appends the mapping of one line, if it has one, or answers false.
static bool add_mapping(struct state *state, struct table_room room, uint32_t c, uint32_t title, const uint32_t *parts,
                        size_t count) {
    if (!is_scalar(c) || !is_scalar(title) || is_syllable(c)) return false;
    for (size_t i = 0; i < count; i++)
        if (!is_scalar(parts[i])) return false;
    if (c < state->next || room.entries_length - state->entries_used < 4 || room.pool_length - state->pool_used < count)
        return false;
    uint32_t *entry = room.entries + state->entries_used;
    entry[0] = c;
    entry[1] = title;
    entry[2] = (uint32_t)state->pool_used;
    entry[3] = (uint32_t)count;
    memcpy(room.pool + state->pool_used, parts, count * sizeof *parts);
    state->entries_used += 4;
    state->pool_used += count;
    return true;
}

static bool add_line(struct state *state, struct text line, struct table_room room) {
    struct fields fields;
    uint32_t c, title, parts[PARTS_MOST];
    if (!cut_fields(line, &fields)) return false;
    if (!is_code_point(field(line, &fields, 0), &c)) return false;
    int count = read_parts(field(line, &fields, 5), parts);
    if (count < 0) return false;
    title = c;
    struct text uppercase = field(line, &fields, 12), titlecase = field(line, &fields, 14);
    if (uppercase.length > 0 && !is_code_point(uppercase, &title)) return false;
    if (titlecase.length > 0 && !is_code_point(titlecase, &title)) return false;
    if (count > 0 || title != c) {
        if (!add_mapping(state, room, c, title, parts, (size_t)count)) return false;
    } else if (c < state->next) {
        return false;
    }
    state->next = c + 1;
    return true;
}

struct table straight_build(struct text lines, struct table_room room) {
    struct state state = {0, 0, 0};
    while (lines.length > 0)
        if (!add_line(&state, take_line(&lines), room)) return table_in(room, 0, 0);
    return table_in(room, state.entries_used, state.pool_used);
}
