/* The calls on texts, in both forms: two texts under a collation, over a table, with two key buffers. */
#define _GNU_SOURCE
#include "expect.h"
#include "forms.h"
#include "input.h"
#include "mundeziwa_accepted.h"
#include "paging.h"
#include <string.h>

/* What becomes known of a case; the kinds that `note` is given. */
enum kind { TABLE_CHECKED = 8, TABLE_DETAIL, PREPARED, LOOKUPS, KEY_LENGTH, EQUAL, ORDER, SUBSTRING, RUN, MOVED };

struct pair {
    uint32_t collation;
    struct table table;
    int is_accepted; /* the table; then its pages are learnt */
    struct text texts[2];
    size_t rooms[2]; /* lengths of the key buffers */
    struct page_rooms page_rooms;
};

/* A text with its buffer's length and, once it is prepared, its key. */
struct side {
    const struct text *text;
    size_t room;
    int refused;
    int in_buffer;
    const uint8_t *key;
    size_t key_length;
};

/* The rows that the calls of one form gave. */
struct rows {
    uint64_t prepared[2][7], equal[4], order[4], flipped[4], substring[8];
};

/* Whether the header allows calls without the check of the table: they read it under one collation alone. */
static int is_allowed(const struct pair *pair) {
    return pair->collation != MZ_UNICODE_CASEMAP || pair->is_accepted;
}

/* The length that the key of the first octets of a text has, in a buffer that is always long enough; 0 if the call is refused. */
static size_t key_length_of(const struct pair *pair, const struct text *text, size_t length) {
    static uint8_t key[LENT_MOST];
    const struct table *table = &pair->table;
    uint64_t row[7];
    if (!is_allowed(pair))
        return 0;
    mz_prepare_accepted(pair->collation, text->octets, length, table->entries, table->entries_length, table->pool,
                        table->pool_length, LEARNT, key, sizeof key, row);
    return row[5];
}

/* A buffer's length: the most that a key can need, just enough, one less, or up to 63 octets. */
static size_t take_room(struct input *input, const struct pair *pair, const struct text *text) {
    uint8_t octet = take_octet(input);
    size_t needed = octet % 4 == 1 || octet % 4 == 2 ? key_length_of(pair, text, text->length) : 0;
    switch (octet % 4) {
    case 0:
        return MZ_KEY_PER_OCTET_MOST * text->length;
    case 1:
        return needed;
    case 2:
        return needed > 0 ? needed - 1 : 0;
    default:
        return octet / 4;
    }
}

/* The second text is one of its own, or has the first inside it. */
static void take_second(struct input *input, struct text *second, const struct text *first) {
    static struct text after;
    int holds_first = take_octet(input) % 2;
    take_text(input, second);
    if (!holds_first)
        return;
    take_text(input, &after);
    if (second->length + first->length + after.length > TEXT_ROOM)
        return;
    memcpy(second->octets + second->length, first->octets, first->length);
    memcpy(second->octets + second->length + first->length, after.octets, after.length);
    second->length += first->length + after.length;
}

static void take_pair(struct input *input, struct pair *pair) {
    static const uint32_t collations[] = {3, 3, 3, 3, 2, 1, 0, 4};
    pair->collation = collations[take_octet(input) % 8];
    take_table(input, &pair->table);
    pair->is_accepted = learn_pages(&pair->table);
    take_text(input, &pair->texts[0]);
    take_second(input, &pair->texts[1], &pair->texts[0]);
    for (int text = 0; text < 2; text++)
        pair->rooms[text] = take_room(input, pair, &pair->texts[text]);
    pair->page_rooms = take_page_rooms(input);
}

/* The table and an answer row, lent for one call. */
struct surroundings {
    struct lent entries, pool, answer;
};

static struct surroundings lend_surroundings(const struct pair *pair, enum memory memory, uint64_t *row, size_t length) {
    const struct table *table = &pair->table;
    memset(row, 0xA5, length * sizeof *row);
    return (struct surroundings){
        lend(memory, ENTRIES, table->entries, table->entries_length * sizeof(uint32_t)),
        lend(memory, POOL, table->pool, table->pool_length * sizeof(uint32_t)),
        lend(memory, ANSWER, row, length * sizeof *row),
    };
}

/* Takes the row out. The table must be as it was, and a refusal says nothing more. */
static void end_surroundings(struct surroundings lent, const struct pair *pair, uint64_t *row, size_t length) {
    EXPECT(is_kept(lent.entries, pair->table.entries) && is_kept(lent.pool, pair->table.pool));
    memcpy(row, lent.answer.at, lent.answer.size);
    EXPECT(row[0] <= MZ_REFUSED_KEY_ROOM || row[0] == MZ_REFUSED_PAGES);
    if (row[0] != 0)
        expect_refusal(row, length);
    else
        EXPECT(row[1] == 0 && row[2] == 0);
    give_back(lent.entries);
    give_back(lent.pool);
    give_back(lent.answer);
}

#define TABLE_OF(lent, pair) (lent).entries.at, (pair)->table.entries_length, (lent).pool.at, (pair)->table.pool_length

static void check_table(const struct pair *pair, enum memory memory, uint64_t row[3]) {
    struct surroundings lent = lend_surroundings(pair, memory, row, 3);
    mz_check_table(TABLE_OF(lent, pair), lent.answer.at);
    end_surroundings(lent, pair, row, 3);
    EXPECT(row[0] == 0 || (row[0] >= MZ_REFUSED_TABLE_SIZE && row[0] <= MZ_REFUSED_LEVEL));
    EXPECT(row[1] == 0 && pair->is_accepted == (row[0] == 0));
    note(TABLE_CHECKED, row[0]);
    note_size(TABLE_DETAIL, row[2]);
}

/* Slices for a call of one form: one that reads pages is lent those that were learnt. */
static struct pages lend_pages_to(const struct pair *pair, enum memory memory, const struct forms *forms) {
    return lend_pages(memory, pair->page_rooms, forms->reads_pages && pair->collation == MZ_UNICODE_CASEMAP);
}

/* 15 comes of short slices alone, and nothing comes after it: neither 8 nor an answer. */
static void expect_pages(const struct pair *pair, struct pages pages, const uint64_t *row) {
    int are_too_short = are_short(pair->collation, pair->page_rooms);
    EXPECT(row[0] != MZ_REFUSED_PAGES || (are_too_short && row[1] == 0 && row[2] == 0));
    EXPECT(!are_too_short || (row[0] != 0 && row[0] != MZ_REFUSED_KEY_ROOM));
    end_pages(pages, pair->collation, row[0]);
}

/* A key that belongs in the buffer stands at its start if the call was not refused; every other octet of the buffer stays. */
static void expect_buffer(struct lent buffer, const struct side *side, int is_left) {
    size_t length = is_left && side->in_buffer ? side->key_length : 0;
    EXPECT(length <= buffer.size);
    if (length > 0)
        EXPECT(memcmp(buffer.at, side->key, length) == 0);
    if (buffer.size > length)
        EXPECT(memcmp((uint8_t *)buffer.at + length, pattern + length, buffer.size - length) == 0);
}

/* "At most 258 n lookups and a key of at most 128 n octets" for a valid text of n code points; no lookup for any other. */
static void expect_bounds(uint32_t collation, const struct text *text, const uint64_t row[7]) {
    uint64_t code_points = 0;
    for (size_t at = 0; at < text->length; at++)
        code_points += (text->octets[at] & 0xC0) != 0x80;
    EXPECT(row[3] <= 1 && row[6] <= 1);
    if (collation != MZ_UNICODE_CASEMAP || row[3] == 0) {
        EXPECT(row[3] == (collation != MZ_UNICODE_CASEMAP));
        EXPECT(row[4] == 0 && row[5] == text->length);
        EXPECT(row[6] == (collation == MZ_ASCII_CASEMAP));
        return;
    }
    EXPECT(row[6] == 1);
    EXPECT(row[4] >= 2 * code_points && row[4] <= 258 * code_points);
    EXPECT(row[5] >= code_points && row[5] <= 128 * code_points);
    if (code_points > 0) {
        note_size(LOOKUPS, row[4] / code_points);
        note_size(KEY_LENGTH, row[5] / code_points);
    }
}

/* Whatever key a preparation gives, a record may hold. */
static void expect_recorded(const struct pair *pair, const struct side *side, uint64_t valid) {
    static uint8_t records[LENT_MOST];
    uint64_t row[4];
    mz_write_key(pair->collation, valid, side->text->length, side->key, side->key_length, records, sizeof records, 0, row);
    EXPECT(row[0] == 0 && row[3] == 10 + side->key_length);
}

/* Prepares one text, and keeps its key in `storage` if it belongs in the buffer. */
static void prepare(const struct pair *pair, enum memory memory, const struct forms *forms, struct side *side, uint8_t *storage,
                    uint64_t row[7]) {
    struct lent text = lend(memory, FIRST, side->text->octets, side->text->length);
    struct lent buffer = lend(memory, FIRST_KEY, pattern, side->room);
    struct pages pages = lend_pages_to(pair, memory, forms);
    struct surroundings lent = lend_surroundings(pair, memory, row, 7);
    forms->prepare(pair->collation, text.at, text.size, TABLE_OF(lent, pair), LENT(pages), buffer.at, buffer.size, lent.answer.at);
    end_surroundings(lent, pair, row, 7);
    expect_pages(pair, pages, row);
    EXPECT(is_kept(text, side->text->octets));
    side->refused = row[0] != 0;
    side->in_buffer = row[6] == 1;
    side->key = side->in_buffer ? storage : side->text->octets;
    side->key_length = row[5];
    if (!side->refused) {
        expect_bounds(pair->collation, side->text, row);
        EXPECT(!side->in_buffer || side->key_length <= buffer.size);
    }
    if (side->in_buffer && side->key_length > 0)
        memcpy(storage, buffer.at, side->key_length);
    if (!side->refused)
        expect_recorded(pair, side, row[3]);
    expect_buffer(buffer, side, !side->refused);
    note(PREPARED, 2 * row[0] + row[3]);
    give_back(text);
    give_back(buffer);
}

/* Makes a comparing call. It leaves both keys as the preparations did. */
static void compare(const struct pair *pair, enum memory memory, const struct forms *forms, comparing *call, const struct side *one,
                    const struct side *other, uint64_t *row, size_t length) {
    struct lent first = lend(memory, FIRST, one->text->octets, one->text->length);
    struct lent second = lend(memory, SECOND, other->text->octets, other->text->length);
    struct lent first_key = lend(memory, FIRST_KEY, pattern, one->room);
    struct lent second_key = lend(memory, SECOND_KEY, pattern, other->room);
    struct pages pages = lend_pages_to(pair, memory, forms);
    struct surroundings lent = lend_surroundings(pair, memory, row, length);
    call(pair->collation, first.at, first.size, second.at, second.size, TABLE_OF(lent, pair), LENT(pages), first_key.at,
         first_key.size, second_key.at, second_key.size, lent.answer.at);
    end_surroundings(lent, pair, row, length);
    expect_pages(pair, pages, row);
    EXPECT(is_kept(first, one->text->octets) && is_kept(second, other->text->octets));
    EXPECT((row[0] != 0) == (one->refused || other->refused));
    expect_buffer(first_key, one, row[0] == 0);
    expect_buffer(second_key, other, row[0] == 0);
    give_back(first);
    give_back(second);
    give_back(first_key);
    give_back(second_key);
}

/* 1 less, 2 equal, 3 greater, by the octets of the two keys. */
static uint64_t order_of(const struct side *one, const struct side *other) {
    size_t common = one->key_length < other->key_length ? one->key_length : other->key_length;
    int order = common > 0 ? memcmp(one->key, other->key, common) : 0;
    if (order == 0)
        order = (one->key_length > other->key_length) - (one->key_length < other->key_length);
    return order < 0 ? 1 : order > 0 ? 3 : 2;
}

/* Whether a character of a valid text begins at a place, or the text ends there. */
static int is_boundary(const struct text *text, size_t at) {
    return at == text->length || (text->octets[at] & 0xC0) != 0x80;
}

/* The smallest run of whole characters that covers the match: the keys of what stands before its start, its first character, its last
 * character and its end say so. */
static void expect_run(const struct pair *pair, const struct text *text, const uint64_t row[8]) {
    size_t start = row[6], end = row[7];
    EXPECT(start < end && end <= text->length);
    EXPECT(is_boundary(text, start) && is_boundary(text, end));
    size_t after_first = start + 1, before_last = end - 1;
    while (!is_boundary(text, after_first))
        after_first++;
    while (!is_boundary(text, before_last))
        before_last--;
    EXPECT(key_length_of(pair, text, start) <= row[4]);
    EXPECT(key_length_of(pair, text, after_first) > row[4]);
    EXPECT(key_length_of(pair, text, before_last) < row[5]);
    EXPECT(key_length_of(pair, text, end) >= row[5]);
    note_size(RUN, end - start);
    note(MOVED, row[4] != start || row[5] != end);
}

/* A hit is the lowest place at which the first key stands in the second. */
static void expect_hit(const struct pair *pair, const struct side *first, const struct side *second, int is_valid,
                       const uint64_t row[8]) {
    static const uint64_t nothing[4] = {0};
    int is_empty = first->key_length == 0;
    const uint8_t *found = is_empty ? second->key : memmem(second->key, second->key_length, first->key, first->key_length);
    EXPECT(row[3] == (found != NULL ? 1 : 2));
    if (is_empty || found == NULL) {
        EXPECT(memcmp(row + 4, nothing, sizeof nothing) == 0);
        return;
    }
    EXPECT(row[4] == (uint64_t)(found - second->key));
    EXPECT(row[5] - row[4] == first->key_length);
    if (pair->collation == MZ_UNICODE_CASEMAP && is_valid)
        expect_run(pair, second->text, row);
    else
        EXPECT(row[6] == row[4] && row[7] == row[5]);
}

/* What must hold between the rows of one form. */
static void expect_rows(const struct pair *pair, const struct side sides[2], const struct rows *rows) {
    note(EQUAL, 8 * rows->equal[0] + rows->equal[1] + rows->equal[3]);
    note(ORDER, rows->order[3]);
    note(SUBSTRING, rows->substring[3]);
    EXPECT(memcmp(rows->equal, rows->order, 3 * sizeof *rows->order) == 0);
    EXPECT(memcmp(rows->equal, rows->substring, 3 * sizeof *rows->order) == 0);
    EXPECT(rows->flipped[0] == rows->order[0]);
    if (rows->equal[0] != 0)
        return;
    EXPECT(rows->order[3] == order_of(&sides[0], &sides[1]));
    EXPECT(rows->flipped[3] == 4 - rows->order[3]);
    EXPECT(rows->equal[3] == (rows->order[3] == 2 ? 1 : 2));
    expect_hit(pair, &sides[0], &sides[1], rows->prepared[1][3] == 1, rows->substring);
}

/* Makes all calls of one form, in one kind of memory. */
static void make_calls(const struct pair *pair, enum memory memory, const struct forms *forms, struct rows *rows) {
    static uint8_t storage[2][LENT_MOST];
    struct side sides[2];
    for (int text = 0; text < 2; text++) {
        sides[text] = (struct side){.text = &pair->texts[text], .room = pair->rooms[text]};
        prepare(pair, memory, forms, &sides[text], storage[text], rows->prepared[text]);
    }
    compare(pair, memory, forms, forms->equal, &sides[0], &sides[1], rows->equal, 4);
    compare(pair, memory, forms, forms->order, &sides[0], &sides[1], rows->order, 4);
    compare(pair, memory, forms, forms->order, &sides[1], &sides[0], rows->flipped, 4);
    compare(pair, memory, forms, forms->substring, &sides[0], &sides[1], rows->substring, 8);
    expect_rows(pair, sides, rows);
}

/* Both forms, where the header allows the one without the check of the table, and all kinds of memory give the same rows. */
void fuzz_texts(const uint8_t *data, size_t size) {
    static struct pair pair;
    struct rows first, rows;
    struct input input = {data, size};
    take_pair(&input, &pair);
    for (enum memory memory = 0; memory < MEMORIES; memory++) {
        uint64_t verdict[3];
        check_table(&pair, memory, verdict);
        make_calls(&pair, memory, &checked, &rows);
        if (memory == 0)
            first = rows;
        EXPECT(memcmp(&rows, &first, sizeof rows) == 0);
        if (!is_allowed(&pair) || are_short(pair.collation, pair.page_rooms))
            continue;
        make_calls(&pair, memory, &accepted, &rows);
        EXPECT(memcmp(&rows, &first, sizeof rows) == 0);
    }
}
