/* mz_prepare_many and mz_match_keys: many texts under a collation, over a table; then the keys that they have, and the texts
 * themselves as keys. What other calls say of the table and of each text is what must be left. */
#include "expect.h"
#include "mundeziwa_accepted.h"
#include "names.h"
#include "paging.h"
#include <string.h>

#define TEXTS_MOST 1064    /* texts that a case may have */
#define OCTETS_ROOM 131072 /* octets that they may have together */

/* What becomes known of many texts; the kinds that `note` is given. */
enum kind { TEXTS_ANSWERED = 32, KEYS_ANSWERED, TEXTS_TAKEN, KEYS_PAIRED };

/* 8 for another slice than the first that is looked at, as a number beside the refusals' own. */
#define OTHER_ROOM_ANSWERED 9

/* Octets and ends, as a call reads them. */
struct many {
    const uint8_t *octets;
    size_t length;
    const size_t *ends;
    size_t count;
};

/* The lengths of what is lent: octets of store and valid, numbers of the others. */
struct rooms {
    size_t store, key_ends, valid, row, repeats, partners;
};

struct texts {
    uint32_t collation;
    struct table table;
    uint8_t octets[OCTETS_ROOM];
    size_t length, ends[TEXTS_MOST], count;
    size_t first_names;
    struct rooms rooms;
    struct page_rooms page_rooms;
};

/* What other calls say of the table and of each text. */
struct known {
    uint64_t verdict[3];
    size_t long_text; /* the lowest number of one, or how many texts there are */
    uint8_t octets[LENT_MOST]; /* all keys, as many as there is room for */
    size_t total, key_ends[TEXTS_MOST];
    uint8_t valid[TEXTS_MOST];
};

/* ---- taking texts */

static void put(struct texts *texts, const uint8_t *octets, size_t length) {
    if (length > OCTETS_ROOM - texts->length || texts->count == TEXTS_MOST)
        return;
    memcpy(texts->octets + texts->length, octets, length);
    texts->length += length;
    texts->ends[texts->count++] = texts->length;
}

/* Texts: an octet below E0 hex and that many modulo 16; from E0 on 1,016 to 1,047, which repeat the next four. */
static void take_texts(struct input *input, struct texts *texts, struct stock *stock) {
    uint8_t octet = take_octet(input);
    size_t taken = octet < 0xE0 ? octet % 16 : 4, count = octet < 0xE0 ? taken : 1016 + (size_t)(octet - 0xE0);
    for (size_t at = 0; at < taken; at++) {
        const struct text *name = take_name(input, take_octet(input), stock);
        put(texts, name->octets, name->length);
    }
    for (size_t at = taken; at < count; at++) {
        size_t start = at % taken == 0 ? 0 : texts->ends[at % taken - 1];
        put(texts, texts->octets + start, texts->ends[at % taken] - start);
    }
}

/* Puts an end elsewhere: `which` of them, and where by `how`; 0 leaves all. */
static void move_end(struct texts *texts, size_t which, uint8_t how) {
    if (texts->count == 0)
        return;
    size_t number = which % texts->count, before = number == 0 ? 0 : texts->ends[number - 1];
    const size_t length = texts->length;
    const size_t places[] = {texts->ends[number], before, before - 1, 0, length, length + 1, (size_t)1 << 32, SIZE_MAX};
    texts->ends[number] = places[how % 8];
}

/* Octets after the last text, which belong to none. */
static void put_rest(struct texts *texts, size_t length) {
    if (length > OCTETS_ROOM - texts->length)
        return;
    memset(texts->octets + texts->length, 'a', length);
    texts->length += length;
}

/* How many names the first list has: one more than there are texts, or fewer; from F0 hex on far too many. */
static size_t take_first_names(struct input *input, size_t count) {
    uint8_t octet = take_octet(input);
    return octet < 0xF0 ? octet % (count + 2) : SIZE_MAX - (octet - 0xF0u);
}

/* ---- what other calls say */

static struct part part_of(struct many many, size_t number) {
    size_t start = number == 0 ? 0 : many.ends[number - 1];
    return (struct part){start, many.ends[number] - start};
}

/* The lowest number of an end that is at fault, or how many there are. */
static size_t fault_of(struct many many) {
    size_t number = 0, before = 0;
    while (number < many.count && many.ends[number] >= before && many.ends[number] <= many.length)
        before = many.ends[number++];
    return number;
}

static struct many of_texts(const struct texts *texts) {
    return (struct many){texts->octets, texts->length, texts->ends, texts->count};
}

/* The key of each text by mz_prepare_accepted, one after another, over the pages that were learnt. */
static void learn_keys(const struct texts *texts, struct known *known) {
    static uint8_t buffer[MZ_KEY_PER_OCTET_MOST * MZ_TEXT_MOST];
    const struct table *table = &texts->table;
    for (size_t number = 0; number < texts->count; number++) {
        struct part part = part_of(of_texts(texts), number);
        uint64_t row[7];
        mz_prepare_accepted(texts->collation, texts->octets + part.start, part.length, table->entries, table->entries_length,
                            table->pool, table->pool_length, LEARNT, buffer, sizeof buffer, row);
        EXPECT(row[0] == 0);
        if (row[5] <= LENT_MOST && known->total <= LENT_MOST - row[5])
            memcpy(known->octets + known->total, row[6] == 1 ? buffer : texts->octets + part.start, row[5]);
        known->total += row[5];
        known->key_ends[number] = known->total;
        known->valid[number] = (uint8_t)row[3];
    }
}

static void learn(const struct texts *texts, struct known *known) {
    const struct table *table = &texts->table;
    mz_check_table(table->entries, table->entries_length, table->pool, table->pool_length, known->verdict);
    EXPECT(learn_pages(table) == (known->verdict[0] == 0));
    known->total = known->long_text = 0;
    if (fault_of(of_texts(texts)) < texts->count)
        return;
    while (known->long_text < texts->count && part_of(of_texts(texts), known->long_text).length <= MZ_TEXT_MOST)
        known->long_text++;
    int is_refused = !is_collation(texts->collation) || (texts->collation == MZ_UNICODE_CASEMAP && known->verdict[0] != 0);
    if (!is_refused && known->long_text == texts->count)
        learn_keys(texts, known);
}

/* The start of a row. */
static void refuse(uint64_t due[3], uint64_t number, uint64_t place, uint64_t detail) {
    const uint64_t refusal[3] = {number, place, detail};
    memcpy(due, refusal, sizeof refusal);
}

/* The refusal of texts that is due, in the order of the header. */
static void refusal_of_texts(const struct texts *texts, const struct known *known, uint64_t due[3]) {
    const struct rooms *rooms = &texts->rooms;
    size_t fault = fault_of(of_texts(texts));
    refuse(due, 0, 0, 0);
    if (!is_collation(texts->collation))
        refuse(due, MZ_REFUSED_COLLATION, 0, 0);
    else if (fault < texts->count)
        refuse(due, MZ_REFUSED_END, 1, fault);
    else if (known->long_text < texts->count)
        refuse(due, MZ_REFUSED_TEXT_LENGTH, 1, known->long_text);
    else if (texts->collation == MZ_UNICODE_CASEMAP && known->verdict[0] != 0)
        refuse(due, known->verdict[0], known->verdict[1], known->verdict[2]);
    else if (are_short(texts->collation, texts->page_rooms))
        refuse(due, MZ_REFUSED_PAGES, 0, 0);
    else if (known->total > rooms->store)
        refuse(due, MZ_REFUSED_MANY_ROOM, 0, known->total);
    else if (texts->count > rooms->key_ends || texts->count > rooms->valid)
        refuse(due, MZ_REFUSED_MANY_ROOM, 0, texts->count);
}

/* The refusal of keys that is due, in the order of the header. */
static void refusal_of_keys(struct many keys, size_t first_names, const struct rooms *rooms, uint64_t due[3]) {
    size_t fault = fault_of(keys);
    refuse(due, 0, 0, 0);
    if (fault < keys.count)
        refuse(due, MZ_REFUSED_END, 1, fault);
    else if (first_names > keys.count)
        refuse(due, MZ_REFUSED_FIRST_COUNT, 0, keys.count);
    else if (keys.count > rooms->row || keys.count > rooms->repeats)
        refuse(due, MZ_REFUSED_MANY_ROOM, 0, keys.count);
    else if (first_names > rooms->partners)
        refuse(due, MZ_REFUSED_MANY_ROOM, 0, first_names);
}

/* ---- what must hold */

/* A row of so many numbers begins with the refusal that is due, if one is. */
static void expect_due(const uint64_t *row, size_t length, const uint64_t due[3]) {
    EXPECT(memcmp(row, due, 3 * sizeof *due) == 0);
    if (row[0] != 0)
        expect_refusal(row, length);
}

/* The first octets of a lent slice are these, and the others stay. */
static void expect_left(struct lent lent, const void *content, size_t size) {
    expect_kept_after(lent, size);
    EXPECT(size == 0 || memcmp(lent.at, content, size) == 0);
}

/* Every number once, keys that don't fall, rising numbers where they are equal, and whether the next is. */
static void expect_row(struct many keys, const uint32_t *row, const uint32_t *repeats) {
    uint8_t seen[TEXTS_MOST + 1] = {0};
    for (size_t place = 0; place < keys.count; place++) {
        EXPECT(row[place] >= 1 && row[place] <= keys.count && !seen[row[place]]);
        seen[row[place]] = 1;
    }
    for (size_t place = 0; place + 1 < keys.count; place++) {
        int order = order_of(keys.octets, part_of(keys, row[place] - 1), part_of(keys, row[place + 1] - 1));
        EXPECT(order < 0 || (order == 0 && row[place] < row[place + 1]));
        EXPECT(repeats[place] == (order == 0));
    }
    EXPECT(keys.count == 0 || repeats[keys.count - 1] == 0);
}

/* The totals and the partners, by all pairs. */
static void expect_pairs(struct many keys, size_t first_names, const uint32_t *partners, const uint64_t answer[5]) {
    uint64_t pairs = 0, partnered = 0;
    for (size_t one = 0; one < first_names; one++) {
        uint32_t lowest = 0;
        for (size_t other = keys.count; other > first_names; other--) {
            int is_equal = order_of(keys.octets, part_of(keys, one), part_of(keys, other - 1)) == 0;
            pairs += (uint64_t)is_equal;
            lowest = is_equal ? (uint32_t)(other - first_names) : lowest;
        }
        EXPECT(partners[one] == lowest);
        partnered += lowest > 0;
    }
    EXPECT(answer[3] == pairs && answer[4] == partnered);
    note_size(KEYS_PAIRED, pairs);
}

/* ---- the calls */

static void prepare_many(enum memory memory, const struct texts *texts, const struct known *known, uint64_t row[4]) {
    const struct table *table = &texts->table;
    const struct rooms *rooms = &texts->rooms;
    uint64_t due[3];
    memset(row, 0xA5, 4 * sizeof *row);
    struct lent octets = lend(memory, OCTETS, texts->octets, texts->length);
    struct lent ends = lend(memory, ENDS, texts->ends, texts->count * sizeof(size_t));
    struct lent entries = lend(memory, ENTRIES, table->entries, table->entries_length * sizeof(uint32_t));
    struct lent pool = lend(memory, POOL, table->pool, table->pool_length * sizeof(uint32_t));
    struct lent store = lend(memory, STORE, pattern, rooms->store);
    struct lent key_ends = lend(memory, KEY_ENDS, pattern, rooms->key_ends * sizeof(size_t));
    struct lent valid = lend(memory, VALID, pattern, rooms->valid);
    struct pages pages = lend_pages(memory, texts->page_rooms, 0);
    struct lent answer = lend(memory, ANSWER, row, 4 * sizeof *row);
    mz_prepare_many(texts->collation, octets.at, octets.size, ends.at, texts->count, entries.at, table->entries_length, pool.at,
                    table->pool_length, LENT(pages), store.at, store.size, key_ends.at, rooms->key_ends, valid.at, valid.size,
                    answer.at);
    memcpy(row, answer.at, answer.size);
    end_pages(pages, texts->collation, row[0]);
    EXPECT(is_kept(octets, texts->octets) && is_kept(ends, texts->ends));
    EXPECT(is_kept(entries, table->entries) && is_kept(pool, table->pool));
    refusal_of_texts(texts, known, due);
    expect_due(row, 4, due);
    int is_left = row[0] == 0;
    EXPECT(!is_left || row[3] == known->total);
    expect_left(store, known->octets, is_left ? known->total : 0);
    expect_left(key_ends, known->key_ends, is_left ? texts->count * sizeof(size_t) : 0);
    expect_left(valid, known->valid, is_left ? texts->count : 0);
    const struct lent lent[] = {octets, ends, entries, pool, store, key_ends, valid, answer};
    for (size_t at = 0; at < sizeof lent / sizeof *lent; at++)
        give_back(lent[at]);
}

static void match_keys(enum memory memory, struct many keys, size_t first_names, const struct rooms *rooms, uint64_t answer[5]) {
    uint64_t due[3];
    memset(answer, 0xA5, 5 * sizeof *answer);
    struct lent octets = lend(memory, OCTETS, keys.octets, keys.length);
    struct lent ends = lend(memory, ENDS, keys.ends, keys.count * sizeof(size_t));
    struct lent row = lend(memory, ROW, pattern, rooms->row * sizeof(uint32_t));
    struct lent repeats = lend(memory, REPEATS, pattern, rooms->repeats * sizeof(uint32_t));
    struct lent partners = lend(memory, PARTNERS, pattern, rooms->partners * sizeof(uint32_t));
    struct lent answered = lend(memory, ANSWER, answer, 5 * sizeof *answer);
    mz_match_keys(octets.at, octets.size, ends.at, keys.count, first_names, row.at, rooms->row, repeats.at, rooms->repeats,
                  partners.at, rooms->partners, answered.at);
    memcpy(answer, answered.at, answered.size);
    EXPECT(is_kept(octets, keys.octets) && is_kept(ends, keys.ends));
    refusal_of_keys(keys, first_names, rooms, due);
    expect_due(answer, 5, due);
    int is_left = answer[0] == 0;
    expect_kept_after(row, is_left ? keys.count * sizeof(uint32_t) : 0);
    expect_kept_after(repeats, is_left ? keys.count * sizeof(uint32_t) : 0);
    expect_kept_after(partners, is_left ? first_names * sizeof(uint32_t) : 0);
    if (is_left) {
        expect_row(keys, row.at, repeats.at);
        expect_pairs(keys, first_names, partners.at, answer);
    }
    const struct lent lent[] = {octets, ends, row, repeats, partners, answered};
    for (size_t at = 0; at < sizeof lent / sizeof *lent; at++)
        give_back(lent[at]);
}

/* All kinds of memory; what was left is compared in each. The number says which 8 it was. */
static void prepare_everywhere(const struct texts *texts, const struct known *known) {
    uint64_t row[4];
    for (enum memory memory = 0; memory < MEMORIES; memory++)
        prepare_many(memory, texts, known, row);
    int is_other = row[0] == MZ_REFUSED_MANY_ROOM && known->total <= texts->rooms.store;
    note(TEXTS_ANSWERED, is_other ? OTHER_ROOM_ANSWERED : row[0]);
}

static void match_everywhere(struct many keys, size_t first_names, const struct rooms *rooms) {
    uint64_t answer[5];
    for (enum memory memory = 0; memory < MEMORIES; memory++)
        match_keys(memory, keys, first_names, rooms, answer);
    int is_other = answer[0] == MZ_REFUSED_MANY_ROOM && keys.count <= rooms->row && keys.count <= rooms->repeats;
    note(KEYS_ANSWERED, is_other ? OTHER_ROOM_ANSWERED : answer[0]);
}

static void take_rooms(struct input *input, const struct known *known, struct texts *texts) {
    size_t count = texts->count, partners = texts->first_names < count ? texts->first_names : count;
    texts->rooms.store = take_room(input, MZ_KEY_PER_OCTET_MOST * texts->length, known->total);
    texts->rooms.key_ends = take_room(input, count + 3, count);
    texts->rooms.valid = take_room(input, count + 3, count);
    texts->rooms.row = take_room(input, count + 3, count);
    texts->rooms.repeats = take_room(input, count + 3, count);
    texts->rooms.partners = take_room(input, partners + 3, partners);
}

void fuzz_many(const uint8_t *data, size_t size) {
    static const uint32_t collations[] = {3, 3, 3, 2, 2, 1, 0, 4};
    static struct texts texts;
    static struct known known;
    static struct stock stock;
    struct input input = {data, size};
    stock.count = texts.count = texts.length = 0;
    texts.collation = collations[take_octet(&input) % 8];
    take_table(&input, &texts.table);
    /* these come before the texts, and need what is known of them: their octets are kept */
    uint8_t octets[10];
    for (size_t at = 0; at < sizeof octets; at++)
        octets[at] = take_octet(&input);
    struct input kept = {octets, sizeof octets};
    take_texts(&input, &texts, &stock);
    texts.page_rooms = take_page_rooms(&input);
    size_t which = take_octet(&kept);
    move_end(&texts, which, take_octet(&kept));
    put_rest(&texts, take_octet(&kept) % 8);
    learn(&texts, &known);
    texts.first_names = take_first_names(&kept, texts.count);
    take_rooms(&kept, &known, &texts);
    note_size(TEXTS_TAKEN, texts.count);
    prepare_everywhere(&texts, &known);
    match_everywhere(of_texts(&texts), texts.first_names, &texts.rooms);
    if (known.total > 0 && known.total <= LENT_MOST) {
        struct many keys = {known.octets, known.total, known.key_ends, texts.count};
        match_everywhere(keys, texts.first_names, &texts.rooms);
    }
}
