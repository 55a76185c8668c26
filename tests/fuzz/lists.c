/* mz_find_shared, in both forms: two lists under a collation, over a table, with a store and two arrays. What other calls say of
 * the lists' records, of the table and of each name is what the report must agree with. */
#include "expect.h"
#include "forms.h"
#include "mundeziwa_accepted.h"
#include "names.h"
#include "paging.h"
#include <string.h>

#define LIST_ROOM 65536    /* octets that a list of a case may have */
#define PAIRS_COMPARED 64  /* the most pairs of names that are given to mz_equal_accepted, each by itself */

/* What becomes known of two lists; the kinds that `note` is given. */
enum kind { SHARED_ANSWERED = 28, NAMES_READ, PAIRS, PARTNERED };

/* 8 for an array, as a number beside the refusals' own. */
#define ARRAY_ANSWERED 9

struct list {
    uint8_t octets[LIST_ROOM];
    size_t length;
};

/* The lengths of what is lent: octets of the store, numbers of the arrays. */
struct rooms {
    size_t store, partners, positions;
};

struct lists {
    uint32_t collation;
    struct table table;
    struct list list[2];
    struct rooms rooms;
    struct page_rooms page_rooms;
};

/* What other calls say of two lists. */
struct known {
    uint64_t refused[2]; /* which of 11 to 13 a list has */
    size_t counts[2];
    uint64_t verdict[3];
    struct part names[2][MZ_NAMES_MOST], keys[2][MZ_NAMES_MOST];
    uint8_t octets[LENT_MOST]; /* all keys, as many as there is room for */
    size_t total;
};

/* ---- taking lists */

static void put(struct list *list, const uint8_t *octets, size_t length) {
    if (length <= LIST_ROOM - list->length) {
        memcpy(list->octets + list->length, octets, length);
        list->length += length;
    }
}

/* A record of a kind, its length right. */
static void put_record(struct list *list, uint8_t kind, const struct text *body) {
    static uint8_t record[6 + TEXT_ROOM];
    size_t length = 2 + body->length;
    const uint8_t head[6] = {(uint8_t)length, (uint8_t)(length >> 8), 0, 0, kind, 0};
    memcpy(record, head, sizeof head);
    memcpy(record + sizeof head, body->octets, body->length);
    put(list, record, sizeof head + body->length);
}

/* A record: a name (names.h) or, where its octet is F0 hex or more, the record of another kind, an octet, with a text. */
static void take_record(struct input *input, struct list *list, struct stock *stock) {
    uint8_t octet = take_octet(input), kind = octet < 0xF0 ? MZ_KIND_TEXT : take_octet(input);
    put_record(list, kind, take_name(input, octet, stock));
}

/* A list: an octet below E0 hex and that many records modulo 16; E0 to EF 1,016 to 1,031 records, which repeat the next four; from
 * F0 on a text whose octets are the list. */
static void take_list(struct input *input, struct list *list, struct stock *stock) {
    static struct text text;
    uint8_t octet = take_octet(input);
    list->length = 0;
    if (octet >= 0xF0) {
        take_text(input, &text);
        put(list, text.octets, text.length);
        return;
    }
    size_t count = octet < 0xE0 ? octet % 16 : 4;
    for (size_t at = 0; at < count; at++)
        take_record(input, list, stock);
    if (octet < 0xE0)
        return;
    size_t whole = list->length, ends = 1016 + (size_t)(octet - 0xE0);
    for (size_t at = count; at + count <= ends; at += count)
        put(list, list->octets, whole);
    text.length = 0;
    for (size_t at = 0; at < ends % count; at++)
        put_record(list, MZ_KIND_TEXT, &text);
}

/* ---- what other calls say */

/* Whether the record at a position is of the kind that a list has. */
static int is_text(const struct list *list, uint64_t position) {
    return list->octets[position + 4] == MZ_KIND_TEXT && list->octets[position + 5] == 0;
}

/* Reads a list by mz_read_record. A record of another kind is 12, whatever its body. */
static void learn_names(const struct list *list, uint64_t *refused, size_t *count, struct part names[MZ_NAMES_MOST]) {
    uint64_t position = 0, row[9];
    for (*count = 0;; ++*count) {
        mz_read_record(list->octets, list->length, position, row);
        int is_other = (row[0] == 0 && row[3] != 0) || row[0] == MZ_REFUSED_RECORD_BODY ? !is_text(list, position) : 0;
        *refused = is_other ? MZ_REFUSED_RECORD_KIND : row[0];
        if (*refused != 0 || row[3] == 0)
            return;
        if (*count < MZ_NAMES_MOST)
            names[*count] = (struct part){row[7], row[8] - row[7]};
        position = row[8];
    }
}

/* The key of each name by mz_prepare_accepted, one after another, over the pages that were learnt. */
static void learn_keys(const struct lists *lists, int which, struct known *known) {
    static uint8_t buffer[MZ_KEY_PER_OCTET_MOST * MZ_TEXT_MOST];
    const struct table *table = &lists->table;
    for (size_t at = 0; at < known->counts[which] && at < MZ_NAMES_MOST; at++) {
        const uint8_t *name = lists->list[which].octets + known->names[which][at].start;
        uint64_t row[7];
        mz_prepare_accepted(lists->collation, name, known->names[which][at].length, table->entries, table->entries_length,
                            table->pool, table->pool_length, LEARNT, buffer, sizeof buffer, row);
        EXPECT(row[0] == 0);
        known->keys[which][at] = (struct part){known->total, row[5]};
        if (row[5] <= LENT_MOST && known->total <= LENT_MOST - row[5])
            memcpy(known->octets + known->total, row[6] == 1 ? buffer : name, row[5]);
        known->total += row[5];
    }
}

static void learn(const struct lists *lists, struct known *known) {
    const struct table *table = &lists->table;
    mz_check_table(table->entries, table->entries_length, table->pool, table->pool_length, known->verdict);
    EXPECT(learn_pages(table) == (known->verdict[0] == 0));
    known->total = 0;
    for (int which = 0; which < 2; which++)
        learn_names(&lists->list[which], &known->refused[which], &known->counts[which], known->names[which]);
    if (!is_collation(lists->collation) || (lists->collation == MZ_UNICODE_CASEMAP && known->verdict[0] != 0))
        return;
    for (int which = 0; which < 2; which++)
        learn_keys(lists, which, known);
    note_size(NAMES_READ, known->counts[0]);
}

/* The refusal that is due, in the order of the header, as the start of a row. */
static void refusal_due(const struct lists *lists, const struct known *known, uint64_t due[3]) {
    memset(due, 0, 3 * sizeof *due);
    const uint64_t in_records = known->refused[0] != 0 ? known->refused[0] : known->refused[1];
    const int over[2] = {known->counts[0] > MZ_NAMES_MOST, known->counts[1] > MZ_NAMES_MOST};
    if (!is_collation(lists->collation)) {
        due[0] = MZ_REFUSED_COLLATION;
    } else if (in_records != 0) {
        due[0] = in_records;
        due[1] = known->refused[0] != 0 ? 1 : 2;
    } else if (over[0] || over[1]) {
        due[0] = MZ_REFUSED_NAME_COUNT;
        due[1] = over[0] ? 1 : 2;
    } else if (lists->collation == MZ_UNICODE_CASEMAP && known->verdict[0] != 0) {
        memcpy(due, known->verdict, sizeof known->verdict);
    } else if (are_short(lists->collation, lists->page_rooms)) {
        due[0] = MZ_REFUSED_PAGES;
    } else if (known->total > lists->rooms.store) {
        due[0] = MZ_REFUSED_LIST_ROOM;
        due[2] = known->total;
    } else if (known->counts[0] > lists->rooms.partners || known->counts[0] > lists->rooms.positions) {
        due[0] = MZ_REFUSED_LIST_ROOM;
        due[2] = known->counts[0];
    }
}

/* ---- what must hold of a report */

/* mz_equal_accepted says of two names what their keys say. */
static void expect_equality(const struct lists *lists, const struct known *known, size_t one, size_t other, int is_equal) {
    static uint8_t keys[2][MZ_KEY_PER_OCTET_MOST * MZ_TEXT_MOST];
    const struct part *first = &known->names[0][one], *second = &known->names[1][other];
    const struct table *table = &lists->table;
    uint64_t row[4];
    mz_equal_accepted(lists->collation, lists->list[0].octets + first->start, first->length,
                      lists->list[1].octets + second->start, second->length, table->entries, table->entries_length, table->pool,
                      table->pool_length, LEARNT, keys[0], sizeof keys[0], keys[1], sizeof keys[1], row);
    EXPECT(row[0] == 0 && row[3] == (is_equal ? 1 : 2));
}

/* The totals and the partners, by all pairs. */
static void expect_pairs(const struct lists *lists, const struct known *known, const uint32_t *partners, const uint64_t row[7]) {
    int is_small = known->counts[0] * known->counts[1] <= PAIRS_COMPARED;
    uint64_t pairs = 0, partnered = 0;
    for (size_t one = 0; one < known->counts[0]; one++) {
        uint32_t lowest = 0;
        for (size_t other = known->counts[1]; other > 0; other--) {
            int is_equal = order_of(known->octets, known->keys[0][one], known->keys[1][other - 1]) == 0;
            if (is_small)
                expect_equality(lists, known, one, other - 1, is_equal);
            pairs += (uint64_t)is_equal;
            lowest = is_equal ? (uint32_t)other : lowest;
        }
        EXPECT(partners[one] == lowest);
        partnered += lowest > 0;
    }
    EXPECT(row[3] == known->counts[0] && row[4] == known->counts[1]);
    EXPECT(row[5] == pairs && row[6] == partnered);
    note_size(PAIRS, pairs);
    note_size(PARTNERED, partnered);
}

/* Every number once, keys that don't fall, and rising numbers where they are equal. */
static void expect_positions(const struct known *known, const uint32_t *positions) {
    uint8_t seen[MZ_NAMES_MOST + 1] = {0};
    for (size_t at = 0; at < known->counts[0]; at++) {
        EXPECT(positions[at] >= 1 && positions[at] <= known->counts[0] && !seen[positions[at]]);
        seen[positions[at]] = 1;
        if (at == 0)
            continue;
        int order = order_of(known->octets, known->keys[0][positions[at - 1] - 1], known->keys[0][positions[at] - 1]);
        EXPECT(order < 0 || (order == 0 && positions[at - 1] < positions[at]));
    }
}

/* The slices that a call writes. */
struct report {
    struct lent store, partners, positions;
};

static void expect_report(const struct lists *lists, const struct known *known, struct report report, const uint64_t row[7]) {
    uint64_t due[3];
    refusal_due(lists, known, due);
    EXPECT(memcmp(row, due, sizeof due) == 0);
    int is_found = row[0] == 0;
    size_t numbers = is_found ? known->counts[0] * sizeof(uint32_t) : 0;
    expect_kept_after(report.store, is_found ? known->total : 0);
    expect_kept_after(report.partners, numbers);
    expect_kept_after(report.positions, numbers);
    if (!is_found) {
        expect_refusal(row, 7);
        return;
    }
    EXPECT(known->total == 0 || memcmp(report.store.at, known->octets, known->total) == 0);
    expect_pairs(lists, known, report.partners.at, row);
    expect_positions(known, report.positions.at);
}

/* ---- the calls */

/* Makes the call in one form, in one kind of memory. */
static void find_shared(const struct forms *forms, enum memory memory, const struct lists *lists, const struct known *known,
                        uint64_t row[7]) {
    const struct table *table = &lists->table;
    const struct list *list = lists->list;
    const struct rooms *rooms = &lists->rooms;
    memset(row, 0xA5, 7 * sizeof *row);
    struct lent first = lend(memory, FIRST, list[0].octets, list[0].length);
    struct lent second = lend(memory, SECOND, list[1].octets, list[1].length);
    struct lent entries = lend(memory, ENTRIES, table->entries, table->entries_length * sizeof(uint32_t));
    struct lent pool = lend(memory, POOL, table->pool, table->pool_length * sizeof(uint32_t));
    struct report report = {
        lend(memory, STORE, pattern, rooms->store),
        lend(memory, PARTNERS, pattern, rooms->partners * sizeof(uint32_t)),
        lend(memory, POSITIONS, pattern, rooms->positions * sizeof(uint32_t)),
    };
    int are_filled = forms->reads_pages && lists->collation == MZ_UNICODE_CASEMAP;
    struct pages pages = lend_pages(memory, lists->page_rooms, are_filled);
    struct lent answer = lend(memory, ANSWER, row, 7 * sizeof *row);
    forms->find_shared(lists->collation, first.at, first.size, second.at, second.size, entries.at, table->entries_length, pool.at,
                       table->pool_length, LENT(pages), report.store.at, report.store.size, report.partners.at, rooms->partners,
                       report.positions.at, rooms->positions, answer.at);
    memcpy(row, answer.at, answer.size);
    end_pages(pages, lists->collation, row[0]);
    EXPECT(is_kept(first, list[0].octets) && is_kept(second, list[1].octets));
    EXPECT(is_kept(entries, table->entries) && is_kept(pool, table->pool));
    expect_report(lists, known, report, row);
    const struct lent lent[] = {first, second, entries, pool, report.store, report.partners, report.positions, answer};
    for (size_t at = 0; at < sizeof lent / sizeof *lent; at++)
        give_back(lent[at]);
}

/* Both forms, where the header allows the one without the check of the table, and all kinds of memory give the same row. */
static void find_everywhere(const struct lists *lists, const struct known *known, uint64_t row[7]) {
    uint64_t again[7];
    int is_filled = known->verdict[0] == 0 && !are_short(lists->collation, lists->page_rooms);
    int is_allowed = lists->collation != MZ_UNICODE_CASEMAP || is_filled;
    for (enum memory memory = 0; memory < MEMORIES; memory++) {
        find_shared(&checked, memory, lists, known, memory == 0 ? row : again);
        EXPECT(memory == 0 || memcmp(row, again, sizeof again) == 0);
        if (!is_allowed)
            continue;
        find_shared(&accepted, memory, lists, known, again);
        EXPECT(memcmp(row, again, sizeof again) == 0);
    }
}

/* The lists exchanged, with room for every report, have as many equal pairs. */
static void expect_exchanged(struct lists *lists, struct known *known, const uint64_t row[7]) {
    static struct list list;
    uint64_t exchanged[7];
    list = lists->list[0];
    lists->list[0] = lists->list[1];
    lists->list[1] = list;
    learn(lists, known);
    lists->rooms = (struct rooms){known->total < LENT_MOST ? known->total : LENT_MOST, known->counts[0], known->counts[0]};
    find_shared(&checked, BEFORE_SHUT_PAGES, lists, known, exchanged);
    EXPECT(row[0] != 0 || (exchanged[3] == row[4] && exchanged[4] == row[3] && exchanged[5] == row[5]));
}

void fuzz_lists(const uint8_t *data, size_t size) {
    static const uint32_t collations[] = {3, 3, 3, 2, 2, 1, 0, 4};
    static struct lists lists;
    static struct known known;
    static struct stock stock;
    struct input input = {data, size};
    uint64_t row[7];
    stock.count = 0;
    lists.collation = collations[take_octet(&input) % 8];
    take_table(&input, &lists.table);
    /* rooms come before the lists, and need what is known of them: their octets are kept */
    const uint8_t rooms[] = {take_octet(&input), take_octet(&input), take_octet(&input)};
    for (int which = 0; which < 2; which++)
        take_list(&input, &lists.list[which], &stock);
    lists.page_rooms = take_page_rooms(&input);
    learn(&lists, &known);
    struct input kept = {rooms, sizeof rooms};
    lists.rooms.store = take_room(&kept, MZ_KEY_PER_OCTET_MOST * (lists.list[0].length + lists.list[1].length), known.total);
    lists.rooms.partners = take_room(&kept, known.counts[0] + 3, known.counts[0]);
    lists.rooms.positions = take_room(&kept, known.counts[0] + 3, known.counts[0]);
    find_everywhere(&lists, &known, row);
    int is_array = row[0] == MZ_REFUSED_LIST_ROOM && known.total <= lists.rooms.store;
    note(SHARED_ANSWERED, 16 * row[1] + (is_array ? ARRAY_ANSWERED : row[0]));
    expect_exchanged(&lists, &known, row);
}
