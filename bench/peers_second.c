// The second program (tests/second, in Rust), written for obviousness and not for speed. It keeps the table in a form of its own,
// which it makes once.
#include "peers.h"

#define UNICODE_CASEMAP 3

// The calls of bench/second.
struct verdict;
extern const struct verdict *second_examine(const uint32_t *entries, size_t entries_length, const uint32_t *pool,
                                            size_t pool_length);
extern void second_check_table(const uint32_t *entries, size_t entries_length, const uint32_t *pool, size_t pool_length,
                               uint64_t answer[3]);
extern void second_prepare(uint32_t collation, const uint8_t *text, size_t text_length, const struct verdict *verdict,
                           uint8_t *key, size_t key_length, uint64_t answer[7]);
extern void second_equal(uint32_t collation, const uint8_t *first, size_t first_length, const uint8_t *second,
                         size_t second_length, const struct verdict *verdict, uint8_t *first_key, size_t first_key_length,
                         uint8_t *second_key, size_t second_key_length, uint64_t answer[4]);
extern void second_add_line(uint64_t entries_used, uint64_t pool_used, uint64_t next, const uint8_t *line, size_t line_length,
                            uint32_t *entries, size_t entries_length, uint32_t *pool, size_t pool_length, uint64_t answer[6]);

// The verdict on the benchmark's one table.
static const struct verdict *verdict_on(const struct table *table) {
    static const struct verdict *verdict;
    if (!verdict) verdict = second_examine(table->entries, table->entries_length, table->pool, table->pool_length);
    return verdict;
}

static struct text prepare(const struct table *table, struct text text, struct buffer key) {
    uint64_t answer[7];
    second_prepare(UNICODE_CASEMAP, text.octets, text.length, verdict_on(table), key.octets, key.length, answer);
    if (answer[0] != 0) return (struct text){NULL, 0};
    return (struct text){answer[6] ? key.octets : text.octets, answer[5]};
}

static bool equal(const struct table *table, struct text first, struct text second, struct buffer first_key,
                  struct buffer second_key) {
    uint64_t answer[4];
    second_equal(UNICODE_CASEMAP, first.octets, first.length, second.octets, second.length, verdict_on(table), first_key.octets,
                 first_key.length, second_key.octets, second_key.length, answer);
    return answer[3] == 1;
}

static bool check(const struct table *table) {
    uint64_t answer[3];
    second_check_table(table->entries, table->entries_length, table->pool, table->pool_length, answer);
    return answer[0] == 0;
}

static struct table build(struct text lines, struct table_room room) {
    uint64_t answer[6] = {0};
    while (lines.length > 0) {
        struct text line = take_line(&lines);
        second_add_line(answer[3], answer[4], answer[5], line.octets, line.length, room.entries, room.entries_length, room.pool,
                        room.pool_length, answer);
        if (answer[0] != 0) return table_in(room, 0, 0);
    }
    return table_in(room, 4 * answer[3], answer[4]);
}

const struct peer second_peer = {
    .name = "second", .by_table = true, .prepare = prepare, .equal = equal, .check = check, .build = build};
