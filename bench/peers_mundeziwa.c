// Mundeziwa by its C calls, on a table that was accepted and pages that were filled.
#include "peers.h"
#include "../include/mundeziwa_accepted.h"

_Static_assert(PAGES == MZ_PAGES, "other pages than the library's");

static uint64_t last_lookups;

// The key that an answer tells of.
static struct text told_key(const uint64_t answer[7], struct text text, struct buffer key) {
    if (answer[0] != 0) return (struct text){NULL, 0};
    return (struct text){answer[6] ? key.octets : text.octets, answer[5]};
}

static struct text prepare(const struct table *table, struct text text, struct buffer key) {
    uint64_t answer[7];
    mz_prepare_accepted(MZ_UNICODE_CASEMAP, text.octets, text.length, table->entries, table->entries_length, table->pool,
                        table->pool_length, table->presence, PAGES, table->ranks, PAGES, key.octets, key.length, answer);
    last_lookups = answer[4];
    return told_key(answer, text, key);
}

static uint64_t lookups(void) {
    return last_lookups;
}

static bool equal(const struct table *table, struct text first, struct text second, struct buffer first_key,
                  struct buffer second_key) {
    uint64_t answer[4];
    mz_equal_accepted(MZ_UNICODE_CASEMAP, first.octets, first.length, second.octets, second.length, table->entries,
                      table->entries_length, table->pool, table->pool_length, table->presence, PAGES, table->ranks, PAGES,
                      first_key.octets, first_key.length, second_key.octets, second_key.length, answer);
    return answer[3] == 1;
}

static bool check(const struct table *table) {
    uint64_t answer[3];
    mz_check_table(table->entries, table->entries_length, table->pool, table->pool_length, answer);
    return answer[0] == 0;
}

static struct text prepare_checked(const struct table *table, struct page_room pages, struct text text, struct buffer key) {
    uint64_t answer[7];
    mz_prepare(MZ_UNICODE_CASEMAP, text.octets, text.length, table->entries, table->entries_length, table->pool,
               table->pool_length, pages.presence, pages.length, pages.ranks, pages.length, key.octets, key.length, answer);
    return told_key(answer, text, key);
}

// By the least of the public calls, which checks the table too.
static bool fill(const struct table *table, struct page_room pages) {
    uint8_t none[1] = {0};
    return prepare_checked(table, pages, (struct text){none, 0}, (struct buffer){none, 0}).octets != NULL;
}

static struct table build(struct text lines, struct table_room room) {
    uint64_t answer[6] = {0};
    while (lines.length > 0) {
        struct text line = take_line(&lines);
        mz_add_line(answer[3], answer[4], answer[5], line.octets, line.length, room.entries, room.entries_length, room.pool,
                    room.pool_length, answer);
        if (answer[0] != 0) return table_in(room, 0, 0);
    }
    return table_in(room, 4 * answer[3], answer[4]);
}

const struct peer mundeziwa_peer = {.name = "mundeziwa",
                                    .by_table = true,
                                    .prepare = prepare,
                                    .equal = equal,
                                    .lookups = lookups,
                                    .check = check,
                                    .fill = fill,
                                    .prepare_checked = prepare_checked,
                                    .build = build};
