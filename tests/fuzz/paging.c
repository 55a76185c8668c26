#include "paging.h"
#include "expect.h"
#include <string.h>

uint64_t learnt_presence[MZ_PAGES], learnt_ranks[MZ_PAGES];

struct page_rooms take_page_rooms(struct input *input) {
    static const size_t rooms[] = {MZ_PAGES + 2, MZ_PAGES, MZ_PAGES - 1, 0};
    uint8_t octet = take_octet(input);
    return (struct page_rooms){rooms[octet % 4], rooms[octet / 4 % 4]};
}

int are_short(uint32_t collation, struct page_rooms rooms) {
    return collation == MZ_UNICODE_CASEMAP && (rooms.presence < MZ_PAGES || rooms.ranks < MZ_PAGES);
}

static uint64_t count_ones(uint64_t bits) {
    return (uint64_t)__builtin_popcountll(bits);
}

/* A page's number counts the ones of all pages before it, and each entry is found by its bit: so no other bit is one. */
static void expect_learnt(const struct table *table) {
    uint64_t before = 0, entries = table->entries_length / MZ_ENTRY_WIDTH;
    for (size_t page = 0; page < MZ_PAGES; page++) {
        EXPECT(learnt_ranks[page] == before);
        before += count_ones(learnt_presence[page]);
    }
    EXPECT(before == entries);
    for (uint64_t entry = 0; entry < entries; entry++) {
        uint32_t code_point = table->entries[MZ_ENTRY_WIDTH * entry];
        uint64_t bits = learnt_presence[code_point / 64], bit = (uint64_t)1 << code_point % 64;
        EXPECT((bits & bit) != 0);
        EXPECT(learnt_ranks[code_point / 64] + count_ones(bits & (bit - 1)) == entry);
    }
}

int learn_pages(const struct table *table) {
    uint8_t nothing[1];
    uint64_t row[7];
    mz_prepare(MZ_UNICODE_CASEMAP, nothing, 0, table->entries, table->entries_length, table->pool, table->pool_length, LEARNT,
               nothing, 0, row);
    if (row[0] == 0)
        expect_learnt(table);
    return row[0] == 0;
}

/* A slice that holds the pattern, or pages and then the pattern. So large a block of its own for each call would take most of the
 * time, and shut pages find as much. */
static struct lent lend_slice(enum memory memory, enum slot slot, size_t length, const uint64_t *filled) {
    memory = memory == OWN_BLOCK ? BEFORE_SHUT_PAGES : memory;
    struct lent lent = lend(memory, slot, pattern, length * sizeof(uint64_t));
    if (filled != NULL)
        memcpy(lent.at, filled, sizeof learnt_presence);
    return lent;
}

struct pages lend_pages(enum memory memory, struct page_rooms rooms, int are_filled) {
    return (struct pages){
        lend_slice(memory, PRESENCE, rooms.presence, are_filled ? learnt_presence : NULL),
        lend_slice(memory, RANKS, rooms.ranks, are_filled ? learnt_ranks : NULL),
        are_filled,
    };
}

static void end_slice(struct lent lent, const uint64_t *filled) {
    size_t written = filled != NULL ? sizeof learnt_presence : 0;
    EXPECT(written <= lent.size);
    EXPECT(written == 0 || memcmp(lent.at, filled, written) == 0);
    EXPECT(lent.size == written || memcmp((uint8_t *)lent.at + written, pattern + written, lent.size - written) == 0);
    give_back(lent);
}

void end_pages(struct pages pages, uint32_t collation, uint64_t number) {
    int is_after = number == 0 || number == MZ_REFUSED_KEY_ROOM;
    int are_filled = pages.are_filled || (collation == MZ_UNICODE_CASEMAP && is_after);
    end_slice(pages.presence, are_filled ? learnt_presence : NULL);
    end_slice(pages.ranks, are_filled ? learnt_ranks : NULL);
}
