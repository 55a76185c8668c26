// What the benchmark asks of Mundeziwa and of each program beside it: one interface, so that all are timed by the same loops.
#ifndef BENCH_PEERS_H
#define BENCH_PEERS_H

#include <stdbool.h>
#include <stddef.h>
#include <stdint.h>
#include <string.h>

#ifdef __cplusplus
extern "C" {
#endif

// The longest text that is taken, in octets.
#define TEXT_MOST 4096
// The most octets of a key for each octet of its text, so that a buffer of this many times the text is never too short.
#define KEY_GROWTH 128
// How many pages of 64 code points there are.
#define PAGES 17408

struct text {
    const uint8_t *octets;
    size_t length;
};

struct buffer {
    uint8_t *octets;
    size_t length;
};

// The mapping table in the form of include/mundeziwa.h. Peers with tables of their own don't read it.
struct table {
    const uint32_t *entries;
    size_t entries_length;
    const uint32_t *pool;
    size_t pool_length;
    // The pages that were filled over it, PAGES numbers each; NULL until they are.
    const uint64_t *presence, *ranks;
};

// Room for a table that is being built.
struct table_room {
    uint32_t *entries;
    size_t entries_length;
    uint32_t *pool;
    size_t pool_length;
};

// A table that was built in a room and took so many numbers of it; its pages are not filled.
static inline struct table table_in(struct table_room room, size_t entries_used, size_t pool_used) {
    return (struct table){room.entries, entries_used, room.pool, pool_used, NULL, NULL};
}

// Room for the pages of a table: so many numbers each, of which PAGES are filled.
struct page_room {
    uint64_t *presence, *ranks;
    size_t length;
};

struct peer {
    const char *name;
    // Whether it works by the lent table, and so has to answer as Mundeziwa does.
    bool by_table;
    // The key of a text: in the buffer, or the text itself if that is no UTF-8. Its octets are NULL if the buffer is too short.
    struct text (*prepare)(const struct table *table, struct text text, struct buffer key);
    // Whether two texts have equal keys; both keys are left in their buffers.
    bool (*equal)(const struct table *table, struct text first, struct text second, struct buffer first_key,
                  struct buffer second_key);
    // The lookup count of the text that was prepared last; NULL if the peer keeps none.
    uint64_t (*lookups)(void);
    // Whether a table is accepted; NULL if the peer has no such check.
    bool (*check)(const struct table *table);
    // Fills the pages of a table, and answers whether it could; NULL if the peer has none.
    bool (*fill)(const struct table *table, struct page_room pages);
    // The key of a text by a call that checks the table first and then fills the pages; its octets are NULL if there is no room
    // for those. NULL if the peer has no such call.
    struct text (*prepare_checked)(const struct table *table, struct page_room pages, struct text text, struct buffer key);
    // Builds a table from lines of UnicodeData.txt; one with no entries if a line is refused. NULL if the peer builds none.
    struct table (*build)(struct text lines, struct table_room room);
};

extern const struct peer mundeziwa_peer, straight_peer, paged_peer, paged_shift_peer, second_peer, icu_peer, icu_casefold_peer,
    utf8proc_peer, unistring_peer;

// The key buffer that a text is prepared in: `growth` times as long as the text.
static inline struct buffer key_buffer(uint8_t *octets, struct text text, size_t growth) {
    return (struct buffer){octets, growth * text.length};
}

static inline bool same_octets(struct text first, struct text second) {
    return first.length == second.length && memcmp(first.octets, second.octets, first.length) == 0;
}

// The first line of a text without its line end; the text is moved past both.
static inline struct text take_line(struct text *rest) {
    const uint8_t *end = (const uint8_t *)memchr(rest->octets, '\n', rest->length);
    size_t length = end ? (size_t)(end - rest->octets) : rest->length;
    struct text line = {rest->octets, length};
    size_t taken = end ? length + 1 : length;
    rest->octets += taken;
    rest->length -= taken;
    return line;
}

#ifdef __cplusplus
}
#endif

#endif
