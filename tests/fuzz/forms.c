#include "forms.h"
#include "mundeziwa_accepted.h"

static void prepare(uint32_t collation, const uint8_t *text, size_t text_length, const uint32_t *entries, size_t entries_length,
                    const uint32_t *pool, size_t pool_length, uint64_t *presence, size_t presence_length, uint64_t *ranks,
                    size_t ranks_length, uint8_t *key, size_t key_length, uint64_t *answer) {
    mz_prepare_accepted(collation, text, text_length, entries, entries_length, pool, pool_length, presence, presence_length, ranks,
                        ranks_length, key, key_length, answer);
}

#define COMPARE(name, call)                                                                                                       \
    static void name(uint32_t collation, const uint8_t *first, size_t first_length, const uint8_t *second, size_t second_length,  \
                     const uint32_t *entries, size_t entries_length, const uint32_t *pool, size_t pool_length,                    \
                     uint64_t *presence, size_t presence_length, uint64_t *ranks, size_t ranks_length, uint8_t *first_key,        \
                     size_t first_key_length, uint8_t *second_key, size_t second_key_length, uint64_t *answer) {                  \
        call(collation, first, first_length, second, second_length, entries, entries_length, pool, pool_length, presence,         \
             presence_length, ranks, ranks_length, first_key, first_key_length, second_key, second_key_length, answer);           \
    }

COMPARE(equal, mz_equal_accepted)
COMPARE(order, mz_order_accepted)
COMPARE(substring, mz_substring_accepted)

static void find_shared(uint32_t collation, const uint8_t *first, size_t first_length, const uint8_t *second, size_t second_length,
                        const uint32_t *entries, size_t entries_length, const uint32_t *pool, size_t pool_length, uint64_t *presence,
                        size_t presence_length, uint64_t *ranks, size_t ranks_length, uint8_t *store, size_t store_length,
                        uint32_t *partners, size_t partners_length, uint32_t *positions, size_t positions_length, uint64_t *answer) {
    mz_find_shared_accepted(collation, first, first_length, second, second_length, entries, entries_length, pool, pool_length,
                            presence, presence_length, ranks, ranks_length, store, store_length, partners, partners_length,
                            positions, positions_length, answer);
}

const struct forms checked = {0, mz_prepare, mz_equal, mz_order, mz_substring, mz_find_shared};
const struct forms accepted = {1, prepare, equal, order, substring, find_shared};
