/* mz_order with a mistake, for tests/fuzz.sh to see the target find it. The library's own is named proved_mz_order there; WRONG is the
 * mistake. */
#include "mundeziwa.h"

#define READS_AFTER_TEXT 1
#define READS_BEFORE_TEXT 2
#define READS_AFTER_POOL 3
#define READS_AFTER_KEY 4
#define WRITES_ON_REFUSAL 5
#define ANSWERS_ON_REFUSAL 6
#define PREFIX_IS_EQUAL 7
#define READS_AFTER_RANKS 8
#define WRITES_BEYOND_PRESENCE 9

void proved_mz_order(uint32_t collation, const uint8_t *first, size_t first_length, const uint8_t *second, size_t second_length,
                     const uint32_t *entries, size_t entries_length, const uint32_t *pool, size_t pool_length, uint64_t *presence,
                     size_t presence_length, uint64_t *ranks, size_t ranks_length, uint8_t *first_key, size_t first_key_length,
                     uint8_t *second_key, size_t second_key_length, uint64_t answer[4]);

static volatile uint64_t read;

void mz_order(uint32_t collation, const uint8_t *first, size_t first_length, const uint8_t *second, size_t second_length,
              const uint32_t *entries, size_t entries_length, const uint32_t *pool, size_t pool_length, uint64_t *presence,
              size_t presence_length, uint64_t *ranks, size_t ranks_length, uint8_t *first_key, size_t first_key_length,
              uint8_t *second_key, size_t second_key_length, uint64_t answer[4]) {
    if (WRONG == READS_AFTER_TEXT)
        read = first[first_length];
    if (WRONG == READS_BEFORE_TEXT)
        read = *(second - 1);
    if (WRONG == READS_AFTER_POOL)
        read = pool[pool_length];
    if (WRONG == READS_AFTER_KEY)
        read = second_key[second_key_length];
    if (WRONG == READS_AFTER_RANKS)
        read = ranks[ranks_length];
    proved_mz_order(collation, first, first_length, second, second_length, entries, entries_length, pool, pool_length, presence,
                    presence_length, ranks, ranks_length, first_key, first_key_length, second_key, second_key_length, answer);
    if (WRONG == WRITES_ON_REFUSAL && answer[0] == MZ_REFUSED_KEY_ROOM && first_key_length > 0)
        first_key[0] = 0;
    if (WRONG == WRITES_BEYOND_PRESENCE && answer[0] == 0 && presence_length > MZ_PAGES)
        presence[MZ_PAGES] = 0;
    if (WRONG == ANSWERS_ON_REFUSAL && answer[0] != 0)
        answer[3] = 2;
    if (WRONG == PREFIX_IS_EQUAL && answer[0] == 0 && first_length == 0)
        answer[3] = 2;
}
