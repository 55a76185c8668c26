/* mz_prepare_many with a mistake, for tests/fuzz.sh to see the target find it. The library's own is named proved_mz_prepare_many
 * there; WRONG is the mistake. */
#include "mundeziwa.h"

#define READS_AFTER_OCTETS 1
#define READS_AFTER_ENDS 2
#define READS_AFTER_VALID 3
#define WRITES_ON_REFUSAL 4
#define WRITES_AFTER_KEY_ENDS 5
#define KEY_ENDS_ARE_STARTS 6
#define VALID_REVERSED 7
#define NO_TEXTS_SKIP_TABLE 8
#define FAULTS_COUNT_FROM_1 9
#define RANKS_COUNT_THE_PAGE 10

void proved_mz_prepare_many(uint32_t collation, const uint8_t *octets, size_t octets_length, const size_t *ends,
                            size_t ends_length, const uint32_t *entries, size_t entries_length, const uint32_t *pool,
                            size_t pool_length, uint64_t *presence, size_t presence_length, uint64_t *ranks, size_t ranks_length,
                            uint8_t *store, size_t store_length, size_t *key_ends, size_t key_ends_length, uint8_t *valid,
                            size_t valid_length, uint64_t answer[4]);

static volatile uint64_t read;

static void spoil(size_t texts, size_t *key_ends, size_t key_ends_length, uint8_t *valid) {
    if (WRONG == WRITES_AFTER_KEY_ENDS && texts < key_ends_length)
        key_ends[texts] = 0;
    for (size_t at = texts; WRONG == KEY_ENDS_ARE_STARTS && at-- > 0;)
        key_ends[at] = at == 0 ? 0 : key_ends[at - 1];
    for (size_t at = 0; WRONG == VALID_REVERSED && at < texts; at++)
        valid[at] = !valid[at];
}

static int is_filled(uint32_t collation, const uint64_t answer[4]) {
    return collation == MZ_UNICODE_CASEMAP && (answer[0] == 0 || answer[0] == MZ_REFUSED_MANY_ROOM);
}

void mz_prepare_many(uint32_t collation, const uint8_t *octets, size_t octets_length, const size_t *ends, size_t ends_length,
                     const uint32_t *entries, size_t entries_length, const uint32_t *pool, size_t pool_length, uint64_t *presence,
                     size_t presence_length, uint64_t *ranks, size_t ranks_length, uint8_t *store, size_t store_length,
                     size_t *key_ends, size_t key_ends_length, uint8_t *valid, size_t valid_length, uint64_t answer[4]) {
    if (WRONG == READS_AFTER_OCTETS)
        read = octets[octets_length];
    if (WRONG == READS_AFTER_ENDS)
        read = ends[ends_length];
    if (WRONG == READS_AFTER_VALID)
        read = valid[valid_length];
    proved_mz_prepare_many(collation, octets, octets_length, ends, ends_length, entries, entries_length, pool, pool_length,
                           presence, presence_length, ranks, ranks_length, store, store_length, key_ends, key_ends_length, valid,
                           valid_length, answer);
    if (answer[0] == 0)
        spoil(ends_length, key_ends, key_ends_length, valid);
    for (size_t page = 0; WRONG == RANKS_COUNT_THE_PAGE && is_filled(collation, answer) && page < MZ_PAGES; page++)
        ranks[page] += (uint64_t)__builtin_popcountll(presence[page]);
    if (WRONG == WRITES_ON_REFUSAL && answer[0] == MZ_REFUSED_MANY_ROOM && store_length > 0)
        store[0] = 0;
    if (WRONG == NO_TEXTS_SKIP_TABLE && ends_length == 0 && answer[0] >= MZ_REFUSED_TABLE_SIZE)
        answer[0] = answer[2] = 0;
    if (WRONG == FAULTS_COUNT_FROM_1 && answer[0] == MZ_REFUSED_END)
        answer[2]++;
}
