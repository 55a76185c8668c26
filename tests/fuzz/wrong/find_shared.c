/* mz_find_shared with a mistake, for tests/fuzz.sh to see the target find it. The library's own is named proved_mz_find_shared
 * there; WRONG is the mistake. */
#include "mundeziwa.h"

#define READS_AFTER_SECOND_LIST 1
#define READS_AFTER_POSITIONS 2
#define WRITES_ON_REFUSAL 3
#define WRITES_AFTER_PARTNERS 4
#define PARTNERS_FROM_0 5
#define TIES_REVERSED 6
#define PAIRS_ARE_NAMES 7
#define EMPTY_LISTS_SKIP_TABLE 8
#define PLACE_OF_THE_OTHER_LIST 9
#define FILLS_SHORT_PAGES 10

void proved_mz_find_shared(uint32_t collation, const uint8_t *first, size_t first_length, const uint8_t *second,
                           size_t second_length, const uint32_t *entries, size_t entries_length, const uint32_t *pool,
                           size_t pool_length, uint64_t *presence, size_t presence_length, uint64_t *ranks, size_t ranks_length,
                           uint8_t *store, size_t store_length, uint32_t *partners, size_t partners_length, uint32_t *positions,
                           size_t positions_length, uint64_t answer[7]);

static volatile uint64_t read;

/* Two names with the same partner are equal: the later one comes first. */
static void reverse_ties(const uint32_t *partners, uint32_t *positions, uint64_t names) {
    for (uint64_t at = 1; at < names; at++) {
        uint32_t one = positions[at - 1], other = positions[at];
        if (partners[one - 1] != 0 && partners[one - 1] == partners[other - 1]) {
            positions[at - 1] = other;
            positions[at] = one;
        }
    }
}

static void spoil_report(uint32_t *partners, size_t partners_length, uint32_t *positions, uint64_t answer[7]) {
    if (WRONG == WRITES_AFTER_PARTNERS && answer[3] < partners_length)
        partners[answer[3]] = 0;
    if (WRONG == TIES_REVERSED)
        reverse_ties(partners, positions, answer[3]);
    for (uint64_t at = 0; WRONG == PARTNERS_FROM_0 && at < answer[3]; at++)
        partners[at] -= partners[at] != 0;
    if (WRONG == PAIRS_ARE_NAMES)
        answer[5] = answer[6];
}

void mz_find_shared(uint32_t collation, const uint8_t *first, size_t first_length, const uint8_t *second, size_t second_length,
                    const uint32_t *entries, size_t entries_length, const uint32_t *pool, size_t pool_length, uint64_t *presence,
                    size_t presence_length, uint64_t *ranks, size_t ranks_length, uint8_t *store, size_t store_length,
                    uint32_t *partners, size_t partners_length, uint32_t *positions, size_t positions_length, uint64_t answer[7]) {
    if (WRONG == READS_AFTER_SECOND_LIST)
        read = second[second_length];
    if (WRONG == READS_AFTER_POSITIONS)
        read = positions[positions_length];
    proved_mz_find_shared(collation, first, first_length, second, second_length, entries, entries_length, pool, pool_length,
                          presence, presence_length, ranks, ranks_length, store, store_length, partners, partners_length,
                          positions, positions_length, answer);
    if (answer[0] == 0)
        spoil_report(partners, partners_length, positions, answer);
    if (WRONG == WRITES_ON_REFUSAL && answer[0] == MZ_REFUSED_LIST_ROOM && store_length > 0)
        store[0] = 0;
    if (WRONG == FILLS_SHORT_PAGES && answer[0] == MZ_REFUSED_PAGES && presence_length > 0)
        presence[0] = 0;
    if (WRONG == PLACE_OF_THE_OTHER_LIST && answer[0] == MZ_REFUSED_NAME_COUNT)
        answer[1] = 3 - answer[1];
    if (WRONG == EMPTY_LISTS_SKIP_TABLE && first_length + second_length == 0 && answer[0] >= MZ_REFUSED_TABLE_SIZE)
        answer[0] = answer[2] = 0;
}
