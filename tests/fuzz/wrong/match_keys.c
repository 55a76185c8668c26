/* mz_match_keys with a mistake, for tests/fuzz.sh to see the target find it. The library's own is named proved_mz_match_keys
 * there; WRONG is the mistake. */
#include "mundeziwa.h"

#define READS_AFTER_STORE 1
#define READS_AFTER_PARTNERS 2
#define WRITES_ON_REFUSAL 3
#define WRITES_AFTER_ROW 4
#define TIES_REVERSED 5
#define LAST_PLACE_REPEATS 6
#define PARTNERS_AMONG_ALL_KEYS 7
#define PAIRS_ARE_NAMES 8
#define TOO_MANY_FIRST_NAMES_TAKEN 9

void proved_mz_match_keys(const uint8_t *store, size_t store_length, const size_t *ends, size_t ends_length, size_t first_names,
                          uint32_t *row, size_t row_length, uint32_t *repeats, size_t repeats_length, uint32_t *partners,
                          size_t partners_length, uint64_t answer[5]);

static volatile uint64_t read;

static void spoil(size_t keys, size_t first_names, uint32_t *row, size_t row_length, uint32_t *repeats, uint32_t *partners,
                  uint64_t answer[5]) {
    if (WRONG == WRITES_AFTER_ROW && keys < row_length)
        row[keys] = 0;
    for (size_t at = 0; WRONG == TIES_REVERSED && at + 1 < keys; at++) {
        uint32_t one = row[at];
        row[at] = repeats[at] == 1 ? row[at + 1] : one;
        row[at + 1] = repeats[at] == 1 ? one : row[at + 1];
    }
    if (WRONG == LAST_PLACE_REPEATS && keys > 0)
        repeats[keys - 1] = 1;
    for (size_t at = 0; WRONG == PARTNERS_AMONG_ALL_KEYS && at < first_names; at++)
        partners[at] += partners[at] != 0 ? (uint32_t)first_names : 0;
    if (WRONG == PAIRS_ARE_NAMES)
        answer[3] = answer[4];
}

void mz_match_keys(const uint8_t *store, size_t store_length, const size_t *ends, size_t ends_length, size_t first_names,
                   uint32_t *row, size_t row_length, uint32_t *repeats, size_t repeats_length, uint32_t *partners,
                   size_t partners_length, uint64_t answer[5]) {
    if (WRONG == READS_AFTER_STORE)
        read = store[store_length];
    if (WRONG == READS_AFTER_PARTNERS)
        read = partners[partners_length];
    if (WRONG == TOO_MANY_FIRST_NAMES_TAKEN && first_names == ends_length + 1)
        first_names = ends_length;
    proved_mz_match_keys(store, store_length, ends, ends_length, first_names, row, row_length, repeats, repeats_length, partners,
                         partners_length, answer);
    if (answer[0] == 0)
        spoil(ends_length, first_names, row, row_length, repeats, partners, answer);
    if (WRONG == WRITES_ON_REFUSAL && answer[0] == MZ_REFUSED_MANY_ROOM && row_length > 0)
        row[0] = 0;
}
