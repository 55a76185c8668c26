/* Mundeziwa: the calls on texts and lists WITHOUT THE CHECK OF THE TABLE, for callers that keep one table for many texts.
 *
 * UNDER MZ_UNICODE_CASEMAP THEY MUST BE GIVEN A TABLE THAT THE SAME LIBRARY HAS ACCEPTED, AND THE PAGES THAT IT HAS FILLED OVER
 * THAT TABLE, WITH NO NUMBER OF entries, pool, presence OR ranks CHANGED SINCE. ON ANY OTHER TABLE OR PAGES THE BEHAVIOUR IS
 * UNDEFINED: THEY MAY READ OR WRITE OUTSIDE THE SLICES, OR NEVER RETURN. (Another library may check less: earlier ones took
 * entries for Hangul syllables.)
 *
 * One call of mundeziwa.h does both: any that is lent pages, under MZ_UNICODE_CASEMAP, where its answer[0] is 0 or 8. The least of
 * them prepares the empty text; where answer[0] is 0, the table is accepted and the pages are filled:
 *
 *     mz_prepare(MZ_UNICODE_CASEMAP, text, 0, entries, entries_length, pool, pool_length,
 *                presence, MZ_PAGES, ranks, MZ_PAGES, key, 0, answer);
 *
 * (mz_check_table by itself fills no pages.) The calls below only read table and pages: any number of threads may make them over
 * the same ones at once, as long as none lends these pages to a call of mundeziwa.h, which would write them.
 *
 * Over such a table and pages each answers exactly as its twin in mundeziwa.h, which says what the parameters and the answer rows
 * are. The refusals are those of the twin but for 3 to 7 and 15. Under the other collations neither table nor pages are read, and
 * any will do.
 */
#ifndef MUNDEZIWA_ACCEPTED_H
#define MUNDEZIWA_ACCEPTED_H

#include "mundeziwa.h"

#ifdef __cplusplus
extern "C" {
#endif

void mz_prepare_accepted(uint32_t collation,
                         const uint8_t *text, size_t text_length,
                         const uint32_t *entries, size_t entries_length,
                         const uint32_t *pool, size_t pool_length,
                         const uint64_t *presence, size_t presence_length,
                         const uint64_t *ranks, size_t ranks_length,
                         uint8_t *key, size_t key_length,
                         uint64_t answer[7]);

void mz_equal_accepted(uint32_t collation,
                       const uint8_t *first, size_t first_length,
                       const uint8_t *second, size_t second_length,
                       const uint32_t *entries, size_t entries_length,
                       const uint32_t *pool, size_t pool_length,
                       const uint64_t *presence, size_t presence_length,
                       const uint64_t *ranks, size_t ranks_length,
                       uint8_t *first_key, size_t first_key_length,
                       uint8_t *second_key, size_t second_key_length,
                       uint64_t answer[4]);

void mz_order_accepted(uint32_t collation,
                       const uint8_t *first, size_t first_length,
                       const uint8_t *second, size_t second_length,
                       const uint32_t *entries, size_t entries_length,
                       const uint32_t *pool, size_t pool_length,
                       const uint64_t *presence, size_t presence_length,
                       const uint64_t *ranks, size_t ranks_length,
                       uint8_t *first_key, size_t first_key_length,
                       uint8_t *second_key, size_t second_key_length,
                       uint64_t answer[4]);

void mz_substring_accepted(uint32_t collation,
                           const uint8_t *first, size_t first_length,
                           const uint8_t *second, size_t second_length,
                           const uint32_t *entries, size_t entries_length,
                           const uint32_t *pool, size_t pool_length,
                           const uint64_t *presence, size_t presence_length,
                           const uint64_t *ranks, size_t ranks_length,
                           uint8_t *first_key, size_t first_key_length,
                           uint8_t *second_key, size_t second_key_length,
                           uint64_t answer[8]);

void mz_find_shared_accepted(uint32_t collation,
                             const uint8_t *first, size_t first_length,
                             const uint8_t *second, size_t second_length,
                             const uint32_t *entries, size_t entries_length,
                             const uint32_t *pool, size_t pool_length,
                             const uint64_t *presence, size_t presence_length,
                             const uint64_t *ranks, size_t ranks_length,
                             uint8_t *store, size_t store_length,
                             uint32_t *partners, size_t partners_length,
                             uint32_t *positions, size_t positions_length,
                             uint64_t answer[7]);

#ifdef __cplusplus
}
#endif

#endif
