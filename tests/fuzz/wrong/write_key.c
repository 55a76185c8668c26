/* mz_write_key with a mistake, for tests/fuzz.sh to see the target find it. The library's own is named proved_mz_write_key
 * there; WRONG is the mistake. */
#include "mundeziwa.h"

#define WRITES_ON_REFUSAL 1
#define COLLATION_OF_ONE_OCTET 2
#define ROOM_BEFORE_BODY 3

void proved_mz_write_key(uint32_t collation, uint64_t valid, uint64_t text_length, const uint8_t *key, size_t key_length,
                         uint8_t *records, size_t records_length, uint64_t position, uint64_t answer[4]);

void mz_write_key(uint32_t collation, uint64_t valid, uint64_t text_length, const uint8_t *key, size_t key_length,
                  uint8_t *records, size_t records_length, uint64_t position, uint64_t answer[4]) {
    if (WRONG == COLLATION_OF_ONE_OCTET)
        collation %= 256;
    proved_mz_write_key(collation, valid, text_length, key, key_length, records, records_length, position, answer);
    if (WRONG == WRITES_ON_REFUSAL && answer[0] == MZ_REFUSED_RECORD_ROOM && position < records_length)
        records[position] = (uint8_t)(records[position] + 1);
    if (WRONG == ROOM_BEFORE_BODY && answer[0] == MZ_REFUSED_RECORD_BODY && position >= records_length) {
        answer[0] = MZ_REFUSED_RECORD_ROOM;
        answer[2] = 10 + key_length;
    }
}
