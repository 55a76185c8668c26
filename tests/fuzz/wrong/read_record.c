/* mz_read_record with a mistake, for tests/fuzz.sh to see the target find it. The library's own is named proved_mz_read_record
 * there; WRONG is the mistake. */
#include "mundeziwa.h"

#define READS_AFTER_RECORDS 1
#define ANSWERS_ON_REFUSAL 2
#define STARTS_AT_THE_COLLATION 3
#define TAKES_A_CUT_RECORD 4
#define TAKES_FLAG_0_UNDER_1 5

void proved_mz_read_record(const uint8_t *records, size_t records_length, uint64_t position, uint64_t answer[9]);

static volatile uint64_t read;

void mz_read_record(const uint8_t *records, size_t records_length, uint64_t position, uint64_t answer[9]) {
    if (WRONG == READS_AFTER_RECORDS && position < records_length && records_length - position < 4)
        read = records[position + 3];
    proved_mz_read_record(records, records_length, position, answer);
    if (WRONG == ANSWERS_ON_REFUSAL && answer[0] == MZ_REFUSED_RECORD_BODY)
        answer[3] = MZ_KIND_TEXT;
    if (WRONG == STARTS_AT_THE_COLLATION && answer[3] == MZ_KIND_KEY)
        answer[7] -= 4;
    if (WRONG == TAKES_A_CUT_RECORD && answer[0] == MZ_REFUSED_RECORD_LENGTH && position < records_length &&
        records_length - position >= 6 && records[position + 4] == MZ_KIND_TEXT) {
        answer[0] = 0;
        answer[3] = MZ_KIND_TEXT;
        answer[7] = position + 6;
        answer[8] = records_length;
    }
    if (WRONG == TAKES_FLAG_0_UNDER_1 && answer[0] == MZ_REFUSED_RECORD_BODY && records[position + 4] == MZ_KIND_KEY &&
        records[position + 6] == MZ_OCTET && records[position + 7] == 0 && records[position] == 6 + records[position + 8]) {
        answer[0] = 0;
        answer[3] = MZ_KIND_KEY;
        answer[4] = MZ_OCTET;
        answer[6] = records[position + 8];
        answer[7] = position + 10;
        answer[8] = answer[7] + answer[6];
    }
}
