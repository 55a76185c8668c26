/* mz_write_text with a mistake, for tests/fuzz.sh to see the target find it. The library's own is named proved_mz_write_text
 * there; WRONG is the mistake. */
#include "mundeziwa.h"

#define ANSWERS_WITHOUT_THE_LENGTH 1
#define WRITES_AFTER_THE_RECORD 2

void proved_mz_write_text(const uint8_t *text, size_t text_length, uint8_t *records, size_t records_length, uint64_t position,
                          uint64_t answer[4]);

void mz_write_text(const uint8_t *text, size_t text_length, uint8_t *records, size_t records_length, uint64_t position,
                   uint64_t answer[4]) {
    proved_mz_write_text(text, text_length, records, records_length, position, answer);
    if (answer[0] != 0)
        return;
    if (WRONG == WRITES_AFTER_THE_RECORD && answer[3] < records_length)
        records[answer[3]] = (uint8_t)(records[answer[3]] + 1);
    if (WRONG == ANSWERS_WITHOUT_THE_LENGTH)
        answer[3] -= 4;
}
