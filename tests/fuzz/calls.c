/* A target for libFuzzer over the C interface: every call of both headers, on whatever the fuzzer gives (input.h says how it is cut).
 * It knows no right answer; it checks what must hold between the answers, and that nothing outside the lent slices is touched. */
#include "expect.h"
#include "mundeziwa.h"
#include <string.h>

/* Counters that libFuzzer reads beside those of the code: it keeps an input that raises a new one. */
#define KINDS 36
#define NUMBERS 64
__attribute__((section("__libfuzzer_extra_counters"))) static uint8_t counters[KINDS * NUMBERS];

void note(unsigned kind, uint64_t number) {
    uint64_t capped = number < NUMBERS ? number : NUMBERS - 1;
    counters[(kind % KINDS) * NUMBERS + capped]++;
}

void note_size(unsigned kind, uint64_t size) {
    uint64_t digits = 0;
    for (; size > 0; size /= 2)
        digits++;
    note(kind, digits);
}

int is_kept(struct lent lent, const void *content) {
    return lent.size == 0 || memcmp(lent.at, content, lent.size) == 0;
}

void expect_refusal(const uint64_t *row, size_t length) {
    EXPECT(row[0] != 0);
    EXPECT(row[1] <= 2);
    for (size_t field = 3; field < length; field++)
        EXPECT(row[field] == 0);
}

int LLVMFuzzerInitialize(int *argc, char ***argv);
int LLVMFuzzerTestOneInput(const uint8_t *data, size_t size);

int LLVMFuzzerInitialize(int *argc, char ***argv) {
    (void)argc;
    (void)argv;
    EXPECT(mz_interface() == MZ_INTERFACE);
    fill_pattern();
    return 0;
}

int LLVMFuzzerTestOneInput(const uint8_t *data, size_t size) {
    if (size == 0)
        return 0;
    if (data[0] % 8 == 5)
        fuzz_records(data + 1, size - 1);
    else if (data[0] % 8 == 6)
        fuzz_lists(data + 1, size - 1);
    else if (data[0] % 8 == 7)
        fuzz_many(data + 1, size - 1);
    else if (data[0] % 4 == 0)
        fuzz_lines(data + 1, size - 1);
    else
        fuzz_texts(data + 1, size - 1);
    return 0;
}
