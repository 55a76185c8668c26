/* The C interface as a C program sees it: every call of both headers, over table T of document 01, and on records and lists by
 * document 02, and on many texts by the header. Exits 1 at the first answer that is not the documents'. */
#include "mundeziwa.h"
#include "mundeziwa_accepted.h"
#include <stdio.h>
#include <stdlib.h>
#include <string.h>

#define COUNT(array) (sizeof(array) / sizeof *(array))

/* Table T: code point, titlecase, start, count. */
static const uint32_t entries[] = {
    0x0061, 0x0041, 0,  0, 0x0066, 0x0046, 0,  0, 0x0069, 0x0049, 0,  0, 0x007A, 0x005A, 0, 0, 0x00C9, 0x00C9, 0,  2, 0x00E9, 0x00C9, 2, 2,
    0x017D, 0x017D, 4,  2, 0x017E, 0x017D, 6,  2, 0x01C4, 0x01C5, 8,  2, 0x01C5, 0x01C5, 10, 2, 0x01C6, 0x01C5, 12, 2, 0xFB01, 0xFB01, 14, 2,
};
static const uint32_t pool[] = {0x45, 0x301, 0x65, 0x301, 0x5A, 0x30C, 0x7A, 0x30C, 0x44, 0x17D, 0x44, 0x17E, 0x64, 0x17E, 0x66, 0x69};

/* The page slices, each one number longer than what is filled. */
static uint64_t presence[MZ_PAGES + 1], ranks[MZ_PAGES + 1];

#define TABLE entries, COUNT(entries), pool, COUNT(pool)
#define PAGES presence, COUNT(presence), ranks, COUNT(ranks)
#define SHORT_PRESENCE presence, MZ_PAGES - 1, ranks, COUNT(ranks)
#define SHORT_RANKS presence, COUNT(presence), ranks, MZ_PAGES - 1
#define TEXT(octets) (const uint8_t *)(octets), sizeof(octets) - 1

static void expect(const char *call, const uint64_t *answer, const uint64_t *expected, size_t n) {
    if (memcmp(answer, expected, n * sizeof *answer) == 0)
        return;
    fprintf(stderr, "%s answered", call);
    for (size_t i = 0; i < n; i++)
        fprintf(stderr, " %llu (%llu)", (unsigned long long)answer[i], (unsigned long long)expected[i]);
    fprintf(stderr, ", in brackets what the documents say\n");
    exit(1);
}

#define EXPECT(call, answer, ...) expect(call, answer, (const uint64_t[]){__VA_ARGS__}, COUNT(answer))

static void expect_octets(const char *what, const uint8_t *octets, const char *expected, size_t n) {
    if (memcmp(octets, expected, n) != 0) {
        fprintf(stderr, "%s: other octets than the documents'\n", what);
        exit(1);
    }
}

static void check_interface(void) {
    if (mz_interface() != MZ_INTERFACE) {
        fprintf(stderr, "the library has interface %lu, the header %d\n", (unsigned long)mz_interface(), MZ_INTERFACE);
        exit(1);
    }
}

static void check_tables(void) {
    static const uint32_t itself[] = {0x41, 0x41, 0, 1}, part[] = {0x41}, syllable[] = {0xAC00, 0x41, 0, 0};
    uint64_t answer[3];
    mz_check_table(TABLE, answer);
    EXPECT("mz_check_table of T", answer, 0, 0, 0);
    mz_check_table(itself, COUNT(itself), part, COUNT(part), answer);
    EXPECT("mz_check_table of a letter that decomposes into itself", answer, MZ_REFUSED_LEVEL, 0, 0);
    mz_check_table(syllable, COUNT(syllable), part, 0, answer);
    EXPECT("mz_check_table of an entry for a Hangul syllable", answer, MZ_REFUSED_CODE_POINT, 0, 0);
}

static void prepare_texts(void) {
    uint8_t key[4] = {1, 2, 3, 4}, jamo[9];
    uint64_t answer[7];
    mz_prepare(MZ_UNICODE_CASEMAP, TEXT("\xC3\xA9"), TABLE, PAGES, key, sizeof key, answer);
    EXPECT("mz_prepare", answer, 0, 0, 0, 1, 4, 3, 1);
    expect_octets("mz_prepare's key", key, "\x45\xCC\x81\x04", 4);
    mz_prepare_accepted(MZ_UNICODE_CASEMAP, TEXT("\xC3"), TABLE, PAGES, key, sizeof key, answer);
    EXPECT("mz_prepare_accepted of a broken text", answer, 0, 0, 0, 0, 0, 1, 0);
    expect_octets("the buffer after a broken text", key, "\x45\xCC\x81\x04", 4);
    mz_prepare(MZ_UNICODE_CASEMAP, TEXT("\xC3\xA9"), TABLE, PAGES, key, 2, answer);
    EXPECT("mz_prepare with a short buffer", answer, MZ_REFUSED_KEY_ROOM, 1, 3, 0, 0, 0, 0);
    mz_prepare(MZ_UNICODE_CASEMAP, TEXT("\xEA\xB0\x81"), TABLE, PAGES, jamo, sizeof jamo, answer);
    EXPECT("mz_prepare of a Hangul syllable", answer, 0, 0, 0, 1, 5, 9, 1);
    expect_octets("a Hangul syllable's key", jamo, "\xE1\x84\x80\xE1\x85\xA1\xE1\x86\xA8", 9);
}

/* What no call leaves in a page slice. */
#define SPOILT UINT64_C(0xAAAAAAAAAAAAAAAA)

static void spoil_pages(void) {
    memset(presence, 0xAA, sizeof presence);
    memset(ranks, 0xAA, sizeof ranks);
}

/* Some pages of table T and the first number beyond them: the bits, and the entries before. Or all are spoilt still. */
static void expect_pages(const char *what, int are_filled) {
    static const uint64_t pages[][3] = {
        {0, 0, 0}, {1, UINT64_C(0x400024200000000), 0}, {2, 0, 4}, {3, UINT64_C(0x20000000200), 4}, {7, 0x70, 8},
        {1004, 2, 11}, {1005, 0, 12}, {MZ_PAGES - 1, 0, 12}, {MZ_PAGES, SPOILT, SPOILT},
    };
    for (size_t at = 0; at < COUNT(pages); at++) {
        const uint64_t page = pages[at][0], left[] = {presence[page], ranks[page]};
        EXPECT(what, left, are_filled ? pages[at][1] : SPOILT, are_filled ? pages[at][2] : SPOILT);
    }
}

static void fill_pages(void) {
    uint8_t key[2];
    uint64_t answer[7];
    spoil_pages();
    mz_prepare(MZ_ASCII_CASEMAP, TEXT("a"), TABLE, presence, 0, ranks, COUNT(ranks), key, sizeof key, answer);
    EXPECT("mz_prepare under i;ascii-casemap", answer, 0, 0, 0, 1, 0, 1, 1);
    expect_pages("pages under i;ascii-casemap", 0);
    mz_prepare(MZ_UNICODE_CASEMAP, TEXT("\xC3\xA9"), TABLE, PAGES, key, sizeof key, answer);
    EXPECT("mz_prepare with a short buffer", answer, MZ_REFUSED_KEY_ROOM, 1, 3, 0, 0, 0, 0);
    expect_pages("pages after a refusal for room", 1);
    mz_prepare_accepted(MZ_UNICODE_CASEMAP, TEXT("z"), TABLE, PAGES, key, sizeof key, answer);
    EXPECT("mz_prepare_accepted", answer, 0, 0, 0, 1, 2, 1, 1);
    expect_pages("pages that are only read", 1);
}

static void compare_texts(void) {
    uint8_t first_key[8], second_key[8];
    uint64_t answer[4], place[8];
#define KEYS first_key, sizeof first_key, second_key, sizeof second_key
    mz_equal(MZ_UNICODE_CASEMAP, TEXT("\xC3\xA9"), TEXT("\xC3\x89"), TABLE, PAGES, KEYS, answer);
    EXPECT("mz_equal", answer, 0, 0, 0, 1);
    mz_equal_accepted(MZ_UNICODE_CASEMAP, TEXT("\xC3\xA9"), TEXT("e"), TABLE, PAGES, KEYS, answer);
    EXPECT("mz_equal_accepted", answer, 0, 0, 0, 2);
    mz_order(MZ_UNICODE_CASEMAP, TEXT("\x45"), TEXT("\xC3\xA9"), TABLE, PAGES, KEYS, answer);
    EXPECT("mz_order", answer, 0, 0, 0, 1);
    mz_order_accepted(MZ_UNICODE_CASEMAP, TEXT("\xC3"), TEXT("\xC3\xA9"), TABLE, PAGES, KEYS, answer);
    EXPECT("mz_order_accepted", answer, 0, 0, 0, 3);
    mz_order(4, TEXT("a"), TEXT("a"), TABLE, PAGES, KEYS, answer);
    EXPECT("mz_order under collation 4", answer, MZ_REFUSED_COLLATION, 0, 0, 0);
    mz_substring(MZ_UNICODE_CASEMAP, TEXT("\xCC\x81"), TEXT("\x61\xC3\xA9"), TABLE, PAGES, KEYS, place);
    EXPECT("mz_substring", place, 0, 0, 0, 1, 2, 4, 1, 3);
    mz_substring_accepted(MZ_UNICODE_CASEMAP, TEXT("z"), TEXT("\x61\xC3\xA9"), TABLE, PAGES, KEYS, place);
    EXPECT("mz_substring_accepted", place, 0, 0, 0, 2, 0, 0, 0, 0);
}

static void build_table(void) {
    uint32_t built[8], parts[4];
    uint64_t answer[6];
    mz_add_line(0, 0, 0, TEXT("00C9;E WITH ACUTE;Lu;0;L;0045 0301;;;;N;;;;00E9;"), built, COUNT(built), parts, COUNT(parts), answer);
    EXPECT("mz_add_line", answer, 0, 0, 0, 1, 2, 0xCA);
    mz_add_line(1, 2, 0xCA, TEXT("00C9;;;;;;;;;;;;;;"), built, COUNT(built), parts, COUNT(parts), answer);
    EXPECT("mz_add_line of the same code point", answer, MZ_REFUSED_ORDER, 0, 0, 1, 2, 0xCA);
}

/* The text C3 A9, and its key. */
#define TEXT_RECORD "\x04\0\0\0\x01\0\xC3\xA9"
#define KEY_RECORD "\x09\0\0\0\x02\0\x03\x01\x02\0\x45\xCC\x81"

static void write_records(void) {
    uint8_t records[22];
    uint64_t answer[4];
    memset(records, 0xAA, sizeof records);
    mz_write_text(TEXT("\xC3\xA9"), records, sizeof records, 0, answer);
    EXPECT("mz_write_text", answer, 0, 0, 0, 8);
    mz_write_key(MZ_UNICODE_CASEMAP, 1, 2, TEXT("\x45\xCC\x81"), records, sizeof records, 8, answer);
    EXPECT("mz_write_key", answer, 0, 0, 0, 21);
    expect_octets("a text and its key", records, TEXT_RECORD KEY_RECORD "\xAA", sizeof records);

    static const uint8_t long_text[MZ_TEXT_MOST + 1];
    mz_write_text(long_text, sizeof long_text, records, 0, 0, answer);
    EXPECT("mz_write_text of a long text", answer, MZ_REFUSED_RECORD_BODY, 0, 0, 0);
    mz_write_text(TEXT("\xC3\xA9"), records, sizeof records, 15, answer);
    EXPECT("mz_write_text without room", answer, MZ_REFUSED_RECORD_ROOM, 0, 8, 0);
    mz_write_text(TEXT(""), records, sizeof records, 23, answer);
    EXPECT("mz_write_text past the end", answer, MZ_REFUSED_RECORD_ROOM, 0, 6, 0);
    mz_write_key(4, 1, 2, TEXT("\x45\xCC\x81"), records, sizeof records, 0, answer);
    EXPECT("mz_write_key under collation 4", answer, MZ_REFUSED_RECORD_BODY, 0, 0, 0);
    mz_write_key(MZ_OCTET, 1, 2, TEXT("\x45\xCC\x81"), records, sizeof records, 0, answer);
    EXPECT("mz_write_key of another length under i;octet", answer, MZ_REFUSED_RECORD_BODY, 0, 0, 0);
    mz_write_key(MZ_UNICODE_CASEMAP, 1, 2, TEXT("\x45\xCC\x81"), records, sizeof records, 10, answer);
    EXPECT("mz_write_key without room", answer, MZ_REFUSED_RECORD_ROOM, 0, 13, 0);
    expect_octets("the slice after refusals", records, TEXT_RECORD KEY_RECORD "\xAA", sizeof records);
}

static void read_records(void) {
    uint64_t answer[9];
    mz_read_record(TEXT(TEXT_RECORD KEY_RECORD), 0, answer);
    EXPECT("mz_read_record of a text", answer, 0, 0, 0, MZ_KIND_TEXT, 0, 0, 0, 6, 8);
    mz_read_record(TEXT(TEXT_RECORD KEY_RECORD), 8, answer);
    EXPECT("mz_read_record of a key", answer, 0, 0, 0, MZ_KIND_KEY, MZ_UNICODE_CASEMAP, 1, 2, 18, 21);
    mz_read_record(TEXT(TEXT_RECORD KEY_RECORD), 21, answer);
    EXPECT("mz_read_record at the end", answer, 0, 0, 0, 0, 0, 0, 0, 0, 0);

    mz_read_record(TEXT(TEXT_RECORD KEY_RECORD), 22, answer);
    EXPECT("mz_read_record past the end", answer, MZ_REFUSED_RECORD_LENGTH, 0, 0, 0, 0, 0, 0, 0, 0);
    mz_read_record(TEXT("\x04\0\0\0\x01\0\xC3"), 0, answer);
    EXPECT("mz_read_record of one cut off", answer, MZ_REFUSED_RECORD_LENGTH, 0, 0, 0, 0, 0, 0, 0, 0);
    mz_read_record(TEXT("\x01\0\0\0\x01\0"), 0, answer);
    EXPECT("mz_read_record of a length below 2", answer, MZ_REFUSED_RECORD_LENGTH, 0, 0, 0, 0, 0, 0, 0, 0);
    mz_read_record(TEXT("\x04\0\0\0\x03\0\xC3\xA9"), 0, answer);
    EXPECT("mz_read_record of kind 3", answer, MZ_REFUSED_RECORD_KIND, 0, 0, 0, 0, 0, 0, 0, 0);
    mz_read_record(TEXT("\x09\0\0\0\x02\0\x01\x01\x02\0\x45\xCC\x81"), 0, answer);
    EXPECT("mz_read_record of a key of another length under i;octet", answer, MZ_REFUSED_RECORD_BODY, 0, 0, 0, 0, 0, 0, 0, 0);
}

/* Three names, of which the first and the third are equal, and two others. */
#define FIRST_LIST "\x03\0\0\0\x01\0z" TEXT_RECORD "\x03\0\0\0\x01\0Z"
#define SECOND_LIST "\x03\0\0\0\x01\0b" "\x03\0\0\0\x01\0z"

static void expect_numbers(const char *what, const uint32_t *numbers, const uint32_t *expected, size_t n) {
    expect_octets(what, (const uint8_t *)numbers, (const char *)expected, n * sizeof *numbers);
}

static void expect_sizes(const char *what, const size_t *sizes, const size_t *expected, size_t n) {
    expect_octets(what, (const uint8_t *)sizes, (const char *)expected, n * sizeof *sizes);
}

static void find_shared_names(void) {
    uint8_t store[8] = {0, 0, 0, 0, 0, 0, 0, 9};
    uint32_t partners[4] = {9, 9, 9, 9}, positions[4] = {9, 9, 9, 9};
    uint64_t answer[7];
#define REPORT store, sizeof store, partners, COUNT(partners), positions, COUNT(positions)
    mz_find_shared(MZ_UNICODE_CASEMAP, TEXT(FIRST_LIST), TEXT(SECOND_LIST), TABLE, PAGES, REPORT, answer);
    EXPECT("mz_find_shared", answer, 0, 0, 0, 3, 2, 2, 2);
    expect_octets("mz_find_shared's store", store, "Z\x45\xCC\x81ZbZ\x09", sizeof store);
    expect_numbers("mz_find_shared's partners", partners, (const uint32_t[]){2, 0, 2, 9}, COUNT(partners));
    expect_numbers("mz_find_shared's positions", positions, (const uint32_t[]){2, 1, 3, 9}, COUNT(positions));

    mz_find_shared_accepted(MZ_OCTET, TEXT(FIRST_LIST), TEXT(SECOND_LIST), TABLE, PAGES, REPORT, answer);
    EXPECT("mz_find_shared_accepted under i;octet", answer, 0, 0, 0, 3, 2, 1, 1);
    expect_octets("mz_find_shared_accepted's store", store, "z\xC3\xA9Zbz\x5A\x09", sizeof store);
    expect_numbers("mz_find_shared_accepted's partners", partners, (const uint32_t[]){2, 0, 0, 9}, COUNT(partners));
    expect_numbers("mz_find_shared_accepted's positions", positions, (const uint32_t[]){3, 1, 2, 9}, COUNT(positions));
}

static void refuse_lists(void) {
    uint8_t store[7] = {9, 9, 9, 9, 9, 9, 9};
    uint32_t partners[3] = {9, 9, 9}, positions[3] = {9, 9, 9};
    uint64_t answer[7];
    static uint8_t names[6 * (MZ_NAMES_MOST + 1)];
    for (size_t at = 0; at < sizeof names; at += 6)
        memcpy(names + at, "\x02\0\0\0\x01\0", 6);
    mz_find_shared(4, TEXT("\x03"), TEXT(""), TABLE, PAGES, REPORT, answer);
    EXPECT("mz_find_shared under collation 4", answer, MZ_REFUSED_COLLATION, 0, 0, 0, 0, 0, 0);
    mz_find_shared(MZ_UNICODE_CASEMAP, TEXT(FIRST_LIST), TEXT(SECOND_LIST "\x03"), TABLE, PAGES, REPORT, answer);
    EXPECT("mz_find_shared of a cut list", answer, MZ_REFUSED_RECORD_LENGTH, 2, 0, 0, 0, 0, 0);
    mz_find_shared(MZ_OCTET, TEXT(FIRST_LIST KEY_RECORD), TEXT(SECOND_LIST), TABLE, PAGES, REPORT, answer);
    EXPECT("mz_find_shared of a key", answer, MZ_REFUSED_RECORD_KIND, 1, 0, 0, 0, 0, 0);
    mz_find_shared(MZ_OCTET, TEXT(FIRST_LIST), names, sizeof names, TABLE, PAGES, REPORT, answer);
    EXPECT("mz_find_shared of too many names", answer, MZ_REFUSED_NAME_COUNT, 2, 0, 0, 0, 0, 0);
    mz_find_shared(MZ_UNICODE_CASEMAP, TEXT(""), TEXT(""), entries, 3, pool, 0, PAGES, REPORT, answer);
    EXPECT("mz_find_shared over a faulty table", answer, MZ_REFUSED_TABLE_SIZE, 0, 0, 0, 0, 0, 0);
    mz_find_shared(MZ_UNICODE_CASEMAP, TEXT(FIRST_LIST), TEXT(SECOND_LIST), TABLE, PAGES, store, 6, partners, 2, positions, 3, answer);
    EXPECT("mz_find_shared with a short store", answer, MZ_REFUSED_LIST_ROOM, 0, 7, 0, 0, 0, 0);
    mz_find_shared(MZ_UNICODE_CASEMAP, TEXT(FIRST_LIST), TEXT(SECOND_LIST), TABLE, PAGES, store, 7, partners, 3, positions, 2, answer);
    EXPECT("mz_find_shared with a short array", answer, MZ_REFUSED_LIST_ROOM, 0, 3, 0, 0, 0, 0);
    expect_octets("the store after refusals", store, "\x09\x09\x09\x09\x09\x09\x09", sizeof store);
    expect_numbers("partners after refusals", partners, (const uint32_t[]){9, 9, 9}, COUNT(partners));
    expect_numbers("positions after refusals", positions, (const uint32_t[]){9, 9, 9}, COUNT(positions));
}

/* Five texts, the fourth of them broken, and an octet that belongs to none. */
#define MANY TEXT("z" "\xC3\xA9" "Z" "\xC3" "z" "?"), ends, COUNT(ends)
static const size_t ends[] = {1, 3, 4, 5, 6};

static void prepare_many_texts(void) {
    uint8_t store[8] = {0, 0, 0, 0, 0, 0, 0, 9}, valid[6] = {9, 9, 9, 9, 9, 9};
    size_t key_ends[6] = {9, 9, 9, 9, 9, 9};
    uint64_t answer[4];
#define LEFT store, sizeof store, key_ends, COUNT(key_ends), valid, sizeof valid
    mz_prepare_many(MZ_UNICODE_CASEMAP, MANY, TABLE, PAGES, LEFT, answer);
    EXPECT("mz_prepare_many", answer, 0, 0, 0, 7);
    expect_octets("mz_prepare_many's store", store, "Z\x45\xCC\x81Z\xC3Z\x09", sizeof store);
    expect_sizes("mz_prepare_many's key ends", key_ends, (const size_t[]){1, 4, 5, 6, 7, 9}, COUNT(key_ends));
    expect_octets("mz_prepare_many's valid", valid, "\1\1\1\0\1\x09", sizeof valid);
    mz_prepare_many(MZ_OCTET, TEXT(""), ends, 0, entries, 3, pool, 0, PAGES, store, 0, key_ends, 0, valid, 0, answer);
    EXPECT("mz_prepare_many of no texts, over a table that isn't read", answer, 0, 0, 0, 0);
}

static void refuse_many_texts(void) {
    static const uint8_t long_text[MZ_TEXT_MOST + 1];
    static const size_t falling[] = {1, 3, 2}, past[] = {2}, one[] = {sizeof long_text};
    uint8_t store[7] = {9, 9, 9, 9, 9, 9, 9}, valid[5] = {9, 9, 9, 9, 9};
    size_t key_ends[5] = {9, 9, 9, 9, 9};
    uint64_t answer[4];
    mz_prepare_many(4, TEXT("a"), past, COUNT(past), TABLE, PAGES, LEFT, answer);
    EXPECT("mz_prepare_many under collation 4", answer, MZ_REFUSED_COLLATION, 0, 0, 0);
    mz_prepare_many(MZ_OCTET, TEXT("abc"), falling, COUNT(falling), TABLE, PAGES, LEFT, answer);
    EXPECT("mz_prepare_many with an end that falls", answer, MZ_REFUSED_END, 1, 2, 0);
    mz_prepare_many(MZ_OCTET, TEXT("a"), past, COUNT(past), TABLE, PAGES, LEFT, answer);
    EXPECT("mz_prepare_many with an end past the octets", answer, MZ_REFUSED_END, 1, 0, 0);
    mz_prepare_many(MZ_OCTET, long_text, sizeof long_text, one, COUNT(one), TABLE, PAGES, LEFT, answer);
    EXPECT("mz_prepare_many of a long text", answer, MZ_REFUSED_TEXT_LENGTH, 1, 0, 0);
    mz_prepare_many(MZ_UNICODE_CASEMAP, TEXT(""), ends, 0, entries, 3, pool, 0, PAGES, LEFT, answer);
    EXPECT("mz_prepare_many over a faulty table", answer, MZ_REFUSED_TABLE_SIZE, 0, 0, 0);
    mz_prepare_many(MZ_UNICODE_CASEMAP, MANY, TABLE, PAGES, store, 6, key_ends, 4, valid, 5, answer);
    EXPECT("mz_prepare_many with a short store", answer, MZ_REFUSED_MANY_ROOM, 0, 7, 0);
    mz_prepare_many(MZ_UNICODE_CASEMAP, MANY, TABLE, PAGES, store, 7, key_ends, 5, valid, 4, answer);
    EXPECT("mz_prepare_many with a short slice", answer, MZ_REFUSED_MANY_ROOM, 0, 5, 0);
    expect_octets("the store after refusals", store, "\x09\x09\x09\x09\x09\x09\x09", sizeof store);
    expect_sizes("key ends after refusals", key_ends, (const size_t[]){9, 9, 9, 9, 9}, COUNT(key_ends));
    expect_octets("valid after refusals", valid, "\x09\x09\x09\x09\x09", sizeof valid);
}

/* The keys z, b, z and z, a, z: the first three are the first list's. */
#define KEYS_OF_TWO TEXT("zbzzaz"), ends_of_two, COUNT(ends_of_two)
static const size_t ends_of_two[] = {1, 2, 3, 4, 5, 6};

static void match_keys_of_two_lists(void) {
    uint32_t row[7] = {9, 9, 9, 9, 9, 9, 9}, repeats[7] = {9, 9, 9, 9, 9, 9, 9}, partners[4] = {9, 9, 9, 9};
    uint64_t answer[5];
    mz_match_keys(KEYS_OF_TWO, 3, row, COUNT(row), repeats, COUNT(repeats), partners, COUNT(partners), answer);
    EXPECT("mz_match_keys", answer, 0, 0, 0, 4, 2);
    expect_numbers("mz_match_keys' row", row, (const uint32_t[]){5, 2, 1, 3, 4, 6, 9}, COUNT(row));
    expect_numbers("mz_match_keys' repeats", repeats, (const uint32_t[]){0, 0, 1, 1, 1, 0, 9}, COUNT(repeats));
    expect_numbers("mz_match_keys' partners", partners, (const uint32_t[]){1, 0, 1, 9}, COUNT(partners));
}

static void refuse_keys_of_two_lists(void) {
    static const size_t falling[] = {1, 3, 2};
    uint32_t row[6] = {9, 9, 9, 9, 9, 9}, repeats[6] = {9, 9, 9, 9, 9, 9}, partners[3] = {9, 9, 9};
    uint64_t answer[5];
    mz_match_keys(TEXT("abc"), falling, COUNT(falling), 4, row, 0, repeats, 0, partners, 0, answer);
    EXPECT("mz_match_keys with an end that falls", answer, MZ_REFUSED_END, 1, 2, 0, 0);
    mz_match_keys(KEYS_OF_TWO, 7, row, 0, repeats, 0, partners, 0, answer);
    EXPECT("mz_match_keys with too many first names", answer, MZ_REFUSED_FIRST_COUNT, 0, 6, 0, 0);
    mz_match_keys(KEYS_OF_TWO, 3, row, 6, repeats, 5, partners, 2, answer);
    EXPECT("mz_match_keys with short repeats", answer, MZ_REFUSED_MANY_ROOM, 0, 6, 0, 0);
    mz_match_keys(KEYS_OF_TWO, 3, row, 6, repeats, 6, partners, 2, answer);
    EXPECT("mz_match_keys with short partners", answer, MZ_REFUSED_MANY_ROOM, 0, 3, 0, 0);
    expect_numbers("the row after refusals", row, (const uint32_t[]){9, 9, 9, 9, 9, 9}, COUNT(row));
    expect_numbers("repeats after refusals", repeats, (const uint32_t[]){9, 9, 9, 9, 9, 9}, COUNT(repeats));
    expect_numbers("partners after refusals", partners, (const uint32_t[]){9, 9, 9}, COUNT(partners));
}

/* One of the page slices is too short, and there is no room, which would be refused after that. */
static void refuse_pages(void) {
    uint8_t octets[1];
    uint32_t array[1];
    uint64_t prepared[7], answer[4], place[8], report[7];
#define SHORT_PRESENCE presence, MZ_PAGES - 1, ranks, COUNT(ranks)
#define SHORT_RANKS presence, COUNT(presence), ranks, MZ_PAGES - 1
#define NO_KEYS octets, 0, octets, 0
    spoil_pages();
    mz_prepare(MZ_UNICODE_CASEMAP, TEXT("a"), TABLE, SHORT_PRESENCE, octets, 0, prepared);
    EXPECT("mz_prepare with short pages", prepared, MZ_REFUSED_PAGES, 0, 0, 0, 0, 0, 0);
    mz_equal(MZ_UNICODE_CASEMAP, TEXT("a"), TEXT("a"), TABLE, SHORT_RANKS, NO_KEYS, answer);
    EXPECT("mz_equal with short pages", answer, MZ_REFUSED_PAGES, 0, 0, 0);
    mz_order(MZ_UNICODE_CASEMAP, TEXT("a"), TEXT("a"), entries, 3, pool, 0, SHORT_PRESENCE, NO_KEYS, answer);
    EXPECT("mz_order with short pages over a faulty table", answer, MZ_REFUSED_TABLE_SIZE, 0, 0, 0);
    mz_substring(MZ_UNICODE_CASEMAP, TEXT("a"), TEXT("a"), TABLE, SHORT_RANKS, NO_KEYS, place);
    EXPECT("mz_substring with short pages", place, MZ_REFUSED_PAGES, 0, 0, 0, 0, 0, 0, 0);
    mz_find_shared(MZ_UNICODE_CASEMAP, TEXT(FIRST_LIST), TEXT(""), TABLE, SHORT_PRESENCE, octets, 0, array, 0, array, 0, report);
    EXPECT("mz_find_shared with short pages", report, MZ_REFUSED_PAGES, 0, 0, 0, 0, 0, 0);
    mz_prepare_many(MZ_UNICODE_CASEMAP, MANY, TABLE, SHORT_RANKS, octets, 0, (size_t[1]){0}, 0, octets, 0, answer);
    EXPECT("mz_prepare_many with short pages", answer, MZ_REFUSED_PAGES, 0, 0, 0);
    expect_pages("pages after refusals", 0);
}

int main(void) {
    check_interface();
    check_tables();
    prepare_texts();
    fill_pages();
    compare_texts();
    build_table();
    write_records();
    read_records();
    find_shared_names();
    refuse_lists();
    prepare_many_texts();
    refuse_many_texts();
    refuse_pages();
    match_keys_of_two_lists();
    refuse_keys_of_two_lists();
    puts("the C interface answers as the documents say");
    return 0;
}
