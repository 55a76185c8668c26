/* The calls on records: a slice of any octets, read from its start on and at one position, and items written into it. */
#include "expect.h"
#include "input.h"
#include "mundeziwa.h"
#include <string.h>

/* The least octets that a record has: a length and a kind. */
#define RECORD_LEAST 6

/* What becomes known of a slice; the kinds that `note` is given. */
enum kind { RECORD_READ = 24, RECORD_SIZE, RECORDS_READ, WRITTEN };

/* What a record holds, or is to hold; kind is MZ_KIND_TEXT or MZ_KIND_KEY. */
struct item {
    uint64_t kind;
    uint32_t collation;
    uint64_t valid;
    uint64_t text_length;
    const uint8_t *octets;
    size_t length;
};

struct records {
    uint8_t octets[TEXT_ROOM];
    size_t length;
};

static size_t whole_length(const struct item *item) {
    return RECORD_LEAST + (item->kind == MZ_KIND_KEY ? 4 : 0) + item->length;
}

/* Whether so many octets stand in a slice from a position on. */
static int has_room(size_t length, uint64_t position, size_t wanted) {
    return position <= length && wanted <= length - position;
}

/* Reads the record at a position, in one kind of memory. */
static void read_record(enum memory memory, const struct records *records, uint64_t position, uint64_t row[9]) {
    memset(row, 0xA5, 9 * sizeof *row);
    struct lent slice = lend(memory, RECORDS, records->octets, records->length);
    struct lent answer = lend(memory, ANSWER, row, 9 * sizeof *row);
    mz_read_record(slice.at, records->length, position, answer.at);
    memcpy(row, answer.at, answer.size);
    EXPECT(is_kept(slice, records->octets));
    give_back(slice);
    give_back(answer);
}

/* A row says the end, a refusal, or an item whose octets lie in the slice, behind what stands before them in the record. */
static void expect_read(const struct records *records, uint64_t position, const uint64_t row[9]) {
    EXPECT(row[1] == 0 && row[2] == 0);
    note(RECORD_READ, row[0] + row[3]);
    if (row[0] != 0) {
        EXPECT(row[0] >= MZ_REFUSED_RECORD_LENGTH && row[0] <= MZ_REFUSED_RECORD_BODY);
        expect_refusal(row, 9);
        return;
    }
    EXPECT((row[3] == 0) == (position == records->length));
    if (row[3] == 0) {
        for (int field = 4; field < 9; field++)
            EXPECT(row[field] == 0);
        return;
    }
    EXPECT(row[3] == MZ_KIND_TEXT || row[3] == MZ_KIND_KEY);
    EXPECT(position < row[7] && row[7] <= row[8] && row[8] <= records->length);
    EXPECT(row[7] - position == RECORD_LEAST + (row[3] == MZ_KIND_KEY ? 4 : 0));
    uint64_t length = row[8] - row[7];
    if (row[3] == MZ_KIND_TEXT) {
        EXPECT(length <= MZ_TEXT_MOST && row[4] == 0 && row[5] == 0 && row[6] == 0);
    } else {
        EXPECT(row[4] >= MZ_OCTET && row[4] <= MZ_UNICODE_CASEMAP && row[5] <= 1 && row[6] <= MZ_TEXT_MOST);
        EXPECT(row[5] == 1 || row[4] == MZ_UNICODE_CASEMAP);
        EXPECT(length == row[6] || (row[4] == MZ_UNICODE_CASEMAP && row[5] == 1 && length <= MZ_KEY_PER_OCTET_MOST * row[6]));
    }
    note_size(RECORD_SIZE, length);
}

static struct item item_of(const struct records *records, const uint64_t row[9]) {
    return (struct item){row[3], (uint32_t)row[4], row[5], row[6], records->octets + row[7], row[8] - row[7]};
}

/* Writes an item, in one kind of memory. What is written is one run of octets, and on a refusal there is none. */
static void write_item(enum memory memory, const struct item *item, struct records *records, uint64_t position, uint64_t row[4]) {
    memset(row, 0xA5, 4 * sizeof *row);
    struct lent octets = lend(memory, FIRST, item->octets, item->length);
    struct lent slice = lend(memory, RECORDS, records->octets, records->length);
    struct lent answer = lend(memory, ANSWER, row, 4 * sizeof *row);
    if (item->kind == MZ_KIND_TEXT)
        mz_write_text(octets.at, item->length, slice.at, records->length, position, answer.at);
    else
        mz_write_key(item->collation, item->valid, item->text_length, octets.at, item->length, slice.at, records->length,
                     position, answer.at);
    memcpy(row, answer.at, answer.size);
    EXPECT(is_kept(octets, item->octets));
    if (row[0] != 0) {
        EXPECT(row[0] == MZ_REFUSED_RECORD_BODY || row[0] == MZ_REFUSED_RECORD_ROOM);
        EXPECT(row[2] == (row[0] == MZ_REFUSED_RECORD_ROOM ? whole_length(item) : 0));
        expect_refusal(row, 4);
        EXPECT(row[1] == 0 && is_kept(slice, records->octets));
    } else {
        size_t whole = whole_length(item);
        EXPECT(has_room(records->length, position, whole) && row[3] == position + whole);
        EXPECT(memcmp(slice.at, records->octets, position) == 0);
        EXPECT(memcmp((uint8_t *)slice.at + row[3], records->octets + row[3], records->length - row[3]) == 0);
        memcpy(records->octets, slice.at, records->length);
    }
    note(WRITTEN, row[0]);
    give_back(octets);
    give_back(slice);
    give_back(answer);
}

/* What was read, written back, leaves the slice as it is; with one octet less there is neither a record nor room for one. */
static void expect_undone(enum memory memory, const struct records *records, uint64_t position, const uint64_t row[9]) {
    static struct records copy;
    uint64_t written[4], read[9];
    struct item item = item_of(records, row);
    copy = *records;
    write_item(memory, &item, &copy, position, written);
    EXPECT(written[0] == 0 && written[3] == row[8]);
    EXPECT(memcmp(copy.octets, records->octets, records->length) == 0);
    copy.length = row[8] - 1;
    write_item(memory, &item, &copy, position, written);
    EXPECT(written[0] == MZ_REFUSED_RECORD_ROOM);
    read_record(memory, &copy, position, read);
    expect_read(&copy, position, read);
    EXPECT(read[0] == MZ_REFUSED_RECORD_LENGTH);
}

/* Reads all records from the start on. Each has its octets, so their number is bounded. */
static void read_all(enum memory memory, const struct records *records) {
    uint64_t position = 0, row[9];
    size_t count = 0;
    for (;; count++) {
        EXPECT(count <= records->length / RECORD_LEAST);
        read_record(memory, records, position, row);
        expect_read(records, position, row);
        if (row[0] != 0 || row[3] == 0)
            break;
        expect_undone(memory, records, position, row);
        position = row[8];
    }
    note_size(RECORDS_READ, count);
}

/* Writes an item into the slice. Where it is written it is read again. Whether a record may hold it doesn't depend on the room:
 * with just what it needs it is refused in the same way, or written. */
static void write_any(enum memory memory, const struct item *item, const struct records *records, uint64_t position) {
    static struct records copy;
    static struct item again;
    uint64_t written[4], read[9];
    size_t lengths[] = {records->length, whole_length(item)};
    uint64_t positions[] = {position, 0}, refusals[2];
    for (int where = 0; where < 2; where++) {
        copy = *records;
        copy.length = lengths[where];
        write_item(memory, item, &copy, positions[where], written);
        refusals[where] = written[0];
        EXPECT(written[0] != MZ_REFUSED_RECORD_ROOM || !has_room(copy.length, positions[where], whole_length(item)));
        if (written[0] != 0)
            continue;
        read_record(memory, &copy, positions[where], read);
        expect_read(&copy, positions[where], read);
        again = item_of(&copy, read);
        EXPECT(read[0] == 0 && read[8] == written[3] && again.kind == item->kind && again.length == item->length);
        EXPECT(item->kind == MZ_KIND_TEXT || (again.collation == item->collation && again.valid == item->valid &&
                                              again.text_length == item->text_length));
        EXPECT(memcmp(again.octets, item->octets, item->length) == 0);
    }
    EXPECT((refusals[0] == MZ_REFUSED_RECORD_BODY) == (refusals[1] == MZ_REFUSED_RECORD_BODY));
}

static uint64_t take_number_at_edge(struct input *input) {
    static const uint64_t edges[] = {
        255,   256,   257,      259,        4095,             4096,             4097,       65535,
        65536, 65537, 1u << 31, 1ull << 32, (1ull << 32) + 1, (1ull << 57) + 1, 1ull << 63, UINT64_MAX,
    };
    uint8_t octet = take_octet(input);
    return octet < 0xF0 ? octet : edges[octet - 0xF0];
}

/* A position: its number; or from F0 on up to 8 octets before the end of the slice, at it, past it, or far from it. */
static uint64_t position_of(uint8_t octet, size_t length) {
    static const uint64_t far[] = {1ull << 32, 1ull << 63, UINT64_MAX - 5, UINT64_MAX - 3, UINT64_MAX};
    if (octet < 0xF0)
        return octet;
    if (octet < 0xFB)
        return (uint64_t)length - 8 + (octet - 0xF0);
    return far[octet - 0xFB];
}

/* A length: its number, or 4,088 to 4,103 octets. */
static size_t long_length(uint8_t octet) {
    return octet < 0xF0 ? octet : 4088 + (size_t)(octet - 0xF0);
}

static void take_slice(struct input *input, struct records *records, size_t more) {
    records->length = 0;
    while (input->left > 0 && records->length < TEXT_ROOM - more)
        records->octets[records->length++] = take_octet(input);
    memset(records->octets + records->length, 'a', more);
    records->length += more;
}

void fuzz_records(const uint8_t *data, size_t size) {
    static struct records records;
    struct input input = {data, size};
    uint64_t rows[MEMORIES][9];
    uint8_t position_octet = take_octet(&input);
    size_t more = long_length(take_octet(&input));
    struct item key = {.kind = MZ_KIND_KEY, .collation = (uint32_t)take_number_at_edge(&input)};
    key.valid = take_number_at_edge(&input);
    key.text_length = take_number_at_edge(&input);
    key.length = long_length(take_octet(&input));
    take_slice(&input, &records, more);
    uint64_t position = position_of(position_octet, records.length);
    if (key.length > records.length)
        key.length = records.length;
    key.octets = records.octets;
    struct item text = key;
    text.kind = MZ_KIND_TEXT;
    for (enum memory memory = 0; memory < MEMORIES; memory++) {
        read_record(memory, &records, position, rows[memory]);
        expect_read(&records, position, rows[memory]);
        EXPECT(memcmp(rows[memory], rows[0], sizeof rows[0]) == 0);
        read_all(memory, &records);
        write_any(memory, &key, &records, position);
        write_any(memory, &text, &records, position);
    }
}
