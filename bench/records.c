// Mundeziwa's records beside a straight loop in C, in one run: slices of a million small records are read, texts and keys mixed,
// and a million texts are written. First it checks that the two agree; then it prints the best of several rounds, the two in
// turn.
#include "straight_records.h"
#include "../include/mundeziwa.h"
#include <stdbool.h>
#include <stdio.h>
#include <stdlib.h>
#include <string.h>
#include <time.h>

#define RECORDS 1000000
#define ROUNDS 20
// The lengths of a name, in octets.
#define NAME_LEAST 4
#define NAME_MOST 12
// How many octets longer than its text a key may be here.
#define KEY_EXTRA 3
#define ROOM ((size_t)RECORDS * (10 + NAME_MOST + KEY_EXTRA))
// How many octets of a slice are damaged, to see whether the two refuse the same.
#define DAMAGED 4096

// Letters of a name and a key, and how many of them the name has.
static uint8_t names[RECORDS][NAME_MOST + KEY_EXTRA];
static uint8_t name_lengths[RECORDS];

struct slice {
    size_t length;
    uint8_t octets[ROOM];
};

// Texts and keys of every kind at random, so that no branch can be foreseen; and a key and a text in turn, as names are filed
// under their keys.
static struct slice at_random, in_turn;
// The slice that is read, and the room that both write in turn.
static const struct slice *source;
static uint8_t room[ROOM];

static void fail(const char *what) {
    fprintf(stderr, "%s\n", what);
    exit(1);
}

// A number below `bound`, at random from a fixed seed.
static uint32_t draw(uint32_t bound) {
    static uint32_t seed = 1;
    seed = seed * 1664525 + 1013904223;
    return (seed >> 16) % bound;
}

static void make_names(void) {
    for (size_t i = 0; i < RECORDS; i++) {
        name_lengths[i] = (uint8_t)(NAME_LEAST + draw(NAME_MOST - NAME_LEAST + 1));
        for (size_t j = 0; j < sizeof names[i]; j++) names[i][j] = (uint8_t)('a' + draw(26));
    }
}

// Writes a name as a text, or as a key whose octets are at most KEY_EXTRA more.
static void put(struct slice *slice, size_t i, uint32_t collation, bool valid) {
    uint64_t answer[4];
    size_t length = name_lengths[i];
    if (collation == 0) {
        mz_write_text(names[i], length, slice->octets, ROOM, slice->length, answer);
    } else {
        size_t extra = collation == MZ_UNICODE_CASEMAP && valid ? draw(KEY_EXTRA + 1) : 0;
        mz_write_key(collation, valid, length, names[i], length + extra, slice->octets, ROOM, slice->length, answer);
    }
    if (answer[0] != 0) fail("a record is not written");
    slice->length = answer[3];
}

static void make_slices(void) {
    for (size_t i = 0; i < RECORDS; i++) {
        uint32_t collation = draw(2) == 0 ? 0 : 1 + draw(3);
        put(&at_random, i, collation, collation != MZ_UNICODE_CASEMAP || draw(4) > 0);
        put(&in_turn, i, i % 2 == 0 ? MZ_UNICODE_CASEMAP : 0, true);
    }
}

// Reads all records, and answers a sum of all that was told of them and of an octet of each.
static size_t read_mundeziwa(void) {
    const uint8_t *octets = source->octets;
    size_t length = source->length, sum = 0;
    uint64_t answer[9] = {0};
    for (;;) {
        mz_read_record(octets, length, answer[8], answer);
        if (answer[0] != 0 || answer[3] == 0) return sum;
        sum += answer[3] + answer[4] + answer[5] + answer[6] + answer[7] + answer[8] + octets[answer[7]];
    }
}

static size_t read_straight(void) {
    const uint8_t *octets = source->octets;
    size_t length = source->length, sum = 0;
    struct straight_record record = {0};
    while (straight_read(octets, length, record.end, &record) == 0 && record.kind != 0)
        sum += record.kind + record.collation + record.valid + record.text_length + record.start + record.end +
               octets[record.start];
    return sum;
}

// Writes all names, and answers where the last one ends.
static size_t write_mundeziwa(void) {
    uint64_t answer[4] = {0};
    for (size_t i = 0; i < RECORDS && answer[0] == 0; i++)
        mz_write_text(names[i], name_lengths[i], room, ROOM, answer[3], answer);
    return answer[3];
}

static size_t write_straight(void) {
    size_t position = 0;
    for (size_t i = 0; i < RECORDS; i++)
        if (straight_write_text(names[i], name_lengths[i], room, ROOM, &position) != 0) break;
    return position;
}

// Ends the program if the two differ in what they tell of a position. Answers where the record there ends; 0 if there is none.
static size_t agree_at(const uint8_t *records, size_t length, size_t position) {
    uint64_t answer[9];
    struct straight_record record = {0};
    mz_read_record(records, length, position, answer);
    uint64_t number = (uint64_t)straight_read(records, length, position, &record);
    const uint64_t expected[9] = {number, 0, 0, record.kind, record.collation, record.valid, record.text_length, record.start,
                                  record.end};
    if (memcmp(answer, expected, sizeof answer) != 0) fail("the straight loop and Mundeziwa read a record differently");
    return record.end;
}

// Of the first records of a slice, each one cut off everywhere, and each one with every change of an octet.
static void agree_on_damage(struct slice *slice) {
    uint8_t *octets = slice->octets;
    for (size_t start = 0, end; start < DAMAGED; start = end) {
        end = agree_at(octets, slice->length, start);
        for (size_t at = start; at < end; at++) {
            agree_at(octets, at, start);
            agree_at(octets, start, at + 1);
            for (unsigned change = 1; change < 256; change++) {
                octets[at] ^= (uint8_t)change;
                agree_at(octets, slice->length, start);
                octets[at] ^= (uint8_t)change;
            }
        }
    }
}

static void require_agreement(void) {
    agree_on_damage(&at_random);
    agree_on_damage(&in_turn);
    for (size_t position = 0; (position = agree_at(at_random.octets, at_random.length, position)) != 0;) continue;
    for (size_t position = 0; (position = agree_at(in_turn.octets, in_turn.length, position)) != 0;) continue;
    static uint8_t written[ROOM];
    size_t end = write_mundeziwa();
    memcpy(written, room, end);
    memset(room, 0, end);
    if (write_straight() != end || memcmp(written, room, end) != 0)
        fail("the straight loop and Mundeziwa write different octets");
}

static double nanoseconds(void) {
    struct timespec t;
    clock_gettime(CLOCK_MONOTONIC, &t);
    return t.tv_sec * 1e9 + t.tv_nsec;
}

// Times one of the two, and keeps the time if it is the best; answers what it answers.
static size_t run(size_t (*work)(void), double *best) {
    double start = nanoseconds();
    size_t answer = work();
    double time = nanoseconds() - start;
    if (*best == 0 || time < *best) *best = time;
    return answer;
}

static void compare(const char *label, const struct slice *read, size_t (*mundeziwa)(void), size_t (*straight)(void)) {
    double ours = 0, theirs = 0;
    source = read;
    for (int round = 0; round < ROUNDS; round++)
        if (run(mundeziwa, &ours) != run(straight, &theirs)) fail("the straight loop and Mundeziwa answer differently");
    printf("%-37s %-9s %9.2f %12.2f %5.2f\n", label, "ns/record", ours / RECORDS, theirs / RECORDS, ours / theirs);
}

int main(void) {
    make_names();
    make_slices();
    require_agreement();
    printf("%d records of names of %d to %d octets, best of %d rounds, the two in turn.\n\n", RECORDS, NAME_LEAST, NAME_MOST,
           ROUNDS);
    printf("%-37s %-9s %9s %12s %5s\n", "", "unit", "mundeziwa", "straight C", "ratio");
    compare("reading, texts and keys at random", &at_random, read_mundeziwa, read_straight);
    compare("reading, a key and a text in turn", &in_turn, read_mundeziwa, read_straight);
    compare("writing texts", NULL, write_mundeziwa, write_straight);
    return 0;
}
