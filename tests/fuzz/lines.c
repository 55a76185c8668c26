/* mz_add_line: slices of any small length, a state, and line after line. */
#include "expect.h"
#include "input.h"
#include "mundeziwa.h"
#include <string.h>

#define LINES_MOST 64
#define NEXT_MOST 0x110000

/* What becomes known of a line; the kinds that `note` is given. */
enum kind { LINE_ANSWERED, LINE_APPENDED, TABLE_BUILT };

struct building {
    struct table table; /* its lengths are those of the slices, whatever is used */
    uint64_t state[3];  /* entries used, pool numbers used, next */
};

/* The state before the first line: fresh for three choices of four, else any. */
static void take_state(struct input *input, uint64_t state[3]) {
    static const uint64_t edges[] = {0x10FFFF, 0x110000, 0x110001, 16384, 16385, 65536, 65537, UINT64_MAX};
    int fresh = take_octet(input) % 4 != 3;
    for (int number = 0; number < 3; number++) {
        uint8_t octet = fresh ? 0 : take_octet(input);
        state[number] = octet < 0xF0 ? octet : edges[octet % 8];
    }
}

/* Makes a line so long by what it puts into field 1. */
static void stretch(struct text *line, size_t length) {
    uint8_t *semicolon = memchr(line->octets, ';', line->length);
    if (semicolon == NULL || line->length >= length)
        return;
    size_t more = length - line->length;
    memmove(semicolon + 1 + more, semicolon + 1, line->length - (size_t)(semicolon + 1 - line->octets));
    memset(semicolon + 1, 'N', more);
    line->length = length;
}

/* The next line of the input, without its end. One that begins with + is made 512 octets long in its field 1, with ++ 513. */
static void take_line(struct input *input, struct text *line) {
    size_t wanted = 0;
    for (; wanted < 2 && input->left > 0 && *input->at == '+'; wanted++)
        take_octet(input);
    line->length = 0;
    while (input->left > 0 && line->length < TEXT_ROOM / 2) {
        uint8_t octet = take_octet(input);
        if (octet == '\n')
            break;
        line->octets[line->length++] = octet;
    }
    if (wanted > 0)
        stretch(line, MZ_LINE_MOST - 1 + wanted);
}

/* What a line may have done to one slice: nothing before the numbers that it appends, and nothing after them. */
static void expect_appended(const uint32_t *before, struct lent after, size_t from, size_t to) {
    const uint32_t *numbers = after.at;
    size_t length = after.size / sizeof *numbers;
    EXPECT(from <= to && to <= length);
    if (length > 0) {
        EXPECT(memcmp(before, numbers, from * sizeof *numbers) == 0);
        EXPECT(memcmp(before + to, numbers + to, (length - to) * sizeof *numbers) == 0);
    }
}

static void expect_line(const struct building *before, const uint64_t *row, struct lent entries, struct lent pool) {
    EXPECT(row[0] == 0 || (row[0] >= MZ_REFUSED_LINE_LENGTH && row[0] <= MZ_REFUSED_FIELD_12));
    EXPECT(row[1] == 0 && row[2] == 0);
    if (row[0] != 0) {
        EXPECT(memcmp(row + 3, before->state, sizeof before->state) == 0);
        EXPECT(is_kept(entries, before->table.entries) && is_kept(pool, before->table.pool));
        return;
    }
    uint64_t appended = row[3] - before->state[0];
    EXPECT(appended <= 1);
    EXPECT(appended == 1 || row[4] == before->state[1]);
    EXPECT(row[4] - before->state[1] <= 32);
    EXPECT(row[5] > before->state[2] && row[5] <= NEXT_MOST);
    expect_appended(before->table.entries, entries, MZ_ENTRY_WIDTH * before->state[0], MZ_ENTRY_WIDTH * row[3]);
    expect_appended(before->table.pool, pool, before->state[1], row[4]);
    note_size(LINE_APPENDED, row[4] - before->state[1]);
}

/* Adds a line to the table, in one kind of memory. */
static void add_line(enum memory memory, struct building *building, const struct text *line, uint64_t row[6]) {
    struct table *table = &building->table;
    struct lent octets = lend(memory, FIRST, line->octets, line->length);
    struct lent entries = lend(memory, ENTRIES, table->entries, table->entries_length * sizeof(uint32_t));
    struct lent pool = lend(memory, POOL, table->pool, table->pool_length * sizeof(uint32_t));
    struct lent answer = lend(memory, ANSWER, row, 6 * sizeof *row);
    mz_add_line(building->state[0], building->state[1], building->state[2], octets.at, line->length, entries.at,
                table->entries_length, pool.at, table->pool_length, answer.at);
    memcpy(row, answer.at, answer.size);
    EXPECT(is_kept(octets, line->octets));
    expect_line(building, row, entries, pool);
    if (memory == MEMORIES - 1 && entries.size > 0)
        memcpy(table->entries, entries.at, entries.size);
    if (memory == MEMORIES - 1 && pool.size > 0)
        memcpy(table->pool, pool.at, pool.size);
    give_back(octets);
    give_back(entries);
    give_back(pool);
    give_back(answer);
}

/* "A table grown from the fresh state .. passes checks 3 to 6." */
static void expect_built(const struct building *building) {
    const size_t entries_used = MZ_ENTRY_WIDTH * building->state[0], pool_used = building->state[1];
    struct lent entries = lend(BEFORE_SHUT_PAGES, ENTRIES, building->table.entries, entries_used * sizeof(uint32_t));
    struct lent pool = lend(BEFORE_SHUT_PAGES, POOL, building->table.pool, pool_used * sizeof(uint32_t));
    uint64_t row[3];
    mz_check_table(entries.at, entries_used, pool.at, pool_used, row);
    EXPECT(row[0] == 0 || row[0] == MZ_REFUSED_LEVEL);
    note(TABLE_BUILT, row[0]);
}

void fuzz_lines(const uint8_t *data, size_t size) {
    static struct building building;
    static struct text line;
    struct input input = {data, size};
    building.table.entries_length = take_octet(&input);
    building.table.pool_length = take_octet(&input);
    memset(building.table.entries, 0xEE, sizeof building.table.entries);
    memset(building.table.pool, 0xBB, sizeof building.table.pool);
    take_state(&input, building.state);
    int fresh = building.state[0] == 0 && building.state[1] == 0 && building.state[2] == 0;
    for (int number = 0; number < LINES_MOST && input.left > 0; number++) {
        uint64_t rows[MEMORIES][6];
        take_line(&input, &line);
        for (enum memory memory = 0; memory < MEMORIES; memory++) {
            memset(rows[memory], 0xA5, sizeof rows[memory]);
            add_line(memory, &building, &line, rows[memory]);
            EXPECT(memcmp(rows[memory], rows[0], sizeof rows[0]) == 0);
        }
        note(LINE_ANSWERED, rows[0][0]);
        memcpy(building.state, rows[0] + 3, sizeof building.state);
    }
    if (fresh)
        expect_built(&building);
}
