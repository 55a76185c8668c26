// Mundeziwa beside other programs that prepare names, in one run: keys and equality of names, keys of long texts, the building of
// the table, and what a call costs that checks the table and fills the pages. First it checks that the programs agree; then it
// prints the best of several rounds, the programs in turn.
#include "agreement.h"
#include <stdio.h>
#include <stdlib.h>
#include <time.h>

#define ROUNDS 100
// How often a long text is prepared in one round, so that a round of it takes about as long as one of the names.
#define TEXT_CALLS 8

// Mundeziwa, the straight loops that it must agree with, and those that were found when this was built.
static const struct peer *const peers[] = {
    &mundeziwa_peer, &straight_peer, &paged_peer, &paged_shift_peer,
#ifdef WITH_SECOND
    &second_peer,
#endif
#ifdef WITH_ICU
    &icu_peer,
#endif
#ifdef WITH_ICU_CASEFOLD
    &icu_casefold_peer,
#endif
#ifdef WITH_UTF8PROC
    &utf8proc_peer,
#endif
#ifdef WITH_UNISTRING
    &unistring_peer,
#endif
};
#define PEERS (sizeof peers / sizeof *peers)

static struct inputs inputs;
// The buffers that every peer writes; they are never cleared.
static uint8_t first_key[KEY_GROWTH * TEXT_MOST], second_key[KEY_GROWTH * TEXT_MOST];
static uint32_t rebuilt_entries[4 * ENTRIES_MOST], rebuilt_pool[POOL_MOST];
static uint64_t refilled_presence[PAGES], refilled_ranks[PAGES];

// One line of the printed table: what is timed, and the unit in nanoseconds.
struct row {
    const char *label, *unit;
    double unit_ns;
    // Does the work of one round and answers how many times its unit was done; 0 if the peer can't do it.
    size_t (*run)(const struct peer *peer, const struct row *row);
    // The input, if the work has one.
    const struct names *names;
    struct text text;
    // The length of the key buffer, as a multiple of the text's.
    size_t growth;
};

// What the peers answered goes here, so that no call can be left out as unused.
static volatile size_t sink;

static size_t run_keys(const struct peer *peer, const struct row *row) {
    size_t total = 0;
    for (size_t i = 0; i < NAMES; i++) {
        struct text name = row->names->first[i];
        total += peer->prepare(&inputs.table, name, key_buffer(first_key, name, row->growth)).length;
    }
    sink = total;
    return NAMES;
}

static size_t run_equality(const struct peer *peer, const struct row *row) {
    size_t total = 0;
    for (size_t i = 0; i < NAMES; i++) {
        struct text first = row->names->first[i], second = row->names->second[i];
        total += peer->equal(&inputs.table, first, second, key_buffer(first_key, first, row->growth),
                             key_buffer(second_key, second, row->growth));
    }
    sink = total;
    return NAMES;
}

static size_t run_text(const struct peer *peer, const struct row *row) {
    size_t total = 0;
    for (size_t i = 0; i < TEXT_CALLS; i++)
        total += peer->prepare(&inputs.table, row->text, key_buffer(first_key, row->text, row->growth)).length;
    sink = total;
    return TEXT_CALLS;
}

static size_t run_check(const struct peer *peer, const struct row *row) {
    (void)row;
    if (!peer->check) return 0;
    sink = peer->check(&inputs.table);
    return 1;
}

// The call with a check, lent so much room for pages.
static size_t run_checked(const struct peer *peer, const struct row *row, size_t page_length) {
    if (!peer->prepare_checked) return 0;
    const struct page_room pages = {refilled_presence, refilled_ranks, page_length};
    struct text name = row->names->first[0];
    sink = peer->prepare_checked(&inputs.table, pages, name, key_buffer(first_key, name, row->growth)).length;
    return 1;
}

static size_t run_public_call(const struct peer *peer, const struct row *row) {
    return run_checked(peer, row, PAGES);
}

// It is refused for its pages once the table is checked, and fills none.
static size_t run_refused_call(const struct peer *peer, const struct row *row) {
    return run_checked(peer, row, 0);
}

static size_t run_fill(const struct peer *peer, const struct row *row) {
    (void)row;
    if (!peer->fill) return 0;
    sink = peer->fill(&inputs.table, (struct page_room){refilled_presence, refilled_ranks, PAGES});
    return 1;
}

static size_t run_build(const struct peer *peer, const struct row *row) {
    (void)row;
    if (!peer->build) return 0;
    const struct table_room room = {rebuilt_entries, 4 * ENTRIES_MOST, rebuilt_pool, POOL_MOST};
    sink = peer->build(inputs.lines, room).entries_length;
    return 1;
}

static double nanoseconds(void) {
    struct timespec t;
    clock_gettime(CLOCK_MONOTONIC, &t);
    return t.tv_sec * 1e9 + t.tv_nsec;
}

// The best time of each peer at a row, in nanoseconds for one unit; 0 if it can't do it.
static void time_peers(const struct row *row, double best[PEERS]) {
    for (size_t p = 0; p < PEERS; p++) best[p] = 0;
    for (int round = 0; round < ROUNDS; round++)
        for (size_t p = 0; p < PEERS; p++) {
            double start = nanoseconds();
            size_t count = row->run(peers[p], row);
            if (count == 0) continue;
            double each = (nanoseconds() - start) / (double)count;
            if (round == 0 || each < best[p]) best[p] = each;
        }
}

// The width of a peer's column.
static int column(size_t p) {
    int width = (int)strlen(peers[p]->name);
    return width < 12 ? 12 : width;
}

static void print_best(const struct row *row, const double best[PEERS]) {
    printf("%-39s %-7s %9.1f", row->label, row->unit, best[0] / row->unit_ns);
    for (size_t p = 1; p < PEERS; p++)
        if (best[p] > 0)
            printf(" %*.1f %5.2f", column(p), best[p] / row->unit_ns, best[0] / best[p]);
        else
            printf(" %*s %5s", column(p), "-", "-");
    printf("\n");
    fflush(stdout);
}

static void print_row(const struct row *row) {
    double best[PEERS];
    time_peers(row, best);
    print_best(row, best);
}

static void print_heading(void) {
    printf("Best of %d rounds, the programs in turn, the same inputs and buffers: %d times the text, unless it says 4 times.\n",
           ROUNDS, KEY_GROWTH);
    printf("Ratio: Mundeziwa's time over the other's; below 1, Mundeziwa is quicker. C over pages works on the library's own\n");
    printf("slices, with the shift DFA the text is judged by shifts. NFKC_Casefold is another fold.\n\n");
    printf("%-39s %-7s %9s", "", "unit", peers[0]->name);
    for (size_t p = 1; p < PEERS; p++) printf(" %*s %5s", column(p), peers[p]->name, "ratio");
    printf("\n");
}

static void print_keys(void) {
    const struct text none = {NULL, 0}, mixed_text = {inputs.mixed_text, TEXT_MOST}, prose = {inputs.prose, TEXT_MOST};
    const struct row rows[] = {
        {"Latin names, keys", "ns/name", 1, run_keys, &inputs.latin, none, KEY_GROWTH},
        {"Latin names, keys, buffer of 4 times", "ns/name", 1, run_keys, &inputs.latin, none, SHORT_GROWTH},
        {"Latin names, equality", "ns/pair", 1, run_equality, &inputs.latin, none, KEY_GROWTH},
        {"names of many scripts, keys", "ns/name", 1, run_keys, &inputs.mixed, none, KEY_GROWTH},
        {"many scripts, keys, buffer of 4 times", "ns/name", 1, run_keys, &inputs.mixed, none, SHORT_GROWTH},
        {"names of many scripts, equality", "ns/pair", 1, run_equality, &inputs.mixed, none, KEY_GROWTH},
        {"text of many scripts, 4,096 octets", "us", 1e3, run_text, NULL, mixed_text, KEY_GROWTH},
        {"text of many scripts, buffer of 4 times", "us", 1e3, run_text, NULL, mixed_text, SHORT_GROWTH},
        {"English prose, 4,096 octets", "us", 1e3, run_text, NULL, prose, KEY_GROWTH},
        {"English prose, buffer of 4 times", "us", 1e3, run_text, NULL, prose, SHORT_GROWTH},
    };
    for (size_t i = 0; i < sizeof rows / sizeof *rows; i++) print_row(&rows[i]);
}

static void print_tables(void) {
    const struct text none = {NULL, 0};
    const struct row build = {"building the table", "us", 1e3, run_build, NULL, none, 0};
    const struct row check = {"table check", "us", 1e3, run_check, NULL, none, 0};
    const struct row call = {"public call on one name", "us", 1e3, run_public_call, &inputs.latin, none, KEY_GROWTH};
    const struct row refused = {"of that, the table check", "us", 1e3, run_refused_call, &inputs.latin, none, KEY_GROWTH};
    const struct row fill = {"of that, filling the pages", "us", 1e3, run_fill, NULL, none, 0};
    double called[PEERS], checked[PEERS], filled[PEERS];
    print_row(&build);
    print_row(&check);
    time_peers(&call, called);
    time_peers(&refused, checked);
    time_peers(&fill, filled);
    // The library has no call that fills alone: it is what a call takes that fills, beyond one that is refused before. (The key
    // of the one name is hardly seen.)
    filled[0] = called[0] - checked[0];
    print_best(&call, called);
    print_best(&refused, checked);
    print_best(&fill, filled);
}

// Ends the program if a peer that works by the lent table differs from Mundeziwa: the two would be timed at different work.
static void require_agreement(const struct peer *peer) {
    const char *what = difference(peer, &inputs);
    if (!what) return;
    fprintf(stderr, "%s and Mundeziwa differ: %s\n", peer->name, what);
    exit(1);
}

static void print_table_size(const char *path) {
    size_t count = 0;
    for (struct text rest = inputs.lines; rest.length > 0; count++) take_line(&rest);
    printf("%s: %zu lines, %zu entries, %zu pool numbers\n\n", path, count, inputs.table.entries_length / 4,
           inputs.table.pool_length);
}

// ICU and the like prepare by tables of their own, of another edition perhaps, and by a rule that puts marks in order; by
// NFKC_Casefold only what has neither case nor parts has our key.
static void print_agreement(void) {
    printf("Keys that are Mundeziwa's, of %d Latin names and of %d names of many scripts:\n", NAMES, NAMES);
    for (size_t p = 1; p < PEERS; p++)
        printf("    %-17s %5zu %5zu\n", peers[p]->name, agreeing_keys(peers[p], &inputs, &inputs.latin, KEY_GROWTH),
               agreeing_keys(peers[p], &inputs, &inputs.mixed, KEY_GROWTH));
    printf("\n");
}

int main(int count, char **arguments) {
    const char *path = count > 1 ? arguments[1] : "/usr/share/unicode/UnicodeData.txt";
    make_inputs(&inputs, path);
    for (size_t p = 0; p < PEERS; p++)
        if (peers[p]->by_table) require_agreement(peers[p]);
    print_table_size(path);
    print_agreement();
    print_heading();
    print_keys();
    print_tables();
    return 0;
}
