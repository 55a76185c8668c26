// Which names two lists share: Mundeziwa beside straight C with a hash table and with two sorts, and beside Python's dict, in one
// run. First it checks that they agree, on other lists too; then it prints the median of several rounds, those in C in turn. To
// be run in the repository's folder.
#include "list_inputs.h"
#include "straight_lists.h"
#include "../include/mundeziwa_accepted.h"
#include <stdio.h>
#include <stdlib.h>
#include <time.h>

// Long names take a hundred times as long.
#define ROUNDS 201
#define LONG_ROUNDS 11

typedef bool (*sharer)(const struct table *table, struct text first, struct text second, struct buffer store,
                       struct shared *shared);

// Takes what a call of the library answered; whether it was not refused.
static bool take_answer(const uint64_t answer[7], struct shared *shared) {
    shared->first_count = answer[3];
    shared->second_count = answer[4];
    shared->equal_pairs = answer[5];
    shared->names_with_partner = answer[6];
    return answer[0] == 0;
}

static bool share_accepted(const struct table *table, struct text first, struct text second, struct buffer store,
                           struct shared *shared) {
    uint64_t answer[7];
    mz_find_shared_accepted(MZ_UNICODE_CASEMAP, first.octets, first.length, second.octets, second.length, table->entries,
                            table->entries_length, table->pool, table->pool_length, table->presence, PAGES, table->ranks, PAGES,
                            store.octets, store.length, shared->partners, LIST_MOST, shared->positions, LIST_MOST, answer);
    return take_answer(answer, shared);
}

// Fills pages of its own at each call.
static bool share_checked(const struct table *table, struct text first, struct text second, struct buffer store,
                          struct shared *shared) {
    static uint64_t presence[PAGES], ranks[PAGES];
    uint64_t answer[7];
    mz_find_shared(MZ_UNICODE_CASEMAP, first.octets, first.length, second.octets, second.length, table->entries,
                   table->entries_length, table->pool, table->pool_length, presence, PAGES, ranks, PAGES, store.octets,
                   store.length, shared->partners, LIST_MOST, shared->positions, LIST_MOST, answer);
    return take_answer(answer, shared);
}

static const struct program {
    const char *name;
    sharer share;
    // Whether it puts the first list's names in order.
    bool sorts;
} programs[] = {
    {"mundeziwa", share_accepted, true},
    {"with check", share_checked, true},
    {"C, hash", share_by_hash, false},
    {"C, qsort", share_by_qsort, true},
    {"C, merge sort", share_by_merge, true},
    {"our keys, C", share_by_merge_of_our_keys, true},
};
#define PROGRAMS (sizeof programs / sizeof *programs)

static struct inputs inputs;
static struct lists lists[LISTS];
// Room for the keys of two lists of the longest names; a call is lent 128 times its names, and never more is used.
static struct buffer store;

static int rounds_of(const struct lists *of) {
    return of->count == LIST_MOST ? ROUNDS : LONG_ROUNDS;
}

static bool run(const struct program *program, const struct lists *of, struct shared *shared) {
    struct buffer lent = {store.octets, KEY_GROWTH * (of->first.length + of->second.length)};
    return program->share(&inputs.table, of->first, of->second, lent, shared);
}

static void make_store(void) {
    for (size_t i = 0; i < LISTS; i++) {
        size_t length = KEY_GROWTH * (lists[i].first.length + lists[i].second.length);
        if (length > store.length) store.length = length;
    }
    store.octets = malloc(store.length);
    if (!store.octets) fail("no memory");
}

static bool same_numbers(const uint32_t *one, const uint32_t *other, size_t count) {
    return memcmp(one, other, count * sizeof *one) == 0;
}

// Whether another program answers as Mundeziwa does.
static bool agrees(const struct program *program, const struct lists *of, const struct shared *ours) {
    static struct shared theirs;
    return run(program, of, &theirs) && theirs.first_count == ours->first_count && theirs.second_count == ours->second_count &&
           theirs.equal_pairs == ours->equal_pairs && theirs.names_with_partner == ours->names_with_partner &&
           same_numbers(theirs.partners, ours->partners, of->count) &&
           (!program->sorts || same_numbers(theirs.positions, ours->positions, of->count));
}

// Ends the program if another differs from Mundeziwa: the two would be timed at different work.
static const struct shared *require_agreement(const struct lists *of) {
    static struct shared ours;
    if (!run(&programs[0], of, &ours)) fail("Mundeziwa refuses a list");
    for (size_t p = 1; p < PROGRAMS; p++) {
        if (agrees(&programs[p], of, &ours)) continue;
        fprintf(stderr, "%s and Mundeziwa differ on %s\n", programs[p].name, of->label);
        exit(1);
    }
    return &ours;
}

// What Python takes without the order of the names and with it, in nanoseconds; 0 if it isn't here.
struct python_times {
    double unordered, ordered;
};

#ifdef WITH_PYTHON
static void write_file(const char *path, struct text octets) {
    FILE *file = fopen(path, "wb");
    if (!file || fwrite(octets.octets, 1, octets.length, file) != octets.length || fclose(file) != 0)
        fail("build/bench can't be written to");
}

// Python does the work in a process of its own. Ends the program if it finds other totals.
static struct python_times time_python(const struct lists *of) {
    const char *first = "build/bench/first.records", *second = "build/bench/second.records";
    char command[128];
    size_t pairs, partnered;
    struct python_times times;
    write_file(first, of->first);
    write_file(second, of->second);
    snprintf(command, sizeof command, "python3 bench/lists.py %s %s %d", first, second, rounds_of(of));
    FILE *told = popen(command, "r");
    if (!told || fscanf(told, "%zu %zu %lf %lf", &pairs, &partnered, &times.unordered, &times.ordered) != 4)
        fail("Python tells nothing");
    pclose(told);
    if (pairs != of->shared || partnered != of->shared) fail("Python and Mundeziwa differ");
    return times;
}
#else
static struct python_times time_python(const struct lists *of) {
    (void)of;
    return (struct python_times){0, 0};
}
#endif

static double nanoseconds(void) {
    struct timespec t;
    clock_gettime(CLOCK_MONOTONIC, &t);
    return t.tv_sec * 1e9 + t.tv_nsec;
}

static int order_times(const void *one, const void *other) {
    double first = *(const double *)one, second = *(const double *)other;
    return (first > second) - (first < second);
}

// The median time of each program, in nanoseconds.
static void time_programs(const struct lists *of, double medians[PROGRAMS]) {
    static double times[PROGRAMS][ROUNDS];
    static struct shared shared;
    int rounds = rounds_of(of);
    for (int round = 0; round < rounds; round++)
        for (size_t p = 0; p < PROGRAMS; p++) {
            double start = nanoseconds();
            run(&programs[p], of, &shared);
            times[p][round] = nanoseconds() - start;
        }
    for (size_t p = 0; p < PROGRAMS; p++) {
        qsort(times[p], (size_t)rounds, sizeof times[p][0], order_times);
        medians[p] = times[p][rounds / 2];
    }
}

// Another's time, and the ratio of ours to it.
static void print_time(double ours, double theirs) {
    if (theirs > 0)
        printf(" %13.1f %5.2f", theirs * 1e-3, ours / theirs);
    else
        printf(" %13s %5s", "-", "-");
}

static void print_row(const struct lists *of, struct python_times python) {
    double medians[PROGRAMS];
    time_programs(of, medians);
    printf("2 x %4zu, %-28s us %10.1f", of->count, of->label, medians[0] * 1e-3);
    for (size_t p = 1; p < PROGRAMS; p++) print_time(medians[0], medians[p]);
    print_time(medians[0], python.unordered);
    print_time(medians[0], python.ordered);
    printf("\n");
    fflush(stdout);
}

static void print_heading(void) {
    printf("Lists that share a third of their names. Medians of %d rounds (%d of long names), those in C in turn.\n", ROUNDS,
           LONG_ROUNDS);
    printf("Ratio: Mundeziwa's time over the other's. C with a hash table and Python's dict don't put the names in order;\n");
    printf("\"our keys, C\" is the merge sort in C, over keys that Mundeziwa made.\n\n");
    printf("%-38s %-2s %10s", "", "", programs[0].name);
    for (size_t p = 1; p < PROGRAMS; p++) printf(" %13s %5s", programs[p].name, "ratio");
    printf(" %13s %5s %13s %5s\n", "Python, dict", "ratio", "and sorted", "ratio");
}

int main(int count, char **arguments) {
    struct python_times python[LISTS];
    make_inputs(&inputs, count > 1 ? arguments[1] : "/usr/share/unicode/UnicodeData.txt");
    make_lists(lists, &inputs.table);
    make_store();
    const struct lists odd = make_odd_lists();
    require_agreement(&odd);
    for (size_t i = 0; i < LISTS; i++) {
        const struct shared *shared = require_agreement(&lists[i]);
        if (shared->equal_pairs != lists[i].shared || shared->names_with_partner != lists[i].shared)
            fail("lists share other names than they were made with");
        python[i] = time_python(&lists[i]);
    }
    print_heading();
    for (size_t i = 0; i < LISTS; i++) print_row(&lists[i], python[i]);
    return 0;
}
