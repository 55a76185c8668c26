// `occurrence::find` beside the C library's memmem, in one run: English-like text, and input made to be slow.
// Prints milliseconds (best of five rounds, the two in turn) and the ratio; the answers are compared, and a difference ends it.
#define _GNU_SOURCE
#include <stdint.h>
#include <stdio.h>
#include <stdlib.h>
#include <string.h>
#include <time.h>

// One more than the lowest place at which the needle stands, or 0 (crates/bench_find).
extern size_t bench_find(const uint8_t *needle, size_t needle_length, const uint8_t *hay, size_t hay_length);

static size_t memmem_find(const uint8_t *needle, size_t needle_length, const uint8_t *hay, size_t hay_length) {
    const uint8_t *at = memmem(hay, hay_length, needle, needle_length);
    return at ? (size_t)(at - hay) + 1 : 0;
}

static double milliseconds(void) {
    struct timespec t;
    clock_gettime(CLOCK_MONOTONIC, &t);
    return t.tv_sec * 1e3 + t.tv_nsec * 1e-6;
}

static void compare(const char *name, const uint8_t *needle, size_t m, const uint8_t *hay, size_t n) {
    double ours = 1e30, theirs = 1e30;
    for (int round = 0; round < 5; round++) {
        double start = milliseconds();
        size_t a = bench_find(needle, m, hay, n);
        double middle = milliseconds();
        size_t b = memmem_find(needle, m, hay, n);
        double end = milliseconds();
        if (a != b) {
            printf("%s: %zu here, %zu by memmem\n", name, a, b);
            exit(1);
        }
        if (middle - start < ours) ours = middle - start;
        if (end - middle < theirs) theirs = end - middle;
    }
    printf("%-34s %9zu %9zu %10.3f %10.3f %7.2f\n", name, m, n, ours, theirs, ours / theirs);
}

// Words of English at random, from a fixed seed.
static void fill_english(uint8_t *hay, size_t n) {
    static const char *words[] = {"the ", "storm ", "of ", "and ", "season ", "with ", "a ", "warning ", "in ", "harbour ", "wind ",
                                  "was ", "to ", "coast ", "for ", "names ", "which ", "reached ", "over ", "night. "};
    uint32_t seed = 1;
    size_t at = 0;
    while (at < n) {
        seed = seed * 1664525 + 1013904223;
        const char *word = words[(seed >> 16) % 20];
        while (*word && at < n) hay[at++] = (uint8_t)*word++;
    }
}

int main(void) {
    printf("%-34s %9s %9s %10s %10s %7s\n", "case", "needle", "hay", "find, ms", "memmem, ms", "ratio");
    for (size_t n = 1 << 20; n <= 1 << 23; n *= 2) {
        uint8_t *hay = malloc(n), *needle = malloc(n);
        if (!hay || !needle) return 1;
        size_t m = n / 8;
        fill_english(hay, n);
        compare("English-like, a rare needle", (const uint8_t *)"hurricane Zebedee", 17, hay, n);
        compare("English-like, common letters", (const uint8_t *)"the season of the wind and it", 29, hay, n);
        memset(hay, 'a', n);
        memset(needle, 'a', m);
        needle[m - 1] = 'b';
        compare("a run, another letter at its end", needle, m, hay, n);
        needle[m - 1] = 'a';
        needle[m / 2] = 'b';
        compare("a run, that letter in the middle", needle, m, hay, n);
        needle[m / 2] = 'a';
        needle[1] = 'b';
        compare("a run, that letter second", needle, m, hay, n);
        for (size_t i = 0; i < n; i++) hay[i] = (uint8_t)"abcabcabd"[i % 9];
        memcpy(needle, hay, m);
        needle[m - 2] = 'z';
        compare("a long periodic needle", needle, m, hay, n);
        free(hay);
        free(needle);
    }
    return 0;
}
