/* What must hold of the answers, and what the fuzzer learns from them. */
#ifndef EXPECT_H
#define EXPECT_H

#include "lent.h"
#include <stdint.h>
#include <stdio.h>
#include <stdlib.h>

/* Stops with what doesn't hold; the fuzzer then stores the input. */
#define EXPECT(what)                                                              \
    do {                                                                          \
        if (!(what)) {                                                            \
            fprintf(stderr, "%s:%d: doesn't hold: %s\n", __FILE__, __LINE__, #what); \
            abort();                                                              \
        }                                                                         \
    } while (0)

/* Tells the fuzzer that `kind` gave `number`: the library has no counters of its own for it to go by. */
void note(unsigned kind, uint64_t number);

/* The same of a size, which counts by its number of binary digits. */
void note_size(unsigned kind, uint64_t size);

/* Whether a lent slice still is what was lent. */
int is_kept(struct lent lent, const void *content);

/* A refusal says its number, place and detail, and all later fields are 0. */
void expect_refusal(const uint64_t *row, size_t length);

void fuzz_texts(const uint8_t *data, size_t size);

void fuzz_lines(const uint8_t *data, size_t size);

void fuzz_records(const uint8_t *data, size_t size);

void fuzz_lists(const uint8_t *data, size_t size);

void fuzz_many(const uint8_t *data, size_t size);

#endif
