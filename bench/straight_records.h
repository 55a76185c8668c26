// Records read and written by hand in C, without proof: the straight loop that the benchmark of records measures by.
#ifndef BENCH_STRAIGHT_RECORDS_H
#define BENCH_STRAIGHT_RECORDS_H

#include <stddef.h>
#include <stdint.h>

// What stands at a position: kind 0 at the end of the slice, 1 a text, 2 a key.
struct straight_record {
    uint16_t kind;
    // Of a key; else 0.
    uint8_t collation, valid;
    uint16_t text_length;
    // Where the octets of the text or the key stand; 0 and 0 at the end.
    size_t start, end;
};

// Reads the record at a position; answers 0, or the number of the refusal.
int straight_read(const uint8_t *records, size_t length, size_t position, struct straight_record *record);

// Writes a text as a record at a position, and moves the position past it; answers 0, or the number of the refusal.
int straight_write_text(const uint8_t *text, size_t text_length, uint8_t *records, size_t length, size_t *position);

#endif
