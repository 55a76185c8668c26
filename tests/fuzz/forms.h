/* The calls on texts and lists in both their forms: with the check of the table, which fills the pages, and without it, which reads
 * them. Here both are lent them alike, to be called alike. */
#ifndef FORMS_H
#define FORMS_H

#include "mundeziwa.h"

typedef void preparing(uint32_t, const uint8_t *, size_t, const uint32_t *, size_t, const uint32_t *, size_t, uint64_t *, size_t,
                       uint64_t *, size_t, uint8_t *, size_t, uint64_t *);
typedef void comparing(uint32_t, const uint8_t *, size_t, const uint8_t *, size_t, const uint32_t *, size_t, const uint32_t *, size_t,
                       uint64_t *, size_t, uint64_t *, size_t, uint8_t *, size_t, uint8_t *, size_t, uint64_t *);
typedef void sharing(uint32_t, const uint8_t *, size_t, const uint8_t *, size_t, const uint32_t *, size_t, const uint32_t *, size_t,
                     uint64_t *, size_t, uint64_t *, size_t, uint8_t *, size_t, uint32_t *, size_t, uint32_t *, size_t, uint64_t *);

struct forms {
    int reads_pages; /* and doesn't write them */
    preparing *prepare;
    comparing *equal, *order, *substring;
    sharing *find_shared;
};

extern const struct forms checked, accepted;

#endif
