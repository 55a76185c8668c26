/* Pages are mapped once for each slot: shut, open, shut. */
#define _DEFAULT_SOURCE
#include "lent.h"
#include <stdio.h>
#include <stdlib.h>
#include <string.h>
#include <sys/mman.h>

/* A multiple of every machine's page size. */
#define SHUT ((size_t)1 << 16)

uint8_t pattern[LENT_MOST];

void fill_pattern(void) {
    for (size_t at = 0; at < LENT_MOST; at++)
        pattern[at] = (uint8_t)(0xF8 | at % 7);
}

static uint8_t *map_slot(void) {
    uint8_t *whole = mmap(NULL, LENT_MOST + 2 * SHUT, PROT_NONE, MAP_PRIVATE | MAP_ANONYMOUS, -1, 0);
    if (whole == MAP_FAILED || mprotect(whole + SHUT, LENT_MOST, PROT_READ | PROT_WRITE) != 0) {
        perror("fuzz: pages can't be mapped");
        exit(1);
    }
    return whole + SHUT;
}

static struct lent lend_block(const void *content, size_t size) {
    struct lent lent = {malloc(size), size, NULL};
    lent.block = lent.at;
    if (size > 0)
        memcpy(lent.at, content, size);
    return lent;
}

struct lent lend(enum memory memory, enum slot slot, const void *content, size_t size) {
    static uint8_t *open[SLOTS];
    if (size > LENT_MOST)
        abort();
    if (memory == OWN_BLOCK)
        return lend_block(content, size);
    if (open[slot] == NULL)
        open[slot] = map_slot();
    uint8_t *at = memory == AFTER_SHUT_PAGES ? open[slot] : open[slot] + LENT_MOST - size;
    if (size > 0)
        memcpy(at, content, size);
    return (struct lent){at, size, NULL};
}

void give_back(struct lent lent) {
    free(lent.block);
}
