// libunistring: each character decoded and titlecased into UTF-32, NFKD over that, and the result turned back into UTF-8, all in
// buffers lent to it. NFKD also orders marks, which RFC 5051 does not.
#include "peers.h"
#include <stdlib.h>
#include <unicase.h>
#include <uninorm.h>
#include <unistr.h>

// No character has more than 18 code points in NFKD.
static uint32_t titled[TEXT_MOST], decomposed[18 * TEXT_MOST];

// Titlecases a text into UTF-32: the number of code points, or -1 if the text is no UTF-8.
static ptrdiff_t title(struct text text) {
    ptrdiff_t count = 0;
    for (size_t i = 0; i < text.length;) {
        ucs4_t c;
        int width = u8_mbtoucr(&c, text.octets + i, text.length - i);
        if (width < 0) return -1;
        titled[count++] = uc_totitle(c);
        i += (size_t)width;
    }
    return count;
}

static struct text prepare(const struct table *table, struct text text, struct buffer key) {
    (void)table;
    ptrdiff_t count = title(text);
    if (count < 0) return text;
    size_t points = sizeof decomposed / sizeof *decomposed, length = key.length;
    if (!u32_normalize(UNINORM_NFKD, titled, (size_t)count, decomposed, &points)) return (struct text){NULL, 0};
    uint8_t *octets = u32_to_u8(decomposed, points, key.octets, &length);
    if (octets == key.octets) return (struct text){octets, length};
    // The key was too long for the buffer, and stands in memory of the library's.
    free(octets);
    return (struct text){NULL, 0};
}

static bool equal(const struct table *table, struct text first, struct text second, struct buffer first_key,
                  struct buffer second_key) {
    return same_octets(prepare(table, first, first_key), prepare(table, second, second_key));
}

const struct peer unistring_peer = {.name = "libunistring", .prepare = prepare, .equal = equal};
