// ICU as its users would call it from C: each character decoded and titlecased into UTF-16, NFKD over that, and the result turned
// back into UTF-8. Nothing is allocated here. NFKD also orders marks, which RFC 5051 does not.
#include "peers.h"
#include <unicode/uchar.h>
#include <unicode/unorm2.h>
#include <unicode/ustring.h>
#include <unicode/utf16.h>
#include <unicode/utf8.h>

// No character has more than 18 code units in NFKD.
static UChar titled[TEXT_MOST], decomposed[18 * TEXT_MOST];

// Titlecases a text into UTF-16: the number of code units, or -1 if the text is no UTF-8.
static int32_t title(struct text text) {
    int32_t count = 0, length = (int32_t)text.length;
    for (int32_t i = 0; i < length;) {
        UChar32 c;
        U8_NEXT(text.octets, i, length, c);
        if (c < 0) return -1;
        c = u_totitle(c);
        U16_APPEND_UNSAFE(titled, count, c);
    }
    return count;
}

static struct text prepare(const struct table *table, struct text text, struct buffer key) {
    (void)table;
    static const UNormalizer2 *nfkd;
    UErrorCode status = U_ZERO_ERROR;
    if (!nfkd) nfkd = unorm2_getNFKDInstance(&status);
    int32_t count = title(text);
    if (count < 0) return text;
    int32_t units = unorm2_normalize(nfkd, titled, count, decomposed, sizeof decomposed / sizeof *decomposed, &status);
    int32_t length = 0;
    u_strToUTF8((char *)key.octets, (int32_t)key.length, &length, decomposed, units, &status);
    if (U_FAILURE(status)) return (struct text){NULL, 0};
    return (struct text){key.octets, (size_t)length};
}

static bool equal(const struct table *table, struct text first, struct text second, struct buffer first_key,
                  struct buffer second_key) {
    return same_octets(prepare(table, first, first_key), prepare(table, second, second_key));
}

const struct peer icu_peer = {.name = "ICU", .prepare = prepare, .equal = equal};
