// utf8proc by the calls that allocate nothing: the titlecase is its custom mapping of each character, then comes NFKD, and each
// code point is encoded into the key buffer. NFKD also orders marks, which RFC 5051 does not.
#include "peers.h"
#include <utf8proc.h>

// No character has more than 18 code points in NFKD.
static utf8proc_int32_t decomposed[18 * TEXT_MOST];

static utf8proc_int32_t title(utf8proc_int32_t c, void *data) {
    (void)data;
    return utf8proc_totitle(c);
}

static struct text prepare(const struct table *table, struct text text, struct buffer key) {
    (void)table;
    utf8proc_ssize_t room = sizeof decomposed / sizeof *decomposed;
    utf8proc_option_t options = UTF8PROC_DECOMPOSE | UTF8PROC_COMPAT;
    utf8proc_ssize_t count =
        utf8proc_decompose_custom(text.octets, (utf8proc_ssize_t)text.length, decomposed, room, options, title, NULL);
    if (count < 0) return text;
    size_t length = 0;
    for (utf8proc_ssize_t i = 0; i < count; i++) {
        if (key.length - length >= 4) {
            length += (size_t)utf8proc_encode_char(decomposed[i], key.octets + length);
            continue;
        }
        utf8proc_uint8_t octets[4];
        size_t width = (size_t)utf8proc_encode_char(decomposed[i], octets);
        if (key.length - length < width) return (struct text){NULL, 0};
        memcpy(key.octets + length, octets, width);
        length += width;
    }
    return (struct text){key.octets, length};
}

static bool equal(const struct table *table, struct text first, struct text second, struct buffer first_key,
                  struct buffer second_key) {
    return same_octets(prepare(table, first, first_key), prepare(table, second, second_key));
}

const struct peer utf8proc_peer = {.name = "utf8proc", .prepare = prepare, .equal = equal};
