#include "names.h"
#include "expect.h"
#include "mundeziwa.h"
#include <string.h>

const struct text *take_name(struct input *input, uint8_t octet, struct stock *stock) {
    static struct text text;
    text.length = 0;
    if (octet >= 0xC0 && octet < 0xE0)
        return octet - 0xC0u < stock->count ? &stock->texts[octet - 0xC0] : &text;
    if (octet < 0xC0)
        take_octets(input, octet, &text);
    else
        take_text(input, &text);
    if (stock->count < STOCK_MOST)
        stock->texts[stock->count++] = text;
    return &text;
}

size_t take_room(struct input *input, size_t most, size_t needed) {
    uint8_t octet = take_octet(input);
    const size_t rooms[] = {most, needed, needed > 0 ? needed - 1 : 0, octet / 4};
    size_t room = rooms[octet % 4];
    return room < LENT_MOST ? room : LENT_MOST;
}

int is_collation(uint32_t collation) {
    return collation >= MZ_OCTET && collation <= MZ_UNICODE_CASEMAP;
}

int order_of(const uint8_t *octets, struct part one, struct part other) {
    size_t common = one.length < other.length ? one.length : other.length;
    int order = common > 0 ? memcmp(octets + one.start, octets + other.start, common) : 0;
    return order != 0 ? order : (one.length > other.length) - (one.length < other.length);
}

void expect_kept_after(struct lent lent, size_t written) {
    EXPECT(written <= lent.size);
    if (lent.size > written)
        EXPECT(memcmp((uint8_t *)lent.at + written, pattern + written, lent.size - written) == 0);
}
