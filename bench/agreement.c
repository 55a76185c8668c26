// Compares what a program answers with what Mundeziwa answers, on all inputs that are timed, on every code point, and on some texts
// that are no UTF-8.
#include "agreement.h"
#include "straight.h"

static uint8_t our_key[KEY_GROWTH * TEXT_MOST], their_key[KEY_GROWTH * TEXT_MOST];

// Whether a peer gives Mundeziwa's key for a text, and its lookup count if it keeps one. A key without room agrees with nothing.
static bool agrees(const struct peer *peer, const struct inputs *inputs, struct text text, size_t growth) {
    struct text ours = mundeziwa_peer.prepare(&inputs->table, text, key_buffer(our_key, text, growth));
    struct text theirs = peer->prepare(&inputs->table, text, key_buffer(their_key, text, growth));
    if (!ours.octets || !theirs.octets || !same_octets(ours, theirs)) return false;
    return !peer->lookups || peer->lookups() == mundeziwa_peer.lookups();
}

size_t agreeing_keys(const struct peer *peer, const struct inputs *inputs, const struct names *names, size_t growth) {
    size_t agreeing = 0;
    for (size_t i = 0; i < NAMES; i++) agreeing += agrees(peer, inputs, names->first[i], growth);
    return agreeing;
}

// How many names a peer gives Mundeziwa's key for once their last octet is cut off, which leaves many of them no UTF-8.
static size_t agreeing_cut_keys(const struct peer *peer, const struct inputs *inputs, const struct names *names) {
    size_t agreeing = 0;
    for (size_t i = 0; i < NAMES; i++) {
        struct text name = names->first[i];
        agreeing += agrees(peer, inputs, (struct text){name.octets, name.length - 1}, KEY_GROWTH);
    }
    return agreeing;
}

// How many names a peer gives Mundeziwa's key for with one octet changed, each in its turn, which leaves many of them no UTF-8.
static size_t agreeing_changed_keys(const struct peer *peer, const struct inputs *inputs, const struct names *names) {
    size_t agreeing = 0;
    begin_draws();
    for (size_t i = 0; i < NAMES; i++) {
        struct text name = names->first[i];
        uint8_t octets[NAME_MOST];
        bool all = true;
        for (size_t at = 0; at < name.length; at++) {
            memcpy(octets, name.octets, name.length);
            octets[at] ^= (uint8_t)(1 + draw(255));
            all &= agrees(peer, inputs, (struct text){octets, name.length}, KEY_GROWTH);
        }
        agreeing += all;
    }
    return agreeing;
}

// Whether a peer gives Mundeziwa's key for every code point by itself.
static bool same_code_points(const struct peer *peer, const struct inputs *inputs) {
    for (uint32_t c = 0; c <= 0x10FFFF; c++) {
        uint8_t octets[4];
        if (!is_scalar(c)) continue;
        size_t width = (size_t)(straight_write(c, octets, octets + 4) - octets);
        if (!agrees(peer, inputs, (struct text){octets, width}, KEY_GROWTH)) return false;
    }
    return true;
}

static bool equal_pair(const struct peer *peer, const struct inputs *inputs, struct text first, struct text second) {
    return peer->equal(&inputs->table, first, second, key_buffer(our_key, first, KEY_GROWTH),
                       key_buffer(their_key, second, KEY_GROWTH));
}

// How many pairs a peer finds equal where Mundeziwa does, and different where it does.
static size_t agreeing_pairs(const struct peer *peer, const struct inputs *inputs, const struct names *names) {
    size_t agreeing = 0;
    for (size_t i = 0; i < NAMES; i++) {
        bool ours = equal_pair(&mundeziwa_peer, inputs, names->first[i], names->second[i]);
        agreeing += equal_pair(peer, inputs, names->first[i], names->second[i]) == ours;
    }
    return agreeing;
}

// Whether a peer finds the two spellings of every Latin name equal.
static bool spellings_equal(const struct peer *peer, const struct inputs *inputs) {
    const struct names *names = &inputs->latin;
    for (size_t i = 0; i < NAMES; i += 2)
        if (!equal_pair(peer, inputs, names->first[i], names->second[i])) return false;
    return true;
}

// Whether a peer fills the same pages.
static bool same_pages(const struct peer *peer, const struct inputs *inputs) {
    static uint64_t presence[PAGES], ranks[PAGES];
    return peer->fill(&inputs->table, (struct page_room){presence, ranks, PAGES}) &&
           memcmp(presence, inputs->table.presence, sizeof presence) == 0 &&
           memcmp(ranks, inputs->table.ranks, sizeof ranks) == 0;
}

// Whether a peer builds the same table.
static bool same_table(const struct peer *peer, const struct inputs *inputs) {
    static uint32_t entries[4 * ENTRIES_MOST], pool[POOL_MOST];
    struct table ours = inputs->table;
    struct table theirs = peer->build(inputs->lines, (struct table_room){entries, 4 * ENTRIES_MOST, pool, POOL_MOST});
    return ours.entries_length == theirs.entries_length && ours.pool_length == theirs.pool_length &&
           memcmp(ours.entries, theirs.entries, ours.entries_length * sizeof *entries) == 0 &&
           memcmp(ours.pool, theirs.pool, ours.pool_length * sizeof *pool) == 0;
}

const char *difference(const struct peer *peer, const struct inputs *inputs) {
    const struct text mixed_text = {inputs->mixed_text, TEXT_MOST}, prose = {inputs->prose, TEXT_MOST};
    if (agreeing_keys(peer, inputs, &inputs->latin, KEY_GROWTH) != NAMES) return "the key of a Latin name";
    if (agreeing_keys(peer, inputs, &inputs->latin, SHORT_GROWTH) != NAMES) return "the key of a Latin name in a short buffer";
    if (agreeing_keys(peer, inputs, &inputs->mixed, KEY_GROWTH) != NAMES) return "the key of a name";
    if (agreeing_cut_keys(peer, inputs, &inputs->mixed) != NAMES) return "the key of a name with its end cut off";
    if (agreeing_changed_keys(peer, inputs, &inputs->mixed) != NAMES) return "the key of a name with an octet changed";
    if (!same_code_points(peer, inputs)) return "the key of a code point";
    if (!agrees(peer, inputs, mixed_text, KEY_GROWTH)) return "the key of the text of many scripts";
    if (!agrees(peer, inputs, prose, KEY_GROWTH)) return "the key of the prose";
    if (agreeing_pairs(peer, inputs, &inputs->latin) != NAMES) return "the equality of Latin names";
    if (agreeing_pairs(peer, inputs, &inputs->mixed) != NAMES) return "the equality of names";
    if (!spellings_equal(peer, inputs)) return "two spellings of a Latin name";
    if (peer->check && !peer->check(&inputs->table)) return "the table check";
    if (peer->fill && !same_pages(peer, inputs)) return "the pages filled";
    if (peer->build && !same_table(peer, inputs)) return "the table built";
    return NULL;
}
