// Which names two lists share, written by hand in C, without proof: all keys one after another in the store, and then a hash
// table, or both lists sorted.
#include "straight_lists.h"
#include "straight_records.h"
#include <stdlib.h>

#define BUCKETS 2048
// Runs of at most so many names are sorted by insertion.
#define RUN_MOST 8

// A name's key, and its number in its list.
struct keyed {
    const uint8_t *octets;
    size_t length;
    uint32_t number;
};

static struct keyed first_keys[LIST_MOST], second_keys[LIST_MOST];

// Leaves a peer's key of each name of a list in the store, which is moved past them; false if the list or the store won't do.
static bool make_keys(const struct peer *peer, const struct table *table, struct text list, struct buffer *store,
                      struct keyed *keys, size_t *count) {
    struct straight_record record = {0};
    *count = 0;
    for (;;) {
        if (straight_read(list.octets, list.length, record.end, &record) != 0) return false;
        if (record.kind == 0) return true;
        if (record.kind != 1 || *count == LIST_MOST) return false;
        struct text text = {list.octets + record.start, record.end - record.start};
        struct text key = peer->prepare(table, text, *store);
        if (!key.octets || key.length > store->length) return false;
        if (key.octets == text.octets) memcpy(store->octets, key.octets, key.length);
        keys[*count] = (struct keyed){store->octets, key.length, (uint32_t)*count + 1};
        *store = (struct buffer){store->octets + key.length, store->length - key.length};
        ++*count;
    }
}

static bool make_all_keys(const struct peer *peer, const struct table *table, struct text first, struct text second,
                          struct buffer store, struct shared *shared) {
    shared->equal_pairs = shared->names_with_partner = 0;
    return make_keys(peer, table, first, &store, first_keys, &shared->first_count) &&
           make_keys(peer, table, second, &store, second_keys, &shared->second_count);
}

static inline bool same_key(const struct keyed *one, const struct keyed *other) {
    return one->length == other->length && memcmp(one->octets, other->octets, one->length) == 0;
}

// Eight octets at a time; the last ones are padded with zeros, and the length tells such keys apart.
static inline uint64_t hash(const struct keyed *key) {
    uint64_t hash = key->length, word;
    size_t i = 0;
    for (; i + 8 <= key->length; i += 8) {
        memcpy(&word, key->octets + i, 8);
        hash = (hash ^ word) * 0x9E3779B97F4A7C15u;
        hash ^= hash >> 32;
    }
    word = 0;
    memcpy(&word, key->octets + i, key->length - i);
    hash = (hash ^ word) * 0x9E3779B97F4A7C15u;
    return hash ^ hash >> 32;
}

// A key of the second list: the first name that has it, how many have it, and what else is in its bucket (one more than the
// place, 0 at the end).
struct node {
    uint64_t hash;
    const struct keyed *key;
    uint32_t count, next;
};

static struct node nodes[LIST_MOST];
static uint32_t buckets[BUCKETS];

// The node of a key, or NULL.
static inline struct node *find_node(const struct keyed *key, uint64_t hash) {
    for (uint32_t at = buckets[hash % BUCKETS]; at != 0; at = nodes[at - 1].next) {
        struct node *node = &nodes[at - 1];
        if (node->hash == hash && same_key(node->key, key)) return node;
    }
    return NULL;
}

static void fill_buckets(size_t count) {
    uint32_t used = 0;
    memset(buckets, 0, sizeof buckets);
    for (size_t i = 0; i < count; i++) {
        const struct keyed *key = &second_keys[i];
        uint64_t hashed = hash(key);
        struct node *node = find_node(key, hashed);
        if (node) {
            node->count++;
        } else {
            uint32_t *bucket = &buckets[hashed % BUCKETS];
            nodes[used] = (struct node){hashed, key, 1, *bucket};
            *bucket = ++used;
        }
    }
}

bool share_by_hash(const struct table *table, struct text first, struct text second, struct buffer store, struct shared *shared) {
    if (!make_all_keys(&straight_peer, table, first, second, store, shared)) return false;
    fill_buckets(shared->second_count);
    for (size_t i = 0; i < shared->first_count; i++) {
        const struct node *node = find_node(&first_keys[i], hash(&first_keys[i]));
        shared->partners[i] = node ? node->key->number : 0;
        shared->equal_pairs += node ? node->count : 0;
        shared->names_with_partner += node != NULL;
    }
    return true;
}

// How two keys are ordered, as memcmp says it.
static inline int order_keys(const struct keyed *one, const struct keyed *other) {
    size_t shorter = one->length < other->length ? one->length : other->length;
    int order = memcmp(one->octets, other->octets, shorter);
    return order != 0 ? order : (one->length > other->length) - (one->length < other->length);
}

// The same, equal ones by their numbers.
static int order_names(const void *one, const void *other) {
    const struct keyed *first = one, *second = other;
    int order = order_keys(first, second);
    return order != 0 ? order : (first->number > second->number) - (first->number < second->number);
}

static void sort_run(struct keyed *keys, size_t count) {
    for (size_t i = 1; i < count; i++) {
        struct keyed key = keys[i];
        size_t at = i;
        for (; at > 0 && order_keys(&keys[at - 1], &key) > 0; at--) keys[at] = keys[at - 1];
        keys[at] = key;
    }
}

// Sorts so that equal keys keep their order.
static void merge_sort(struct keyed *keys, size_t count) {
    static struct keyed lower[LIST_MOST];
    if (count <= RUN_MOST) {
        sort_run(keys, count);
        return;
    }
    size_t half = count / 2;
    merge_sort(keys, half);
    merge_sort(keys + half, count - half);
    if (order_keys(&keys[half - 1], &keys[half]) <= 0) return;
    memcpy(lower, keys, half * sizeof *keys);
    size_t i = 0, j = half, at = 0;
    while (i < half && j < count) keys[at++] = order_keys(&lower[i], &keys[j]) <= 0 ? lower[i++] : keys[j++];
    memcpy(keys + at, lower + i, (half - i) * sizeof *keys);
}

// Walks two sorted lists side by side.
static void walk(struct shared *shared) {
    size_t start = 0, end = 0;
    for (size_t i = 0; i < shared->first_count; i++) {
        const struct keyed *key = &first_keys[i];
        // An equal name before this one has found the same names of the second list.
        if (i == 0 || !same_key(key - 1, key)) {
            for (start = end; start < shared->second_count && order_keys(&second_keys[start], key) < 0; start++) continue;
            for (end = start; end < shared->second_count && same_key(&second_keys[end], key); end++) continue;
        }
        shared->positions[i] = key->number;
        shared->partners[key->number - 1] = start < end ? second_keys[start].number : 0;
        shared->equal_pairs += end - start;
        shared->names_with_partner += start < end;
    }
}

bool share_by_qsort(const struct table *table, struct text first, struct text second, struct buffer store,
                    struct shared *shared) {
    if (!make_all_keys(&straight_peer, table, first, second, store, shared)) return false;
    qsort(first_keys, shared->first_count, sizeof *first_keys, order_names);
    qsort(second_keys, shared->second_count, sizeof *second_keys, order_names);
    walk(shared);
    return true;
}

static bool merge_keys_of(const struct peer *peer, const struct table *table, struct text first, struct text second,
                          struct buffer store, struct shared *shared) {
    if (!make_all_keys(peer, table, first, second, store, shared)) return false;
    merge_sort(first_keys, shared->first_count);
    merge_sort(second_keys, shared->second_count);
    walk(shared);
    return true;
}

bool share_by_merge(const struct table *table, struct text first, struct text second, struct buffer store,
                    struct shared *shared) {
    return merge_keys_of(&straight_peer, table, first, second, store, shared);
}

bool share_by_merge_of_our_keys(const struct table *table, struct text first, struct text second, struct buffer store,
                                struct shared *shared) {
    return merge_keys_of(&mundeziwa_peer, table, first, second, store, shared);
}
