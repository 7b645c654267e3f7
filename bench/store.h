/* The words of a store, and what single words say. */
#ifndef STORE_H
#define STORE_H

#include "sizes.h"

#include <stdbool.h>
#include <stdint.h>

#define NONE UINT32_MAX

/* The five words of a heap. An item's key is its key word and the amount of its heap, added with wrapping. */
typedef struct {
    uint32_t first, last, minimum, count, amount;
} heap_words;

/* The eight words of an item, side by side, so that a visit to an item touches one cache line, or two at most. */
typedef struct {
    uint32_t key, parent, first_child, last_child, next, previous, rank, state;
} item_words;

/* The two parts of a store. */
typedef struct {
    uint32_t items;
    heap_words *heap;
    item_words *item;
} store;

static inline store store_at(uint32_t *words, uint32_t items)
{
    return (store){ items, (heap_words *)words, (item_words *)(words + HEAP_WORDS) };
}

/* The key of an item in a heap of the amount. */
static inline uint32_t key_of(const store *s, uint32_t amount, uint32_t item) { return s->item[item].key + amount; }

/* Item order in a heap of the amount as one number: the smaller key, then the smaller item. */
static inline uint64_t order_of(const store *s, uint32_t amount, uint32_t item)
{
    return (uint64_t)key_of(s, amount, item) << 32 | item;
}

static inline bool precedes(const store *s, uint32_t amount, uint32_t a, uint32_t b)
{
    return order_of(s, amount, a) < order_of(s, amount, b);
}

/* The item that comes first, read off the lesser number, so that no branch depends on keys. */
static inline uint32_t lesser(const store *s, uint32_t amount, uint32_t a, uint32_t b)
{
    uint64_t order_a = order_of(s, amount, a), order_b = order_of(s, amount, b);
    return (uint32_t)(order_b < order_a ? order_b : order_a);
}

static inline uint32_t unmarked(uint32_t heap) { return 1 + 2 * heap; }
static inline uint32_t heap_of(const store *s, uint32_t item) { return (s->item[item].state - 1) >> 1; }
static inline bool is_marked(const store *s, uint32_t item) { return (s->item[item].state & 1) == 0; }

/* What heap_of gives for a free item is no heap. */
static inline bool is_in(const store *s, uint32_t heap, uint32_t item) { return heap_of(s, item) == heap; }

#endif
