/* The queue rules in plain C on the words of a store: no index is tested, nothing is proved. */
#ifndef RULES_H
#define RULES_H

#include "store.h"
#include "text.h"

static const heap_words empty_heap = { NONE, NONE, NONE, 0, 0 };

static void make_empty(const store *s)
{
    for (int h = 0; h < HEAPS; h++)
        s->heap[h] = empty_heap;
    memset(s->item, 0, s->items * sizeof *s->item);
}

static inline void free_item(const store *s, uint32_t item) { s->item[item] = (item_words){ 0 }; }

/* Puts a tree at the end of a row, unmarked. */
static inline void append_root(const store *s, uint32_t h, uint32_t tree)
{
    heap_words *heap = &s->heap[h];
    item_words *root = &s->item[tree];
    root->parent = NONE;
    root->next = NONE;
    root->previous = heap->last;
    root->state = unmarked(h);
    if (heap->last == NONE)
        heap->first = tree;
    else
        s->item[heap->last].next = tree;
    heap->last = tree;
}

/* Takes an item out of its sibling list, whose ends are given. */
static inline void unlink_sibling(const store *s, uint32_t item, uint32_t *first, uint32_t *last)
{
    uint32_t next = s->item[item].next, previous = s->item[item].previous;
    if (previous == NONE)
        *first = next;
    else
        s->item[previous].next = next;
    if (next == NONE)
        *last = previous;
    else
        s->item[next].previous = previous;
}

/* Makes loser the last child of winner; the links of rows are not kept up meanwhile. */
static inline void link_under(const store *s, uint32_t loser, uint32_t winner)
{
    item_words *child = &s->item[loser], *parent = &s->item[winner];
    uint32_t last = parent->last_child;
    child->parent = winner;
    child->previous = last;
    child->next = NONE;
    if (last == NONE)
        parent->first_child = loser;
    else
        s->item[last].next = loser;
    parent->last_child = loser;
    parent->rank++;
}

/* Gives a tree a place of its rank, linking it with each holder on the way. Which of the two wins is chosen without a
   branch: if the holder does, they are swapped. */
static inline uint32_t climb(const store *s, uint32_t amount, uint32_t place[RANKS], uint32_t tree)
{
    uint32_t links = 0, rank = s->item[tree].rank;
    while (place[rank] != NONE) {
        uint32_t holder = place[rank], swap = (tree ^ holder) & -(uint32_t)precedes(s, amount, holder, tree);
        place[rank] = NONE;
        tree ^= swap;
        link_under(s, holder ^ swap, tree);
        links++;
        rank++;
    }
    place[rank] = tree;
    return links;
}

/* Makes the row anew from the places, by ascending rank, and finds its minimum, which is NONE in a row of no trees. */
static inline void row_from_places(const store *s, uint32_t h, const uint32_t place[RANKS])
{
    heap_words *heap = &s->heap[h];
    uint32_t last = NONE;
    uint64_t least = UINT64_MAX;
    heap->first = NONE;
    for (int rank = 0; rank < RANKS; rank++) {
        uint32_t tree = place[rank];
        if (tree == NONE)
            continue;
        s->item[tree].parent = NONE;
        s->item[tree].previous = last;
        if (last == NONE)
            heap->first = tree;
        else
            s->item[last].next = tree;
        last = tree;
        uint64_t order = order_of(s, heap->amount, tree);
        least = order < least ? order : least;
    }
    if (last != NONE)
        s->item[last].next = NONE;
    heap->last = last;
    heap->minimum = (uint32_t)least;
}

/* Removes the minimum and links the rest of the row and then the children of the minimum. An empty heap's amount is 0. */
static uint32_t extract_min(const store *s, uint32_t h)
{
    heap_words *heap = &s->heap[h];
    uint32_t place[RANKS], links = 0, amount = heap->amount, taken = heap->minimum, next;
    for (int rank = 0; rank < RANKS; rank++)
        place[rank] = NONE;
    for (uint32_t tree = heap->first; tree != NONE; tree = next) {
        next = s->item[tree].next;
        if (tree != taken)
            links += climb(s, amount, place, tree);
    }
    for (uint32_t tree = s->item[taken].first_child; tree != NONE; tree = next) {
        next = s->item[tree].next;
        s->item[tree].state = unmarked(h);
        links += climb(s, amount, place, tree);
    }
    row_from_places(s, h, place);
    if (--heap->count == 0)
        heap->amount = 0;
    free_item(s, taken);
    return links;
}

static inline void insert(const store *s, uint32_t h, uint32_t item, uint32_t key)
{
    heap_words *heap = &s->heap[h];
    item_words *leaf = &s->item[item];
    leaf->key = key - heap->amount;
    leaf->first_child = leaf->last_child = NONE;
    leaf->rank = 0;
    append_root(s, h, item);
    heap->minimum = heap->minimum == NONE ? item : lesser(s, heap->amount, heap->minimum, item);
    heap->count++;
}

/* Cuts an item from its parent, then every marked ancestor in turn. */
static inline uint32_t cascading_cut(const store *s, uint32_t h, uint32_t item)
{
    uint32_t cuts = 0, parent = s->item[item].parent;
    for (;;) {
        unlink_sibling(s, item, &s->item[parent].first_child, &s->item[parent].last_child);
        s->item[parent].rank--;
        append_root(s, h, item);
        cuts++;
        uint32_t above = s->item[parent].parent;
        if (above == NONE)
            return cuts;
        if (!is_marked(s, parent)) {
            s->item[parent].state++;
            return cuts;
        }
        item = parent;
        parent = above;
    }
}

static inline uint32_t decrease_key(const store *s, uint32_t item, uint32_t key)
{
    uint32_t h = heap_of(s, item), amount = s->heap[h].amount, parent = s->item[item].parent, cuts = 0;
    s->item[item].key = key - amount;
    if (parent != NONE && precedes(s, amount, item, parent))
        cuts = cascading_cut(s, h, item);
    s->heap[h].minimum = lesser(s, amount, s->heap[h].minimum, item);
    return cuts;
}

/* Removes an item that is not its heap's minimum; its children join the row, nothing is linked. */
static uint32_t delete_other(const store *s, uint32_t h, uint32_t item)
{
    heap_words *heap = &s->heap[h];
    uint32_t cuts = 0, next;
    if (s->item[item].parent != NONE)
        cuts = cascading_cut(s, h, item);
    unlink_sibling(s, item, &heap->first, &heap->last);
    for (uint32_t child = s->item[item].first_child; child != NONE; child = next) {
        next = s->item[child].next;
        append_root(s, h, child);
    }
    heap->count--;
    free_item(s, item);
    return cuts;
}

/* The items that come keep their keys under the amount of the heap that they come into. No branch in the pass depends
   on an item. */
static void meld(const store *s, uint32_t into, uint32_t from)
{
    heap_words *a = &s->heap[into], *b = &s->heap[from];
    if (b->count == 0)
        return;
    uint32_t turn = 2 * into - 2 * from, more = b->amount - a->amount;
    for (uint32_t item = 0; item < s->items; item++) {
        uint32_t comes = -(uint32_t)is_in(s, from, item);
        s->item[item].state += turn & comes;
        s->item[item].key += more & comes;
    }
    if (a->count == 0) {
        *a = *b;
        a->amount = 0;
    } else {
        s->item[a->last].next = b->first;
        s->item[b->first].previous = a->last;
        a->last = b->last;
        a->minimum = lesser(s, a->amount, a->minimum, b->minimum);
        a->count += b->count;
    }
    *b = empty_heap;
}

/* The largest key of a heap, 0 if it is empty. No branch in the pass depends on an item. */
static uint32_t largest_key(const store *s, uint32_t h)
{
    uint32_t amount = s->heap[h].amount, largest = 0;
    for (uint32_t item = 0; item < s->items; item++) {
        uint32_t key = key_of(s, amount, item) & -(uint32_t)is_in(s, h, item);
        largest = key > largest ? key : largest;
    }
    return largest;
}

/* One call each: refusals in the order of their codes, then the work. */

static inline answer call_insert(const store *s, uint32_t h, uint32_t item, uint32_t key)
{
    if (h >= HEAPS)
        return refused(7);
    if (item >= s->items)
        return refused(8);
    if (s->item[item].state != 0)
        return refused(9);
    insert(s, h, item, key);
    return done(item, key, 0, 0);
}

static inline answer call_find_min(const store *s, uint32_t h)
{
    if (h >= HEAPS)
        return refused(7);
    uint32_t item = s->heap[h].minimum;
    if (item == NONE)
        return refused(12);
    return done(item, key_of(s, s->heap[h].amount, item), 0, 0);
}

static inline answer call_extract_min(const store *s, uint32_t h)
{
    answer first = call_find_min(s, h);
    if (first.code == 0)
        first.links = extract_min(s, h);
    return first;
}

static inline answer call_decrease_key(const store *s, uint32_t item, uint32_t key)
{
    if (item >= s->items)
        return refused(8);
    if (s->item[item].state == 0)
        return refused(10);
    if (key > key_of(s, s->heap[heap_of(s, item)].amount, item))
        return refused(11);
    return done(item, key, 0, decrease_key(s, item, key));
}

static inline answer call_delete(const store *s, uint32_t item)
{
    if (item >= s->items)
        return refused(8);
    if (s->item[item].state == 0)
        return refused(10);
    uint32_t h = heap_of(s, item);
    answer a = done(item, key_of(s, s->heap[h].amount, item), 0, 0);
    if (s->heap[h].minimum == item)
        a.links = extract_min(s, h);
    else
        a.cuts = delete_other(s, h, item);
    return a;
}

static inline answer call_meld(const store *s, uint32_t into, uint32_t from)
{
    if (into >= HEAPS || from >= HEAPS)
        return refused(7);
    if (into == from)
        return refused(13);
    meld(s, into, from);
    return done(into, s->heap[into].count, 0, 0);
}

static inline answer call_raise(const store *s, uint32_t h, uint32_t by)
{
    if (h >= HEAPS)
        return refused(7);
    uint32_t count = s->heap[h].count;
    if (count > 0) {
        if (by > UINT32_MAX - largest_key(s, h))
            return refused(25);
        s->heap[h].amount += by;
    }
    return done(h, count, 0, 0);
}

#endif
