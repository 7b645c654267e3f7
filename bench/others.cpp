/* LEMON and Boost behind the reading and printing of plain C. Heaps are kept from run to run and cleared, which spares
   them allocations; lemon_build_and_feed alone makes its graph and heap anew. */
#include "others.h"
#include "text.h"

#ifdef HAVE_LEMON
#include <lemon/bin_heap.h>
#include <lemon/dijkstra.h>
#include <lemon/fib_heap.h>
#include <lemon/static_graph.h>
#endif
#ifdef HAVE_BOOST
#include <boost/heap/fibonacci_heap.hpp>
#endif

#include <functional>
#include <memory>
#include <utility>
#include <vector>

namespace {

/* An item's key less the amount of its heap. Neither wraps, so that what was put into a heap stays in order when the heap
   is raised; the sums of a sheet's 2,000 raises are far below ZERO. */
typedef int64_t rest;

enum { ITEM_BITS = 8 };
const rest ZERO = rest{1} << 50;

/* Item order in one number: the smaller key, then the smaller item. */
uint64_t order_of(uint32_t item, rest key) { return uint64_t(ZERO + key) << ITEM_BITS | item; }
uint32_t item_of(uint64_t order) { return uint32_t(order & (MODEM_ITEMS - 1)); }
rest rest_of(uint64_t order) { return rest(order >> ITEM_BITS) - ZERO; }

/* Eight heaps of one library, and what refusals need to know. */
template <class Heap> struct queue_of {
    Heap heap[HEAPS];
    uint8_t home[MODEM_ITEMS]; /* 0 for a free item, else 1 + its heap */
    rest less[MODEM_ITEMS], amount[HEAPS];

    void make_empty()
    {
        for (Heap &one : heap)
            one.make_empty();
        memset(home, 0, sizeof home);
        memset(amount, 0, sizeof amount);
    }

    uint32_t heap_of(uint32_t item) const { return home[item] - 1; }
    bool is_in(uint32_t h, uint32_t item) const { return home[item] == 1 + h; }
    uint32_t key_of(uint32_t item) const { return uint32_t(less[item] + amount[heap_of(item)]); }

    /* No branch in the pass depends on an item, as in plain C. */
    uint32_t largest_key(uint32_t h) const
    {
        uint32_t largest = 0;
        for (uint32_t item = 0; item < MODEM_ITEMS; item++) {
            uint32_t key = uint32_t(less[item] + amount[h]) & -uint32_t(is_in(h, item));
            largest = key > largest ? key : largest;
        }
        return largest;
    }

    /* No branch in this pass depends on an item either. */
    void move_items(uint32_t into, uint32_t from, rest more)
    {
        for (uint32_t item = 0; item < MODEM_ITEMS; item++) {
            bool comes = is_in(from, item);
            home[item] = uint8_t(comes ? 1 + into : home[item]);
            less[item] += comes ? more : 0;
        }
    }

    void let_go(uint32_t item)
    {
        uint32_t h = heap_of(item);
        home[item] = 0;
        if (heap[h].size() == 0)
            amount[h] = 0;
    }
};

template <class Heap> answer call_insert(queue_of<Heap> *q, uint32_t h, uint32_t item, uint32_t key)
{
    if (h >= HEAPS)
        return refused(7);
    if (item >= MODEM_ITEMS)
        return refused(8);
    if (q->home[item] != 0)
        return refused(9);
    q->home[item] = uint8_t(1 + h);
    q->less[item] = key - q->amount[h];
    q->heap[h].push(item, order_of(item, q->less[item]));
    return done(item, key, 0, 0);
}

template <class Heap> answer call_find_min(queue_of<Heap> *q, uint32_t h)
{
    if (h >= HEAPS)
        return refused(7);
    if (q->heap[h].size() == 0)
        return refused(12);
    uint64_t first = q->heap[h].top();
    return done(item_of(first), uint32_t(rest_of(first) + q->amount[h]), 0, 0);
}

template <class Heap> answer call_extract_min(queue_of<Heap> *q, uint32_t h)
{
    answer first = call_find_min(q, h);
    if (first.code == 0) {
        q->heap[h].pop();
        q->let_go(first.item);
    }
    return first;
}

template <class Heap> answer call_decrease_key(queue_of<Heap> *q, uint32_t item, uint32_t key)
{
    if (item >= MODEM_ITEMS)
        return refused(8);
    if (q->home[item] == 0)
        return refused(10);
    if (key > q->key_of(item))
        return refused(11);
    uint32_t h = q->heap_of(item);
    q->less[item] = key - q->amount[h];
    q->heap[h].lower(item, order_of(item, q->less[item]));
    return done(item, key, 0, 0);
}

template <class Heap> answer call_delete(queue_of<Heap> *q, uint32_t item)
{
    if (item >= MODEM_ITEMS)
        return refused(8);
    if (q->home[item] == 0)
        return refused(10);
    answer gone = done(item, q->key_of(item), 0, 0);
    q->heap[q->heap_of(item)].erase(item);
    q->let_go(item);
    return gone;
}

/* Puts all of a heap into another, where their orders differ by the amounts. */
template <class Heap> void take_one_by_one(Heap &into, Heap &from, rest more)
{
    for (; from.size() != 0; from.pop()) {
        uint32_t item = item_of(from.top());
        into.push(item, order_of(item, rest_of(from.top()) + more));
    }
}

template <class Heap> answer call_meld(queue_of<Heap> *q, uint32_t into, uint32_t from)
{
    if (into >= HEAPS || from >= HEAPS)
        return refused(7);
    if (into == from)
        return refused(13);
    rest more = q->amount[from] - q->amount[into];
    q->heap[into].take_all(q->heap[from], more);
    q->move_items(into, from, more);
    q->amount[from] = 0;
    return done(into, q->heap[into].size(), 0, 0);
}

template <class Heap> answer call_raise(queue_of<Heap> *q, uint32_t h, uint32_t by)
{
    if (h >= HEAPS)
        return refused(7);
    uint32_t count = q->heap[h].size();
    if (count > 0) {
        if (by > UINT32_MAX - q->largest_key(h))
            return refused(25);
        q->amount[h] += by;
    }
    return done(h, count, 0, 0);
}

template <class Heap> uint32_t fresh_sheet(const uint8_t *sheet, size_t sheet_len, uint8_t *out, size_t out_len)
{
    static queue_of<Heap> queue;
    uint32_t fault = run_fault(sheet, sheet_len, out_len);
    if (fault != 0)
        return REFUSED_RUN + fault;
    queue.make_empty();
    return run_lines(&queue, sheet, sheet_len, out);
}

} // namespace

#ifdef HAVE_LEMON
namespace {

/* Where LEMON's heap keeps an item; -1 for one that it has not seen. */
struct lemon_places {
    typedef uint32_t Key;
    typedef int Value;
    int place[MODEM_ITEMS];

    int operator[](Key item) const { return place[item]; }
    void set(Key item, int at) { place[item] = at; }
};

class lemon_heap {
    lemon_places places;
    lemon::FibHeap<uint64_t, lemon_places> heap{places};

public:
    void make_empty()
    {
        heap.clear();
        memset(places.place, 0xFF, sizeof places.place);
    }

    uint32_t size() const { return uint32_t(heap.size()); }
    uint64_t top() const { return heap.prio(); }
    void push(uint32_t item, uint64_t order) { heap.push(item, order); }
    void pop() { heap.pop(); }
    void lower(uint32_t item, uint64_t order) { heap.decrease(item, order); }
    void erase(uint32_t item) { heap.erase(item); }

    /* LEMON joins no heaps, so the items go one by one. */
    void take_all(lemon_heap &other, rest more) { take_one_by_one(*this, other, more); }
};

#define QUEUE queue_of<lemon_heap>
#include "sheet.h"

typedef lemon::StaticDigraph graph;
typedef graph::ArcMap<uint32_t> loss_map;
typedef graph::NodeMap<int> place_map;
template <template <class, class, class> class Heap>
using finder = typename lemon::Dijkstra<graph, loss_map>::SetStandardHeap<
    Heap<uint32_t, place_map, std::less<uint32_t>>>::Create;

/* A graph is built from the ends of its spans; their list is kept, which spares an allocation. */
void build_graph(graph &spans, uint32_t places, const uint32_t *from, const uint32_t *to, size_t count)
{
    static std::vector<std::pair<int, int>> ends;
    ends.clear();
    for (size_t i = 0; i < count; i++)
        ends.emplace_back(int(from[i]), int(to[i]));
    spans.build(int(places), ends.begin(), ends.end());
}

void set_losses(loss_map &losses, const uint32_t *loss, size_t count)
{
    for (size_t i = 0; i < count; i++)
        losses.set(graph::arc(int(i)), loss[i]);
}

template <class Finder> void feed(Finder &finder, const graph &spans, uint32_t start, uint32_t *best)
{
    finder.run(graph::node(int(start)));
    for (int place = 0; place < spans.nodeNum(); place++) {
        graph::Node node = graph::node(place);
        best[place] = finder.reached(node) ? finder.dist(node) : UINT32_MAX;
    }
}

} // namespace

uint32_t lemon_queue_run(const uint8_t *sheet, size_t sheet_len, uint8_t *out, size_t out_len)
{
    return fresh_sheet<lemon_heap>(sheet, sheet_len, out, out_len);
}

struct lemon_map {
    graph spans;
    std::unique_ptr<loss_map> loss;
    std::unique_ptr<finder<lemon::FibHeap>> fibonacci;
    std::unique_ptr<finder<lemon::BinHeap>> binary;
};

lemon_map *lemon_build(uint32_t places, const uint32_t *from, const uint32_t *to, const uint32_t *loss, size_t spans)
{
    lemon_map *map = new lemon_map;
    build_graph(map->spans, places, from, to, spans);
    map->loss.reset(new loss_map(map->spans));
    set_losses(*map->loss, loss, spans);
    map->fibonacci.reset(new finder<lemon::FibHeap>(map->spans, *map->loss));
    map->binary.reset(new finder<lemon::BinHeap>(map->spans, *map->loss));
    return map;
}

void lemon_feed_fibonacci(lemon_map *map, uint32_t start, uint32_t *best)
{
    feed(*map->fibonacci, map->spans, start, best);
}

void lemon_feed_binary(lemon_map *map, uint32_t start, uint32_t *best) { feed(*map->binary, map->spans, start, best); }

void lemon_build_and_feed(uint32_t places, const uint32_t *from, const uint32_t *to, const uint32_t *loss, size_t spans,
                          uint32_t start, uint32_t *best)
{
    graph map;
    build_graph(map, places, from, to, spans);
    loss_map losses(map);
    set_losses(losses, loss, spans);
    finder<lemon::FibHeap> search(map, losses);
    feed(search, map, start, best);
}

#endif

#ifdef HAVE_BOOST
namespace {

class boost_heap {
    /* Boost's first is the greatest by its comparison, so that an increase there lowers the key. */
    typedef boost::heap::fibonacci_heap<uint64_t, boost::heap::compare<std::greater<uint64_t>>> heap_type;
    heap_type heap;

    /* One list for all heaps: an item is in one of them, and joining moves no node. */
    static heap_type::handle_type handle[MODEM_ITEMS];

public:
    void make_empty() { heap.clear(); }
    uint32_t size() const { return uint32_t(heap.size()); }
    uint64_t top() const { return heap.top(); }
    void push(uint32_t item, uint64_t order) { handle[item] = heap.push(order); }
    void pop() { heap.pop(); }
    void lower(uint32_t item, uint64_t order) { heap.increase(handle[item], order); }
    void erase(uint32_t item) { heap.erase(handle[item]); }

    /* A merge leaves orders as they are, so heaps of different amounts are not merged. */
    void take_all(boost_heap &other, rest more)
    {
        if (more == 0)
            heap.merge(other.heap);
        else
            take_one_by_one(*this, other, more);
    }
};

boost_heap::heap_type::handle_type boost_heap::handle[MODEM_ITEMS];

#define QUEUE queue_of<boost_heap>
#include "sheet.h"

} // namespace

uint32_t boost_queue_run(const uint8_t *sheet, size_t sheet_len, uint8_t *out, size_t out_len)
{
    return fresh_sheet<boost_heap>(sheet, sheet_len, out, out_len);
}

#endif
