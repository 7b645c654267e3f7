/* The links and cuts of feed_table beside their ceilings, on maps of three sizes; feed_table beside plain C and LEMON's
   shortest paths, on full maps; what a span costs on maps of three sizes; and feed_budget beside feed_table. */
#include "bench.h"
#include "cable_queue.h"
#include "measure.h"
#include "others.h"
#include "plain.h"
#include "rows.h"
#include "sizes.h"

#include <stdbool.h>
#include <stdio.h>
#include <stdlib.h>
#include <string.h>

enum { WORDS = HEAP_WORDS + ITEM_WORDS * MAX_PLACES, NOON = MINUTES / 2 };

/* Plain C and product work in the same buffers: where they lie decides which of their words share a cache set. */
typedef struct {
    uint32_t best[MAX_PLACES], last[MAX_PLACES], joints[MAX_PLACES], words[WORDS], figures[3], code;
} feed_result;

typedef struct {
    uint32_t from[MAX_SPANS], to[MAX_SPANS], loss[MAX_SPANS], opens[MAX_SPANS], closes[MAX_SPANS];
} span_map;

/* All maps have as many places and spans at a time. */
static uint32_t places, spans;
static span_map maps[INPUTS];
static feed_result result, plain;

#define SPAN_LISTS(m) (m)->from, spans, (m)->to, spans, (m)->loss, spans, (m)->opens, spans, (m)->closes, spans
#define TABLE_LISTS result.best, places, result.last, places, result.joints, places
#define STORE_LIST result.words, HEAP_WORDS + ITEM_WORDS * (size_t)places
#define FEED_ARGUMENTS(m) places, 0, NOON, SPAN_LISTS(m), TABLE_LISTS, STORE_LIST, result.figures

static void run_plain(int input) { result.code = plain_feed_table(FEED_ARGUMENTS(&maps[input])); }

#ifdef HAVE_HOST
static void run_product(int input) { result.code = feed_table(FEED_ARGUMENTS(&maps[input])); }
#endif

#ifdef HAVE_LEMON
static lemon_map *lemon_maps[INPUTS];

static void run_fibonacci(int input) { lemon_feed_fibonacci(lemon_maps[input], 0, result.best); }
static void run_binary(int input) { lemon_feed_binary(lemon_maps[input], 0, result.best); }

static void run_built_within(int input)
{
    const span_map *map = &maps[input];
    lemon_build_and_feed(places, map->from, map->to, map->loss, spans, 0, result.best);
}
#endif

enum { PLAIN, PRODUCT, RIVAL, OTHER };

/* Plain C first, then the product, which has to be ahead of the rival. */
static const struct {
    int whose;
    const char *name;
    void (*run)(int input);
} sides[] = {
    { PLAIN, "plain C", run_plain },
#ifdef HAVE_HOST
    { PRODUCT, "product", run_product },
#endif
#ifdef HAVE_LEMON
    { RIVAL, "LEMON FibHeap, graph built before", run_fibonacci },
    { OTHER, "LEMON FibHeap, graph built within", run_built_within },
    { OTHER, "LEMON BinHeap, graph built before", run_binary },
#endif
};

enum { SIDES = sizeof sides / sizeof *sides };

static void run_side(int side, int input) { sides[side].run(input); }

/* Four spans from each place, all of them always open; the first one leads on, so that every place is reached. */
static void make_map(span_map *map, uint32_t number)
{
    start_draws(21 + number);
    for (uint32_t span = 0; span < spans; span++) {
        map->from[span] = span / 4;
        map->to[span] = span % 4 == 0 ? (span / 4 + 1) % places : draw(places);
        map->loss[span] = 1 + draw(MAX_LOSS);
        map->opens[span] = 0;
        map->closes[span] = MINUTES;
    }
}

static void make_maps(uint32_t size)
{
    places = size;
    spans = 4 * size;
    for (uint32_t number = 0; number < INPUTS; number++)
        make_map(&maps[number], number);
}

/* R(n): the largest k with F(k + 2) at most n. */
static uint32_t max_rank(uint32_t n)
{
    uint32_t k = 0;
    for (uint32_t f = 2, before = 1; f <= n; k++) {
        uint32_t next = f + before;
        before = f;
        f = next;
    }
    return k;
}

/* What a full call makes on the first map, beside its ceilings: by the places reached and spans examined, and by the
   map. Plain C counts as the product does, which the tests compare. */
static void print_ceilings(void)
{
    uint32_t reached = 0;
    run_plain(0);
    if (result.code != 0)
        fail("the map is refused", "plain C");
    for (uint32_t place = 0; place < places; place++)
        reached += result.best[place] != CABLE_QUEUE_NONE;
    uint32_t moves = result.figures[0] + result.figures[1], examined = result.figures[2];
    uint32_t by_counts = reached + 4 * (examined + 1 - reached) + reached * max_rank(reached);
    uint32_t by_map = 4 * spans + 1 + places * max_rank(places);
    print_note("%4u places, %5u spans   %5u   ceilings %6u and %6u   %.2f and %.2f of them", places, spans, moves,
               by_counts, by_map, (double)moves / by_counts, (double)moves / by_map);
    if (moves > by_counts || moves > by_map)
        fail("more links and cuts than a ceiling allows", "plain C");
}

static void bench_ceilings(void)
{
    static const uint32_t sizes[] = { 64, 1024, MAX_PLACES };
    print_title("links and cuts of feed_table, with four spans from each place");
    for (size_t size = 0; size < sizeof sizes / sizeof *sizes; size++) {
        make_maps(sizes[size]);
        print_ceilings();
    }
}

/* Runs a map on the first sides: the product owes every word of plain C, LEMON the losses. */
static void expect_agreement(int count, int input)
{
    memset(&result, 0, sizeof result);
    run_side(0, input);
    if (result.code != 0)
        fail("the map is refused", sides[0].name);
    plain = result;
    for (int side = 1; side < count; side++) {
        memset(&result, 0, sizeof result);
        run_side(side, input);
        if (memcmp(&result, &plain, sides[side].whose == PRODUCT ? sizeof result : sizeof result.best) != 0)
            fail("the table differs from that of plain C", sides[side].name);
    }
}

static mark mark_of(int side)
{
    if (sides[side].whose == PRODUCT)
        return AT_MOST("1.10");
    bool is_raced = sides[side].whose == RIVAL && sides[1].whose == PRODUCT;
    return is_raced ? AHEAD(sides[1].name) : NO_MARK;
}

static void bench_table(void)
{
    double ns[SIDES], links = 0, cuts = 0;
    for (int input = 0; input < INPUTS; input++) {
        expect_agreement(SIDES, input);
        links += (double)plain.figures[0] / INPUTS;
        cuts += (double)plain.figures[1] / INPUTS;
    }
    print_title("feed_table: %d maps of %u places and %u spans, about %.0f links, %.0f cuts", INPUTS, places, spans,
                links, cuts);
    measure(SIDES, INPUTS, run_side, ns);
    for (int side = 0; side < SIDES; side++) {
        begin_row(sides[side].name, mark_of(side));
        add_value(ns[side] / 1e6, "%6.3f ms");
        if (side > 0)
            add_value(ns[side] / ns[0], "%.3f of plain C");
        end_row();
    }
}

#ifdef HAVE_HOST
/* Plain C and product, which are the first two sides, on maps of one size. */
static void compare_spans(uint32_t size)
{
    char name[32];
    double ns[2];
    make_maps(size);
    for (int input = 0; input < INPUTS; input++)
        expect_agreement(2, input);
    measure(2, INPUTS, run_side, ns);
    snprintf(name, sizeof name, "%u places, %u spans", places, spans);
    begin_row(name, NO_MARK);
    add_value(ns[1] / spans, "%6.1f ns a span");
    add_value(ns[0] / spans, "plain C %6.1f ns a span");
    add_value(ns[1] / ns[0], "%.3f of plain C");
    end_row();
}

static void bench_spans(void)
{
    print_title("feed_table, cost of a span: %d maps of each size", INPUTS);
    for (uint32_t size = 256; size <= MAX_PLACES; size *= 4)
        compare_spans(size);
}

/* Calls with a budget, plain C and product in turn, after the product's full call. A budget of 0 lists the start alone:
   nearly all of its time is the work that is linear in what is lent. */
enum { LARGEST, ONE_IN_100, LEAST, BUDGETS, FULL = 0, CALLS = 1 + 2 * BUDGETS };

static const char *const budget_names[BUDGETS] = { "largest", "one in a hundred", "0" };
static uint32_t budgets[BUDGETS][INPUTS];
static uint32_t listed[MAX_PLACES], budget_figures[4];

#define BUDGET_ARGUMENTS(m, budget) \
    places, 0, NOON, SPAN_LISTS(m), budget, TABLE_LISTS, listed, places, STORE_LIST, budget_figures

static int plain_call(int budget) { return 1 + 2 * budget; }
static int product_call(int budget) { return 2 + 2 * budget; }

static void run_call(int call, int input)
{
    if (call == FULL) {
        run_product(input);
        return;
    }
    const span_map *map = &maps[input];
    uint32_t budget = budgets[(call - 1) / 2][input];
    if (call % 2 == 1)
        result.code = plain_feed_budget(BUDGET_ARGUMENTS(map, budget));
    else
        result.code = feed_budget(BUDGET_ARGUMENTS(map, budget));
}

static int by_loss(const void *a, const void *b)
{
    uint32_t x = *(const uint32_t *)a, y = *(const uint32_t *)b;
    return (x > y) - (x < y);
}

/* The loss of the place of a map that is the last of one in a hundred. */
static uint32_t budget_for_one_in_100(int input)
{
    static uint32_t losses[MAX_PLACES];
    run_plain(input);
    memcpy(losses, result.best, sizeof losses);
    qsort(losses, places, sizeof *losses, by_loss);
    return losses[places / 100 - 1];
}

static void make_budgets(void)
{
    for (int input = 0; input < INPUTS; input++) {
        budgets[LARGEST][input] = UINT32_MAX;
        budgets[ONE_IN_100][input] = budget_for_one_in_100(input);
        budgets[LEAST][input] = 0;
    }
}

/* What an earlier call left is gone. */
static void run_call_anew(int call, int input)
{
    memset(&result, 0, sizeof result);
    memset(listed, 0, sizeof listed);
    memset(budget_figures, 0, sizeof budget_figures);
    run_call(call, input);
}

/* The product owes plain C's words, list and figures; returns the number of places listed. */
static uint32_t expect_same_list(int budget, int input)
{
    static uint32_t plain_listed[MAX_PLACES], plain_figures[4];
    run_call_anew(plain_call(budget), input);
    if (result.code != 0)
        fail("the map is refused", budget_names[budget]);
    plain = result;
    memcpy(plain_listed, listed, sizeof listed);
    memcpy(plain_figures, budget_figures, sizeof budget_figures);
    run_call_anew(product_call(budget), input);
    if (memcmp(&result, &plain, sizeof result) != 0 || memcmp(listed, plain_listed, sizeof listed) != 0
        || memcmp(budget_figures, plain_figures, sizeof budget_figures) != 0)
        fail("the table differs from that of plain C", budget_names[budget]);
    return budget_figures[3];
}

static void print_budget(int budget, double places_listed, const double *ns)
{
    double time = ns[product_call(budget)];
    begin_row(budget_names[budget], NO_MARK);
    add_value(time / 1e6, "%6.3f ms");
    add_value(places_listed, "lists %4.0f");
    add_value(time / ns[FULL], "%.2f of feed_table");
    add_value(time / ns[plain_call(budget)], "%.3f of plain C");
    end_row();
}

static void bench_budget(void)
{
    double ns[CALLS], places_listed[BUDGETS] = { 0 };
    make_budgets();
    for (int budget = 0; budget < BUDGETS; budget++)
        for (int input = 0; input < INPUTS; input++)
            places_listed[budget] += (double)expect_same_list(budget, input) / INPUTS;
    measure(CALLS, INPUTS, run_call, ns);
    print_title("feed_budget: the same maps");
    begin_row("feed_table", NO_MARK);
    add_value(ns[FULL] / 1e6, "%6.3f ms");
    end_row();
    for (int budget = 0; budget < BUDGETS; budget++)
        print_budget(budget, places_listed[budget], ns);
    double least = ns[product_call(LEAST)];
    print_title("feed_budget and feed_table less the time of budget 0");
    begin_row(budget_names[ONE_IN_100], BELOW("0.1"));
    add_value((ns[product_call(ONE_IN_100)] - least) / (ns[FULL] - least), "%.3f of feed_table");
    end_row();
}
#endif

void bench_feed(void)
{
    bench_ceilings();
    make_maps(MAX_PLACES);
#ifdef HAVE_LEMON
    for (int input = 0; input < INPUTS; input++)
        lemon_maps[input] = lemon_build(places, maps[input].from, maps[input].to, maps[input].loss, spans);
#endif
    bench_table();
#ifdef HAVE_HOST
    bench_budget();
    bench_spans();
#endif
}
