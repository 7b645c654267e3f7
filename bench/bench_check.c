/* The check of a kept store, as a kept run of an empty sheet, and turn_store beside it; their times should grow in line
   with the items. */
#include "bench.h"
#include "cable_queue.h"
#include "measure.h"
#include "rows.h"
#include "store.h"

#include <stdio.h>
#include <string.h>

#ifndef HAVE_HOST

void bench_check(void) {}

#else

enum { KEYS = 1000000, STIRS = 32, MAX_WORDS = HEAP_WORDS + ITEM_WORDS * MAX_ITEMS };

enum { CHECK, TURN, SIDES };

/* The words of the full store. */
static uint32_t words[MAX_WORDS];
static store full;
static uint8_t out[LINE_ROOM * MAX_LINES];
static char sheet[MAX_BYTES];

static size_t words_len(void) { return HEAP_WORDS + ITEM_WORDS * (size_t)full.items; }

static uint32_t figures[2];

static void run_kept(int sheet_len)
{
    if (kept_run(words, words_len(), (const uint8_t *)sheet, (size_t)sheet_len, out, sizeof out, figures) != 0)
        fail("a kept run is refused", "product");
}

/* Inserts every item into heap 0, in runs of at most 1,000 lines. */
static void insert_all(void)
{
    if (fresh_run(words, words_len(), (const uint8_t *)sheet, 0, out, sizeof out, figures) != 0)
        fail("a fresh run of an empty sheet is refused", "product");
    for (uint32_t item = 0; item < full.items;) {
        int len = 0;
        for (int line = 0; line < 1000 && item < full.items; line++, item++)
            len += sprintf(sheet + len, "I,0,%u,%u\n", item, draw(KEYS));
        run_kept(len);
    }
}

/* Lowers some items, which cuts and marks; then takes the first, which links, and inserts it again. */
static void stir(void)
{
    int len = 0;
    for (uint32_t i = 0; i < full.items / 64; i++) {
        uint32_t item = draw(full.items), key = key_of(&full, full.heap[0].amount, item);
        len += sprintf(sheet + len, "D,%u,%u\n", item, key - draw(key / 4 + 1));
    }
    run_kept(len);
    run_kept(sprintf(sheet, "T,0\nI,0,%u,%u\n", full.heap[0].minimum, draw(KEYS)));
}

/* Every item has to be held; writes the shape that they are held in. */
static void write_shape(char *text)
{
    uint32_t trees = 0, marked = 0, highest = 0;
    for (uint32_t item = 0; item < full.items; item++) {
        const item_words *held = &full.item[item];
        if (held->state == 0)
            fail("an item of the full store is free", "check");
        marked += is_marked(&full, item);
        trees += held->parent == NONE;
        if (held->rank > highest)
            highest = held->rank;
    }
    if (trees < 4 || highest < 4 || marked == 0)
        fail("the full store has too few trees, ranks or marks", "check");
    sprintf(text, "%4u items: %2u trees, ranks to %2u, %3u marked", full.items, trees, highest, marked);
}

static void make_full(uint32_t items)
{
    full = store_at(words, items);
    start_draws(22);
    insert_all();
    for (int i = 0; i < STIRS; i++)
        stir();
}

static void add_time(double ns)
{
    add_value(ns / 1e3, "%6.1f us");
    add_value(ns / full.items, "%5.1f ns an item");
}

#ifdef HAVE_TURN

/* The same in the old order, and what these words are turned into. */
static uint32_t old[MAX_WORDS], turned[MAX_WORDS];

static void turn(void)
{
    if (turn_store(old, words_len(), turned, words_len()) != 0)
        fail("an old store is refused", "product");
}

/* The words of the full store in the old order: those of each kind side by side. */
static void make_old(void)
{
    memcpy(old, words, HEAP_WORDS * sizeof *words);
    for (uint32_t item = 0; item < full.items; item++)
        for (uint32_t kind = 0; kind < ITEM_WORDS; kind++)
            old[HEAP_WORDS + kind * full.items + item] = words[HEAP_WORDS + ITEM_WORDS * item + kind];
}

/* Turned, the old words have to be those that they were made from. */
static void expect_turned(void)
{
    memset(turned, 0, sizeof turned);
    turn();
    if (memcmp(turned, words, words_len() * sizeof *words) != 0)
        fail("a turned store differs from the full store", "product");
}

static void run_side(int side, int input)
{
    (void)input;
    if (side == CHECK)
        run_kept(0);
    else
        turn();
}

static void bench_turn(void)
{
    double ns[SIDES];
    char name[16];
    print_title("turn_store on a full store in the old order");
    for (uint32_t items = 256; items <= MAX_ITEMS; items *= 4) {
        make_full(items);
        make_old();
        expect_turned();
        measure(SIDES, 1, run_side, ns);
        sprintf(name, "%4u items", items);
        begin_row(name, NO_MARK);
        add_time(ns[TURN]);
        add_value(ns[TURN] / ns[CHECK], "%.2f of kept_run");
        add_value(ns[CHECK] / items, "kept_run %.1f ns an item");
        end_row();
    }
}

#else

static void run_side(int side, int input)
{
    (void)side;
    (void)input;
    run_kept(0);
}

static void bench_turn(void) {}

#endif

static void bench_kept(void)
{
    double ns;
    char shape[80];
    print_title("kept_run of an empty sheet on a full store");
    for (uint32_t items = 256; items <= MAX_ITEMS; items *= 2) {
        make_full(items);
        write_shape(shape);
        measure(1, 1, run_side, &ns);
        begin_row(shape, AT_MOST("10 ns"));
        add_time(ns);
        end_row();
    }
}

void bench_check(void)
{
    bench_kept();
    bench_turn();
}

#endif
