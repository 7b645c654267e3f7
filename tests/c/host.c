/* The entries of libhost.a through the C header: the scope paper's worked runs, and every refusal with everything lent
 * left as it was. Each lent area is a heap block of its exact size, so that valgrind sees any access beyond it. */
#include "cable_queue.h"
#include "check.h"

#define ITEMS 16
#define STORE(items) (40 + 8 * (items))
#define STORE_OF_FOUR(items) (32 + 8 * (items)) /* of four words a heap */
#define COUNT_OF_HEAP_0 3 /* the word */
#define AMOUNT_OF(heap) (5 * (heap) + 4)
#define FILL 0xA5A5A5A5u
#define NONE CABLE_QUEUE_NONE

typedef struct {
    uint8_t *at;
    size_t len;
} bytes;

typedef struct {
    uint32_t *at;
    size_t len;
} words;

static void *block(size_t size) {
    void *at = malloc(size);
    if (at == NULL) abort();
    return at;
}

static bytes filled_bytes(size_t len, int byte) {
    bytes b = { (uint8_t *)block(len), len };
    memset(b.at, byte, len);
    return b;
}

static bytes copy_text(const char *text) {
    bytes b = filled_bytes(strlen(text), 0);
    memcpy(b.at, text, b.len);
    return b;
}

static words copy_words(const uint32_t *from, size_t len) {
    words w = { (uint32_t *)block(4 * len), len };
    if (len > 0) memcpy(w.at, from, 4 * len);
    return w;
}

static words filled(size_t len) {
    words w = { (uint32_t *)block(4 * len), len };
    for (size_t i = 0; i < len; i++) w.at[i] = FILL;
    return w;
}

static int same_words(words a, words b) {
    return a.len == b.len && memcmp(a.at, b.at, 4 * a.len) == 0;
}

/* Every word from a place on is still as filled. */
static int untouched(words w, size_t from) {
    for (size_t i = from; i < w.len; i++)
        if (w.at[i] != FILL) return 0;
    return 1;
}

static int all_hashes(bytes b, size_t from) {
    for (size_t i = from; i < b.len; i++)
        if (b.at[i] != '#') return 0;
    return 1;
}

static int are(const uint32_t *figures, uint32_t a, uint32_t b, uint32_t c) {
    return figures[0] == a && figures[1] == b && figures[2] == c;
}

/* Runs. */

typedef uint32_t run_entry(uint32_t *, size_t, const uint8_t *, size_t, uint8_t *, size_t, uint32_t *);

static size_t lines_of(const char *sheet, size_t len) {
    size_t lines = len > 0 && sheet[len - 1] != '\n';
    for (size_t i = 0; i < len; i++) lines += sheet[i] == '\n';
    return lines;
}

/* The two figures of a run, on the heap so that an access beyond them is seen. */
static int figures_are(words figures, size_t lines, size_t bytes_written) {
    int same = figures.at[0] == lines && figures.at[1] == bytes_written;
    free(figures.at);
    return same;
}

/* The run is done and gives these answers, with their lines and bytes as figures, and leaves the output beyond them. */
static int answers(run_entry *run, words store, const char *sheet, const char *expected) {
    bytes in = copy_text(sheet), out = filled_bytes(32 * strlen(sheet), '#');
    words figures = filled(2);
    size_t len = strlen(expected);
    uint32_t code = run(store.at, store.len, in.at, in.len, out.at, out.len, figures.at);
    int same = code == 0 && memcmp(out.at, expected, len) == 0 && all_hashes(out, len);
    same &= figures_are(figures, lines_of(sheet, in.len), len);
    free(in.at);
    free(out.at);
    return same;
}

/* The run of a sheet of LFs is refused with two zeros, and leaves store and output. */
static int refused(run_entry *run, uint32_t code, words store, size_t lines, size_t out_len) {
    bytes in = filled_bytes(lines, '\n'), out = filled_bytes(out_len, '#');
    words before = copy_words(store.at, store.len), figures = filled(2);
    uint32_t returned = run(store.at, store.len, in.at, in.len, out.at, out.len, figures.at);
    int same = returned == code && all_hashes(out, 0) && same_words(store, before) && figures_are(figures, 0, 0);
    free(in.at);
    free(out.at);
    free(before.at);
    return same;
}

/* The worked sheet, cut at each line's end: a fresh and a kept run give the answers and the store of one run. */
static int same_at_every_cut(words whole) {
    int same = 1;
    for (size_t cut = 0; cut < sizeof worked_sheet; cut++) {
        if (cut > 0 && worked_sheet[cut - 1] != '\n') continue;
        words store = filled(whole.len);
        bytes a = copy_text(worked_sheet), b = copy_text(worked_sheet + cut), out = filled_bytes(16 * 32, '#');
        uint32_t first[2], second[2];
        same &= fresh_run(store.at, store.len, a.at, cut, out.at, out.len, first) == 0;
        size_t n = first[1];
        same &= kept_run(store.at, store.len, b.at, b.len, out.at + n, out.len - n, second) == 0;
        size_t both = n + second[1];
        same &= first[0] + second[0] == 8 && both == strlen(worked_answers);
        same &= memcmp(out.at, worked_answers, both) == 0 && all_hashes(out, both) && same_words(store, whole);
        free(store.at);
        free(a.at);
        free(b.at);
        free(out.at);
    }
    return same;
}

static void try_worked_runs(void) {
    words store = filled(STORE(ITEMS));
    expect("the worked sheet", answers(fresh_run, store, worked_sheet, worked_answers));
    expect("the worked sheet, cut at every line", same_at_every_cut(store));
    expect("run (b)", answers(fresh_run, store, "I,0,0,5\nI,0,1,3\nI,0,2,8\nI,0,3,1\nT,0\n",
                              "0,0,5,0,0\n0,1,3,0,0\n0,2,8,0,0\n0,3,1,0,0\n0,3,1,1,0\n"));
    words other = copy_words(store.at, store.len);
    expect("run (c), kept on (b)", answers(kept_run, store, "D,0,4\n", "0,0,4,0,0\n"));
    expect("run (d), kept on (b)", answers(kept_run, other, "D,0,3\n", "0,0,3,0,1\n"));
    expect("runs (e) to (g)",
           answers(fresh_run, store,
                   "I,0,0,0\nI,0,1,10\nI,0,2,20\nI,0,3,30\nI,0,4,40\nI,0,5,50\nI,0,6,60\nI,0,7,70\nI,0,8,80\nT,0\n"
                   "D,8,5\nD,6,4\nD,7,3\nX,3\n",
                   "0,0,0,0,0\n0,1,10,0,0\n0,2,20,0,0\n0,3,30,0,0\n0,4,40,0,0\n0,5,50,0,0\n0,6,60,0,0\n0,7,70,0,0\n"
                   "0,8,80,0,0\n0,0,0,7,0\n0,8,5,0,1\n0,6,4,0,1\n0,7,3,0,2\n0,3,30,0,1\n"));
    expect("run (h), kept on (g)", answers(kept_run, store, "T,0\n", "0,7,3,3,0\n"));
    expect("every code of a line",
           answers(fresh_run, store, "T,-7\nJ,9,9\nX,16\nI,0,1,5\nI,0,1,5\nX,0\nD,1,6\nT,1\nA,0,4294967291\nJ,2,2\n",
                   "6,0,0,0,0\n7,0,0,0,0\n8,0,0,0,0\n0,1,5,0,0\n9,0,0,0,0\n10,0,0,0,0\n11,0,0,0,0\n12,0,0,0,0\n"
                   "25,0,0,0,0\n13,0,0,0,0\n"));
    expect("zeros before numbers, none in the answers",
           answers(fresh_run, store, "I,07,0000000003,0000000005\nM,007\nT,07\nT,0000000007\nM,0000000000\n",
                   "0,3,5,0,0\n0,3,5,0,0\n0,3,5,0,0\n12,0,0,0,0\n12,0,0,0,0\n"));
    expect("eleven digits, or ten above the largest: 6",
           answers(fresh_run, store, "T,00000000007\nT,00000000000\nT,04294967295\nT,4294967296\nT,4294967295\n",
                   "6,0,0,0,0\n6,0,0,0,0\n6,0,0,0,0\n6,0,0,0,0\n7,0,0,0,0\n"));
    expect("a sheet with zeros, kept on its first lines",
           answers(fresh_run, store, "I,00,01,09\nI,00,02,08\n", "0,1,9,0,0\n0,2,8,0,0\n")
               && answers(kept_run, store, "D,01,007\nT,00\n", "0,1,7,0,0\n0,1,7,0,0\n"));
    free(store.at);
    free(other.at);
}

/* The eight words of an item, side by side. */
enum { KEY, PARENT, FIRST_CHILD, LAST_CHILD, NEXT, PREVIOUS, RANK, STATE };

static uint32_t word_of(words store, int field, uint32_t item) {
    return store.at[STORE(item) + (size_t)field];
}

/* Raises, each row a kept run on what the row before left: a sheet and its answers, and after it the key word of an item
 * and the amount of a heap. */
static const struct {
    const char *what, *sheet, *answers;
    uint32_t item, key_word, heap, amount;
} raises[] = {
    { "a raise", "I,0,1,5\nA,0,10\nM,0\n", "0,1,5,0,0\n0,0,1,0,0\n0,1,15,0,0\n", 1, 5, 0, 10 },
    { "a key below the amount", "I,0,2,3\nM,0\n", "0,2,3,0,0\n0,2,3,0,0\n", 2, UINT32_MAX - 6, 0, 10 },
    { "one too many: 25", "A,0,4294967281\nM,0\n", "25,0,0,0,0\n0,2,3,0,0\n", 1, 5, 0, 10 },
    { "up to the largest key", "A,0,4294967280\nX,1\nM,0\n", "0,0,2,0,0\n0,1,4294967295,0,0\n0,2,4294967283,0,0\n", 2,
      UINT32_MAX - 6, 0, UINT32_MAX - 5 },
    { "lowered by key, not by word", "D,2,4294967284\nD,2,8\n", "11,0,0,0,0\n0,2,8,0,0\n", 2, 14, 0, UINT32_MAX - 5 },
    { "an amount that wraps", "A,0,100\nM,0\n", "0,0,1,0,0\n0,2,108,0,0\n", 2, 14, 0, 94 },
    { "joined into an unraised heap", "I,5,3,200\nJ,5,0\nM,5\n", "0,3,200,0,0\n0,5,2,0,0\n0,2,108,0,0\n", 2, 108, 5, 0 },
    { "the heap that was joined", "A,0,9\nM,0\n", "0,0,0,0,0\n12,0,0,0,0\n", 2, 108, 0, 0 },
    { "joined into a raised heap", "I,1,4,1\nA,1,7\nJ,1,5\nT,1\n", "0,4,1,0,0\n0,1,1,0,0\n0,1,3,0,0\n0,4,8,1,0\n", 2,
      101, 1, 7 },
    { "joined into an empty heap", "J,6,1\nA,6,1\n", "0,6,2,0,0\n0,6,2,0,0\n", 2, 108, 6, 1 },
    { "emptied by T and by X", "T,6\nX,3\n", "0,2,109,0,0\n0,3,201,0,0\n", 3, 0, 6, 0 },
    { "raises of empty heaps", "A,0,4294967295\nA,7,0\nA,8,0\n", "0,0,0,0,0\n0,7,0,0,0\n7,0,0,0,0\n", 0, 0, 0, 0 },
    { "no raises: 6", "A,0\nA,0,1,2\nA,,1\nA,0,4294967296\n", "6,0,0,0,0\n6,0,0,0,0\n6,0,0,0,0\n6,0,0,0,0\n", 0, 0, 0, 0 },
};

static void try_raises(void) {
    words store = filled(STORE(ITEMS)), empty = filled(STORE(ITEMS));
    expect("empty runs", answers(fresh_run, store, "", "") && answers(fresh_run, empty, "", ""));
    for (size_t i = 0; i < sizeof raises / sizeof *raises; i++) {
        expect(raises[i].what, answers(kept_run, store, raises[i].sheet, raises[i].answers));
        expect(raises[i].what, word_of(store, KEY, raises[i].item) == raises[i].key_word);
        expect(raises[i].what, store.at[AMOUNT_OF(raises[i].heap)] == raises[i].amount);
        expect(raises[i].what, store_sound(store.at, store.len) == 1);
    }
    expect("all amounts are 0 again", same_words(store, empty));
    free(store.at);
    free(empty.at);
}

/* The check of a store in which 1 and 2 stand in heap 3, 2 below 1: by keys, under any amount. */
static void try_amounts(void) {
    words store = filled(STORE(ITEMS));
    expect("a linked heap", answers(fresh_run, store, "I,3,0,1\nI,3,1,4\nI,3,2,9\nT,3\n",
                                    "0,0,1,0,0\n0,1,4,0,0\n0,2,9,0,0\n0,0,1,1,0\n"));
    store.at[AMOUNT_OF(3)] = UINT32_MAX - 9;
    expect("keys up to the largest: sound", store_sound(store.at, store.len) == 1);
    expect("they are shown", answers(kept_run, store, "M,3\nA,3,1\n", "0,1,4294967290,0,0\n25,0,0,0,0\n"));
    store.at[AMOUNT_OF(3)] = UINT32_MAX - 8;
    expect("the key below wraps: not sound", store_sound(store.at, store.len) == 0 && refused(kept_run, 5, store, 1, 32));
    store.at[AMOUNT_OF(3)] = UINT32_MAX - 3;
    expect("both wrap: sound", answers(kept_run, store, "M,3\n", "0,1,0,0,0\n"));
    store.at[AMOUNT_OF(4)] = 1;
    expect("an amount on an empty heap: 5", store_sound(store.at, store.len) == 0 && refused(kept_run, 5, store, 1, 32));
    free(store.at);
}

/* So many items, from the highest down, put into heap 0 with key 0. */
static int inserts_down(words store, unsigned highest, unsigned count) {
    char *sheet = (char *)block(2000 * 16), *expected = (char *)block(2000 * 16);
    size_t in = 0, out = 0;
    for (unsigned i = 0; i < count; i++) {
        in += (size_t)sprintf(sheet + in, "I,0,%u,0\n", highest - i);
        out += (size_t)sprintf(expected + out, "0,%u,0,0,0\n", highest - i);
    }
    int same = answers(kept_run, store, sheet, expected);
    free(sheet);
    free(expected);
    return same;
}

/* The largest store: its last item and item 0 meet, then all 4,096 items are linked. */
static void try_largest_store(void) {
    words store = filled(STORE(4096));
    expect("the first and the last item meet",
           answers(fresh_run, store, "I,0,4095,2\nI,0,0,2\nI,0,2048,1\nT,0\n",
                   "0,4095,2,0,0\n0,0,2,0,0\n0,2048,1,0,0\n0,2048,1,1,0\n"));
    expect("the last is the first's child", word_of(store, FIRST_CHILD, 0) == 4095 && word_of(store, RANK, 0) == 1
                                                && word_of(store, PARENT, 4095) == 0);
    expect("all items, from the last down",
           answers(fresh_run, store, "", "") && inserts_down(store, 4095, 2000) && inserts_down(store, 2095, 2000)
               && inserts_down(store, 95, 96));
    /* 4,095 trees of one item are 2,048 and 1,024 and so on down to one */
    expect("linking them all", answers(kept_run, store, "T,0\nT,0\nM,0\n", "0,0,0,4083,0\n0,1,0,0,0\n0,2,0,0,0\n"));
    expect("the largest tree", word_of(store, RANK, 2048) == 11 && word_of(store, PARENT, 2048) == CABLE_QUEUE_NONE
                                   && word_of(store, PARENT, 4095) == 4094);
    free(store.at);
}

static void try_refused_runs(void) {
    words store = filled(STORE(ITEMS)), odd = filled(41), four = filled(STORE_OF_FOUR(0));
    expect("words of no store: 5", refused(kept_run, 5, store, 1, 32));
    expect("words of no store: not sound", store_sound(store.at, store.len) == 0);
    expect("41 words: not sound", store_sound(odd.at, odd.len) == 0);
    expect("32 words: not sound", store_sound(four.at, four.len) == 0);
    expect("the header's number of words", CABLE_QUEUE_STORE_WORDS(0) == 40 && CABLE_QUEUE_STORE_WORDS(256) == 2088);
    expect("no words: not sound", store_sound(odd.at, 0) == 0);
    expect("a fresh run", answers(fresh_run, store, worked_sheet, worked_answers));
    expect("its store: sound", store_sound(store.at, store.len) == 1);

    expect("41 words: 1, before 2", refused(fresh_run, 1, odd, 60001, 0) && refused(kept_run, 1, odd, 60001, 0));
    expect("32 words: 1, before 2", refused(fresh_run, 1, four, 60001, 0) && refused(kept_run, 1, four, 60001, 0));
    expect("60,001 bytes: 2, before 3", refused(fresh_run, 2, store, 60001, 0) && refused(kept_run, 2, store, 60001, 0));
    expect("2,001 lines: 3, before 4", refused(fresh_run, 3, store, 2001, 0) && refused(kept_run, 3, store, 2001, 0));
    expect("31 bytes: 4", refused(fresh_run, 4, store, 1, 31) && refused(kept_run, 4, store, 1, 31));

    expect("an empty fresh run", answers(fresh_run, store, "", "") && store_sound(store.at, store.len) == 1);
    store.at[COUNT_OF_HEAP_0] = 1;
    expect("item count 1, all free: not sound", store_sound(store.at, store.len) == 0);
    expect("item count 1, all free: 5, after 4", refused(kept_run, 5, store, 0, 0) && refused(kept_run, 4, store, 1, 0));
    free(store.at);
    free(odd.at);
    free(four.at);
}

/* Turns. */

#define THREE 3 /* items of the store that is turned here */

/* Heap 3, raised by 10: its row is 2, 0, and 1 stands below 0, marked. Keys 14, 19 and 25. */
static const uint32_t heap_before[5] = { 2, 0, 0, 3, 10 };
static const uint32_t by_kind[8 * THREE] = {
    4,    9,    15,   /* keys, each less 10 */
    NONE, 0,    NONE, /* parents */
    1,    NONE, NONE, /* first children */
    1,    NONE, NONE, /* last children */
    NONE, NONE, 0,    /* next siblings */
    2,    NONE, NONE, /* previous siblings */
    1,    0,    0,    /* ranks */
    7,    8,    7,    /* states */
};
static const uint32_t by_item[8 * THREE] = {
    4,  NONE, 1,    1,    NONE, 2,    1, 7, /* item 0 */
    9,  0,    NONE, NONE, NONE, NONE, 0, 8, /* item 1 */
    15, NONE, NONE, NONE, 0,    NONE, 0, 7, /* item 2 */
};

/* A sheet for the turned store, and what it leaves: 1 is free, and 2 stands below 0. */
static const char then_sheet[] = "M,3\nD,1,13\nA,3,5\nT,3\nM,3\nT,-7\nM,4\n";
static const char then_answers[] =
    "0,0,14,0,0\n0,1,13,0,1\n0,3,3,0,0\n0,1,18,1,0\n0,0,19,0,0\n6,0,0,0,0\n12,0,0,0,0\n";
static const uint32_t heap_after[5] = { 0, 0, 0, 2, 15 };
static const uint32_t by_item_after[8 * THREE] = {
    4,  NONE, 2,    2,    NONE, NONE, 1, 7, /* item 0 */
    0,  0,    0,    0,    0,    0,    0, 0, /* item 1 */
    15, 0,    NONE, NONE, NONE, NONE, 0, 7, /* item 2 */
};

/* A store for three items with these words of heap 3 and of the items; the other heaps are empty. */
static words three_items(const uint32_t *heap_words, const uint32_t *item_words) {
    static const uint32_t empty[5] = { NONE, NONE, NONE, 0, 0 };
    words store = filled(STORE(THREE));
    for (size_t heap = 0; heap < 8; heap++) memcpy(store.at + 5 * heap, heap == 3 ? heap_words : empty, sizeof empty);
    memcpy(store.at + STORE(0), item_words, sizeof by_item);
    return store;
}

/* The turn into so many words returns the code and leaves the old store. Done, it leaves the expected words in the second
 * area; refused, what was there. */
static int turns_under(uint32_t code, words old, size_t turned_len, words expected) {
    words before = copy_words(old.at, old.len), turned = filled(turned_len);
    int same = turn_store(old.at, old.len, turned.at, turned.len) == code && same_words(old, before);
    same &= code == 0 ? same_words(turned, expected) : untouched(turned, 0);
    free(before.at);
    free(turned.at);
    return same;
}

static int turns(words old, words expected) {
    return turns_under(0, old, old.len, expected);
}

static int turn_refused(uint32_t code, words old, size_t turned_len) {
    return turns_under(code, old, turned_len, old);
}

static void try_turns(void) {
    words old = three_items(heap_before, by_kind), turned = three_items(heap_before, by_item);
    words left = three_items(heap_after, by_item_after), store = filled(STORE(THREE));
    expect("a store is turned", turns(old, turned));
    expect("turned already: 5", turn_refused(5, turned, turned.len));
    expect("the old store: not sound", store_sound(old.at, old.len) == 0 && refused(kept_run, 5, old, 1, 32));
    expect("turned to be kept", turn_store(old.at, old.len, store.at, store.len) == 0);
    expect("the turned store: sound", store_sound(store.at, store.len) == 1);
    expect("a kept run on the turned store", answers(kept_run, store, then_sheet, then_answers));
    expect("what it leaves", same_words(store, left) && store_sound(store.at, store.len) == 1);
    free(old.at);
    free(turned.at);
    free(left.at);
    free(store.at);
}

/* A store of free items, or of none, has the same words in both orders. */
static void try_empty_turns(void) {
    static const size_t items[] = { 0, 1, 2, 256, 4096 };
    for (size_t i = 0; i < sizeof items / sizeof *items; i++) {
        words empty = filled(STORE(items[i]));
        expect("an empty store is turned", answers(fresh_run, empty, "", "") && turns(empty, empty));
        free(empty.at);
    }
}

/* One more in each word of the old store: only key words and the amount of heap 3 can be changed alone. */
static void try_changed_turns(void) {
    for (size_t at = 0; at < STORE(THREE); at++) {
        words old = three_items(heap_before, by_kind), expected = three_items(heap_before, by_item);
        int is_key = at >= STORE(0) && at < STORE(0) + THREE;
        old.at[at]++;
        if (is_key) {
            expected.at[STORE(at - STORE(0)) + KEY]++;
            expect("a changed key word", turns(old, expected));
        } else if (at == AMOUNT_OF(3)) {
            expected.at[at]++;
            expect("a changed amount", turns(old, expected));
        } else {
            expect("a changed word: 5", turn_refused(5, old, old.len));
        }
        free(old.at);
        free(expected.at);
    }
}

static void try_lengths_of_turns(void) {
    static const size_t others[] = { 0, 1, 32, 40, 56, 63, 65, 72, STORE(4096), STORE(4097) };
    static const size_t wrong[] = { 0, 1, 32, 39, 41, 47, 49, 63, 65, STORE(4096) - 1, STORE(4096) + 1, STORE(4097) };
    words old = three_items(heap_before, by_kind), unsound = filled(STORE(THREE));
    for (size_t i = 0; i < sizeof others / sizeof *others; i++) {
        expect("areas of different lengths: 1", turn_refused(1, old, others[i]));
        expect("areas of different lengths: 1, before 5", turn_refused(1, unsound, others[i]));
    }
    for (size_t i = 0; i < sizeof wrong / sizeof *wrong; i++) {
        words odd = filled(wrong[i]);
        expect("a length of no store: 1", turn_refused(1, odd, odd.len) && turn_refused(1, odd, STORE(THREE)));
        free(odd.at);
    }
    expect("words of no store: 5", turn_refused(5, unsound, unsound.len));
    free(old.at);
    free(unsound.at);
}

/* The feed table. */

#define MOST 7 /* places and spans of the maps here */

typedef struct {
    uint32_t places, start, minute, from[MOST], to[MOST], loss[MOST], opens[MOST], closes[MOST];
    size_t from_len, to_len, loss_len, opens_len, closes_len, best_len, last_len, joints_len, store_len;
} feed_call;

/* What a call leaves: losses, spans, joints, links and spans examined. No map with such a table here makes a cut. */
typedef struct {
    uint32_t best[MOST], last[MOST], joints[MOST], links, examined;
} table;

#define LENGTHS 3, 3, 3, 3, 3, 3, 3, 3, STORE(3)
static const feed_call worked_map = { 3, 0, 0, { 0, 0, 1 }, { 1, 2, 2 }, { 7, 20, 5 }, { 0, 0, 0 }, { 1440, 1440, 1440 },
                                      LENGTHS };
static const table worked_table = { { 0, 7, 12 }, { NONE, 0, 2 }, { 0, 1, 2 }, 0, 3 };

/* The worked map with a window for each span: place 1 is reached from 100 to 500, by way of it place 2 from 300 to 400. */
static const feed_call map_with_windows = { 3, 0, 0, { 0, 0, 1 }, { 1, 2, 2 }, { 7, 20, 5 }, { 100, 0, 300 },
                                            { 500, 1440, 400 }, LENGTHS };
static const table first_closed = { { 0, NONE, 20 }, { NONE, NONE, 1 }, { 0, NONE, 1 }, 0, 2 };
static const table last_closed = { { 0, 7, 20 }, { NONE, 0, 1 }, { 0, 1, 1 }, 0, 3 };

static const struct {
    uint32_t minute;
    const table *result;
} minutes[] = { { 0, &first_closed },  { 99, &first_closed },  { 100, &last_closed },  { 299, &last_closed },
                { 300, &worked_table }, { 399, &worked_table }, { 400, &last_closed },  { 499, &last_closed },
                { 500, &first_closed }, { 1439, &first_closed } };
#define MINUTES (sizeof minutes / sizeof *minutes)

/* The span lists of a call, each on the heap. */
typedef struct {
    words from, to, loss, opens, closes;
} span_lists;

static span_lists copy_spans(const feed_call *call) {
    span_lists spans = { copy_words(call->from, call->from_len), copy_words(call->to, call->to_len),
                         copy_words(call->loss, call->loss_len), copy_words(call->opens, call->opens_len),
                         copy_words(call->closes, call->closes_len) };
    return spans;
}

static void free_spans(span_lists spans) {
    free(spans.from.at);
    free(spans.to.at);
    free(spans.loss.at);
    free(spans.opens.at);
    free(spans.closes.at);
}

/* The lists that a call fills and its store, each on the heap. */
typedef struct {
    words best, last, joints, store;
} result_lists;

static result_lists filled_results(const feed_call *call) {
    result_lists lists = { filled(call->best_len), filled(call->last_len), filled(call->joints_len),
                           filled(call->store_len) };
    return lists;
}

static int results_untouched(result_lists lists) {
    return untouched(lists.best, 0) && untouched(lists.last, 0) && untouched(lists.joints, 0)
           && untouched(lists.store, 0);
}

static void free_results(result_lists lists) {
    free(lists.best.at);
    free(lists.last.at);
    free(lists.joints.at);
    free(lists.store.at);
}

#define LENT(list) (list).at, (list).len
#define LENT_SPANS(spans)                                                                                               \
    LENT((spans).from), LENT((spans).to), LENT((spans).loss), LENT((spans).opens), LENT((spans).closes)
#define LENT_TABLE(lists) LENT((lists).best), LENT((lists).last), LENT((lists).joints)

static int begins(words w, const uint32_t *expected, size_t count) {
    return w.len >= count && memcmp(w.at, expected, count * sizeof *expected) == 0;
}

/* The store of a fresh run of an empty sheet. */
static int is_empty_store(words store, size_t items) {
    words empty = filled(STORE(items));
    int same = answers(fresh_run, empty, "", "") && same_words(store, empty);
    free(empty.at);
    return same;
}

/* The lists hold the table, and the store is empty. */
static int shows(result_lists lists, const table *result, size_t places) {
    return begins(lists.best, result->best, places) && begins(lists.last, result->last, places)
           && begins(lists.joints, result->joints, places) && is_empty_store(lists.store, places);
}

/* The call returns the code. Done, it leaves the table and an empty store; refused, zeros and nothing else. */
static int feeds(feed_call call, const table *result, uint32_t code) {
    span_lists spans = copy_spans(&call);
    result_lists lists = filled_results(&call);
    words figures = filled(3);
    int same = code == feed_table(call.places, call.start, call.minute, LENT_SPANS(spans), LENT_TABLE(lists),
                                  LENT(lists.store), figures.at);
    if (code == 0) {
        same &= shows(lists, result, call.places) && are(figures.at, result->links, 0, result->examined);
    } else {
        same &= results_untouched(lists) && are(figures.at, 0, 0, 0);
    }
    free(figures.at);
    free_results(lists);
    free_spans(spans);
    return same;
}

/* The feed table within a budget. */

typedef struct {
    uint32_t budget;
    table left;
    uint32_t places, listed[MOST];
} budget_result;

static const budget_result worked_budgets[] = {
    { 0, { { 0, NONE, NONE }, { NONE, NONE, NONE }, { 0, NONE, NONE }, 0, 2 }, 1, { 0, FILL, FILL } },
    { 6, { { 0, NONE, NONE }, { NONE, NONE, NONE }, { 0, NONE, NONE }, 0, 2 }, 1, { 0, FILL, FILL } },
    { 7, { { 0, 7, NONE }, { NONE, 0, NONE }, { 0, 1, NONE }, 0, 3 }, 2, { 0, 1, FILL } },
    { 11, { { 0, 7, NONE }, { NONE, 0, NONE }, { 0, 1, NONE }, 0, 3 }, 2, { 0, 1, FILL } },
    { 12, { { 0, 7, 12 }, { NONE, 0, 2 }, { 0, 1, 2 }, 0, 3 }, 3, { 0, 1, 2 } },
    { UINT32_MAX, { { 0, 7, 12 }, { NONE, 0, 2 }, { 0, 1, 2 }, 0, 3 }, 3, { 0, 1, 2 } },
};

/* The map with windows, at minutes of its own. */
static const struct {
    uint32_t minute;
    budget_result result;
} budgets_at[] = {
    { 99, { 19, { { 0, NONE, NONE }, { NONE, NONE, NONE }, { 0, NONE, NONE }, 0, 2 }, 1, { 0, FILL, FILL } } },
    { 99, { 20, { { 0, NONE, 20 }, { NONE, NONE, 1 }, { 0, NONE, 1 }, 0, 2 }, 2, { 0, 2, FILL } } },
    { 100, { 7, { { 0, 7, NONE }, { NONE, 0, NONE }, { 0, 1, NONE }, 0, 3 }, 2, { 0, 1, FILL } } },
    { 299, { 19, { { 0, 7, NONE }, { NONE, 0, NONE }, { 0, 1, NONE }, 0, 3 }, 2, { 0, 1, FILL } } },
    { 300, { 12, { { 0, 7, 12 }, { NONE, 0, 2 }, { 0, 1, 2 }, 0, 3 }, 3, { 0, 1, 2 } } },
    { 399, { 11, { { 0, 7, NONE }, { NONE, 0, NONE }, { 0, 1, NONE }, 0, 3 }, 2, { 0, 1, FILL } } },
    { 400, { 20, { { 0, 7, 20 }, { NONE, 0, 1 }, { 0, 1, 1 }, 0, 3 }, 3, { 0, 1, 2 } } },
    { 500, { UINT32_MAX, { { 0, NONE, 20 }, { NONE, NONE, 1 }, { 0, NONE, 1 }, 0, 2 }, 2, { 0, 2, FILL } } },
};

/* The call with a place list so long returns the code. Done, it leaves the result worked by hand, the rest of the place
 * list and an empty store; refused, zeros and nothing else. */
static int feeds_within(feed_call call, const budget_result *result, size_t listed_len, uint32_t code) {
    span_lists spans = copy_spans(&call);
    result_lists lists = filled_results(&call);
    words listed = filled(listed_len), figures = filled(4);
    int same = code == feed_budget(call.places, call.start, call.minute, LENT_SPANS(spans), result->budget,
                                   LENT_TABLE(lists), LENT(listed), LENT(lists.store), figures.at);
    if (code == 0) {
        same &= shows(lists, &result->left, call.places);
        same &= begins(listed, result->listed, call.places) && untouched(listed, call.places);
        same &= are(figures.at, result->left.links, 0, result->left.examined) && figures.at[3] == result->places;
    } else {
        same &= results_untouched(lists) && untouched(listed, 0);
        same &= are(figures.at, 0, 0, 0) && figures.at[3] == 0;
    }
    free(listed.at);
    free(figures.at);
    free_results(lists);
    free_spans(spans);
    return same;
}

static void try_tables(void) {
    expect("the worked map", feeds(worked_map, &worked_table, 0));
    for (size_t i = 0; i < MINUTES; i++) {
        feed_call call = worked_map, windows = map_with_windows;
        call.minute = windows.minute = minutes[i].minute;
        expect("the worked map at any minute", feeds(call, &worked_table, 0));
        expect("the map with windows at a minute", feeds(windows, minutes[i].result, 0));
    }
}

static void try_budgets(void) {
    for (size_t i = 0; i < sizeof worked_budgets / sizeof *worked_budgets; i++) {
        expect("the worked map within a budget", feeds_within(worked_map, &worked_budgets[i], 3, 0));
        expect("a longer place list", feeds_within(worked_map, &worked_budgets[i], 9, 0));
        expect("2 words of places, 3 places: 22", feeds_within(worked_map, &worked_budgets[i], 2, 22));
        expect("no words of places, 3 places: 22", feeds_within(worked_map, &worked_budgets[i], 0, 22));
    }
    for (size_t i = 0; i < sizeof budgets_at / sizeof *budgets_at; i++) {
        feed_call call = map_with_windows;
        call.minute = budgets_at[i].minute;
        expect("the map with windows within a budget", feeds_within(call, &budgets_at[i].result, 3, 0));
        expect("a longer place list, windows", feeds_within(call, &budgets_at[i].result, 9, 0));
    }
}

/* Chains of equal loss. */

typedef struct {
    const char *what;
    uint32_t places, start;
    size_t spans;
    uint32_t from[MOST], to[MOST], loss[MOST];
    budget_result result; /* with the largest budget, which is that of the full call too */
} tie;

static const tie ties[] = {
    { "the shorter chain's span has the lower number", 3, 0, 3, { 0, 0, 1 }, { 1, 2, 2 }, { 1, 2, 1 },
      { NONE, { { 0, 1, 2 }, { NONE, 0, 1 }, { 0, 1, 1 }, 0, 3 }, 3, { 0, 1, 2 } } },
    { "the shorter chain's span has the higher number", 3, 2, 3, { 0, 2, 2 }, { 1, 0, 1 }, { 1, 1, 2 },
      { NONE, { { 1, 2, 0 }, { 1, 2, NONE }, { 1, 1, 0 }, 0, 3 }, 3, { 2, 0, 1 } } },
    { "equal lengths, the lower number found later", 4, 2, 4, { 0, 1, 2, 2 }, { 3, 3, 0, 1 }, { 1, 2, 2, 1 },
      { NONE, { { 2, 1, 0, 3 }, { 2, 3, NONE, 0 }, { 1, 1, 0, 2 }, 0, 4 }, 4, { 2, 1, 0, 3 } } },
    { "chains of three, two and one span", 4, 3, 5, { 0, 0, 1, 3, 3 }, { 1, 2, 2, 0, 2 }, { 2, 4, 2, 2, 6 },
      { NONE, { { 2, 4, 6, 0 }, { 3, 0, 4, NONE }, { 1, 2, 1, 0 }, 0, 5 }, 4, { 3, 0, 1, 2 } } },
    { "better while the place waits", 6, 0, 7, { 0, 0, 0, 1, 2, 3, 4 }, { 1, 3, 4, 2, 4, 4, 5 }, { 1, 4, 9, 1, 4, 2, 1 },
      { NONE, { { 0, 1, 2, 4, 6, 7 }, { NONE, 0, 3, 1, 5, 6 }, { 0, 1, 2, 1, 2, 3 }, 1, 7 }, 6, { 0, 1, 2, 3, 4, 5 } } },
};
#define TIES (sizeof ties / sizeof *ties)

/* The last of the ties, with budgets below, at and above the loss of the place where chains meet. */
static const budget_result better_within[] = {
    { 5, { { 0, 1, 2, 4, NONE, NONE }, { NONE, 0, 3, 1, NONE, NONE }, { 0, 1, 2, 1, NONE, NONE }, 1, 6 }, 4,
      { 0, 1, 2, 3, FILL, FILL } },
    { 6, { { 0, 1, 2, 4, 6, NONE }, { NONE, 0, 3, 1, 5, NONE }, { 0, 1, 2, 1, 2, NONE }, 1, 7 }, 5,
      { 0, 1, 2, 3, 4, FILL } },
    { 7, { { 0, 1, 2, 4, 6, 7 }, { NONE, 0, 3, 1, 5, 6 }, { 0, 1, 2, 1, 2, 3 }, 1, 7 }, 6, { 0, 1, 2, 3, 4, 5 } },
};

static feed_call call_of(const tie *t) {
    feed_call call = { t->places, t->start, 720, { 0 }, { 0 }, { 0 }, { 0 }, { 0 }, t->spans, t->spans, t->spans, t->spans,
                       t->spans, t->places, t->places, t->places, STORE(t->places) };
    memcpy(call.from, t->from, sizeof call.from);
    memcpy(call.to, t->to, sizeof call.to);
    memcpy(call.loss, t->loss, sizeof call.loss);
    for (size_t span = 0; span < t->spans; span++) call.closes[span] = 1440;
    return call;
}

static void try_ties(void) {
    for (size_t i = 0; i < TIES; i++) {
        expect(ties[i].what, feeds(call_of(&ties[i]), &ties[i].result.left, 0));
        expect(ties[i].what, feeds_within(call_of(&ties[i]), &ties[i].result, ties[i].places, 0));
    }
    for (size_t i = 0; i < sizeof better_within / sizeof *better_within; i++)
        expect("a tie within a budget", feeds_within(call_of(&ties[TIES - 1]), &better_within[i], 8, 0));
}

/* Spans examined: places 4 and 5 are reached from place 4 only, which has two spans; spans 1 and 2 are open from 360 to 720,
 * span 4 for a minute. Place 3, which is visited last, has no span. */
static const feed_call counted_map = { 6, 0, 0, { 0, 0, 1, 2, 2, 4, 4 }, { 1, 2, 2, 3, 0, 0, 5 }, { 7, 20, 5, 4, 1, 1, 1 },
                                       { 0, 360, 360, 0, 0, 0, 0 }, { 1440, 720, 720, 1440, 1, 1440, 1440 },
                                       7, 7, 7, 7, 7, 6, 6, 6, STORE(6) };

/* Start, minute, budget and spans examined; with the largest budget the full call examines as many. */
static const uint32_t counted[][4] = { { 0, 0, NONE, 3 }, { 0, 360, NONE, 5 }, { 1, 0, NONE, 1 },  { 2, 0, NONE, 5 },
                                       { 3, 360, NONE, 0 }, { 4, 360, NONE, 7 }, { 5, 360, NONE, 0 }, { 0, 360, 0, 2 },
                                       { 0, 360, 6, 2 },    { 0, 360, 7, 3 },    { 0, 360, 11, 3 },   { 0, 360, 12, 5 },
                                       { 4, 360, 1, 4 } };

/* The spans of the call that leave one of the places. */
static uint32_t leaving(const feed_call *call, const uint32_t *places, size_t count) {
    uint32_t spans = 0;
    for (size_t e = 0; e < call->from_len; e++)
        for (size_t i = 0; i < count; i++) spans += call->from[e] == places[i];
    return spans;
}

/* Both calls examine so many spans, and the one with a budget those of the places that it lists. */
static int examines(feed_call call, uint32_t budget, uint32_t examined) {
    span_lists spans = copy_spans(&call);
    result_lists lists = filled_results(&call);
    words listed = filled(call.places), figures = filled(4);
    int same = feed_budget(call.places, call.start, call.minute, LENT_SPANS(spans), budget, LENT_TABLE(lists), LENT(listed),
                           LENT(lists.store), figures.at) == 0;
    same &= figures.at[2] == examined && leaving(&call, listed.at, figures.at[3]) == examined;
    if (budget == NONE) {
        same &= feed_table(call.places, call.start, call.minute, LENT_SPANS(spans), LENT_TABLE(lists), LENT(lists.store),
                           figures.at) == 0;
        same &= figures.at[2] == examined;
    }
    free(listed.at);
    free(figures.at);
    free_results(lists);
    free_spans(spans);
    return same;
}

static void try_counts(void) {
    for (size_t i = 0; i < sizeof counted / sizeof *counted; i++) {
        feed_call call = counted_map;
        call.start = counted[i][0];
        call.minute = counted[i][1];
        expect("spans examined", examines(call, counted[i][2], counted[i][3]));
    }
}

/* Ceilings on links and cuts. */

#define DENSE 11 /* places of the dense map */

/* So many spans that are always open, with nothing else in them yet. */
static span_lists open_spans(size_t count) {
    span_lists spans = { filled(count), filled(count), filled(count), filled(count), filled(count) };
    for (size_t e = 0; e < count; e++) {
        spans.opens.at[e] = 0;
        spans.closes.at[e] = 1440;
    }
    return spans;
}

static void put_span(span_lists spans, size_t e, uint32_t from, uint32_t to, uint32_t loss) {
    spans.from.at[e] = from;
    spans.to.at[e] = to;
    spans.loss.at[e] = loss;
}

/* The start has a span to each other place, whose loss is its number. */
static span_lists star(uint32_t places) {
    span_lists spans = open_spans(places - 1);
    for (uint32_t to = 1; to < places; to++) put_span(spans, to - 1, 0, to, to);
    return spans;
}

/* Each place has a span to all later ones, the furthest first: the next is settled at one more than the place itself, the
 * others are offered one less than by the place before, so that each is lowered below all others that wait. */
static span_lists dense(uint32_t places) {
    span_lists spans = open_spans(places * (places - 1) / 2);
    size_t e = 0;
    for (uint32_t from = 0; from < places; from++)
        for (uint32_t to = places - 1; to > from; to--)
            put_span(spans, e++, from, to, to == from + 1 ? 1 : 2 * (places - from));
    return spans;
}

/* Closes at noon the spans that lead on by an even number of places: about half of them, and none to the next place. */
static void close_half(span_lists spans) {
    for (size_t e = 0; e < spans.closes.len; e++)
        if ((spans.to.at[e] - spans.from.at[e]) % 2 == 0) spans.closes.at[e] = 720;
}

/* R(n), for n of at least 1: the largest k with F(k + 2) <= n. */
static uint32_t greatest_rank(uint32_t n) {
    uint32_t rank = 0, last = 1, next = 2; /* F(rank + 2) and F(rank + 3) */
    while (next <= n) {
        uint32_t sum = last + next;
        last = next;
        next = sum;
        rank++;
    }
    return rank;
}

/* For p places and e spans, p from 1 to e + 1. */
static uint32_t ceiling(uint32_t p, uint32_t e) {
    return p + 4 * (e + 1 - p) + p * greatest_rank(p);
}

static uint32_t map_ceiling(uint32_t places, uint32_t spans) {
    return 4 * spans + 1 + places * greatest_rank(places);
}

static uint32_t reached_in(words best) {
    uint32_t reached = 0;
    for (size_t p = 0; p < best.len; p++) reached += best.at[p] != NONE;
    return reached;
}

/* What holds for every call that is done: no term of a ceiling is negative, and links and cuts are at most that of the
 * call and the two of the map. */
static int are_within(uint32_t places, uint32_t spans, words best, words figures) {
    uint32_t reached = reached_in(best), moves = figures.at[0] + figures.at[1], examined = figures.at[2];
    int is_sharper = places >= 5 && places <= spans + 1;
    return reached >= 1 && reached <= examined + 1 && moves <= ceiling(reached, examined)
           && moves <= map_ceiling(places, spans) && (!is_sharper || moves <= ceiling(places, spans));
}

/* The full call at noon has these figures, so many places reached, and keeps every ceiling. */
static int keeps_ceilings(uint32_t places, span_lists spans, uint32_t reached, uint32_t links, uint32_t cuts,
                          uint32_t examined) {
    words best = filled(places), last = filled(places), joints = filled(places), store = filled(STORE(places));
    words figures = filled(3);
    int same = feed_table(places, 0, 720, LENT_SPANS(spans), LENT(best), LENT(last), LENT(joints), LENT(store),
                          figures.at) == 0;
    same &= are(figures.at, links, cuts, examined) && reached_in(best) == reached;
    same &= are_within(places, (uint32_t)spans.from.len, best, figures);
    words blocks[] = { best, last, joints, store, figures };
    for (size_t i = 0; i < sizeof blocks / sizeof *blocks; i++) free(blocks[i].at);
    return same;
}

/* The call at noon with this budget lists so many places, has these links and cuts, and keeps every ceiling. */
static int keeps_within(uint32_t places, span_lists spans, uint32_t budget, uint32_t listed, uint32_t links,
                        uint32_t cuts) {
    words best = filled(places), last = filled(places), joints = filled(places), store = filled(STORE(places));
    words list = filled(places), figures = filled(4);
    int same = feed_budget(places, 0, 720, LENT_SPANS(spans), budget, LENT(best), LENT(last), LENT(joints), LENT(list),
                           LENT(store), figures.at) == 0;
    same &= figures.at[0] == links && figures.at[1] == cuts && figures.at[3] == listed && reached_in(best) == listed;
    same &= are_within(places, (uint32_t)spans.from.len, best, figures);
    words blocks[] = { best, last, joints, store, list, figures };
    for (size_t i = 0; i < sizeof blocks / sizeof *blocks; i++) free(blocks[i].at);
    return same;
}

/* Of the dense map, by budget: places listed, links and as many cuts. Taking a place leaves 9 places, then 8 and so on,
 * each alone in its tree: 7, 7, 4, 4, 3, 3, 1 and 1 links, and all are cut again. */
static const uint32_t dense_within[][3] = { { 0, 1, 0 },   { 1, 2, 7 },   { 2, 3, 14 },  { 3, 4, 18 },
                                            { 4, 5, 22 },  { 5, 6, 25 },  { 6, 7, 28 },  { 7, 8, 29 },
                                            { 8, 9, 30 },  { 9, 10, 30 }, { 10, 11, 30 }, { NONE, 11, 30 } };

static void try_ceilings(void) {
    static const uint32_t ranks[][2] = { { 1, 0 },  { 2, 1 },  { 4, 2 },   { 5, 3 },    { 8, 4 },
                                         { 12, 4 }, { 64, 8 }, { 1024, 14 }, { 4096, 16 } };
    for (size_t i = 0; i < sizeof ranks / sizeof *ranks; i++)
        expect("R(n)", greatest_rank(ranks[i][0]) == ranks[i][1]);
    expect("ceilings of four spans a place", ceiling(64, 256) == 1348 && ceiling(1024, 4096) == 27652
                                                 && ceiling(4096, 16384) == 118788);
    span_lists none = open_spans(0), eight = star(9), later = dense(DENSE);
    expect("a start without spans", keeps_ceilings(1, none, 1, 0, 0, 0) && ceiling(1, 0) == 1);
    expect("a star of eight spans", keeps_ceilings(9, eight, 9, 10, 0, 8) && ceiling(9, 8) == 45);
    expect("the dense map", keeps_ceilings(DENSE, later, DENSE, 30, 30, 55) && ceiling(DENSE, 55) == 235);
    for (size_t i = 0; i < sizeof dense_within / sizeof *dense_within; i++) {
        const uint32_t *row = dense_within[i];
        expect("the dense map within a budget", keeps_within(DENSE, later, row[0], row[1], row[2], row[2]));
    }
    close_half(eight);
    close_half(later);
    expect("a star with half its spans closed", keeps_ceilings(9, eight, 5, 2, 0, 8));
    expect("the dense map with half its spans closed", keeps_ceilings(DENSE, later, DENSE, 17, 17, 55));
    expect("the same within budgets",
           keeps_within(DENSE, later, 3, 4, 8, 7) && keeps_within(DENSE, later, NONE, DENSE, 17, 17));
    free_spans(none);
    free_spans(eight);
    free_spans(later);
}

/* A map is refused by the full call and by the one with a budget, and with a place list of 2 words under its own code. */
static void expect_refused(const char *what, feed_call call, uint32_t code, uint32_t short_code) {
    expect(what, feeds(call, &worked_table, code));
    expect(what, feeds_within(call, worked_budgets, 3, code));
    expect(what, feeds_within(call, worked_budgets, 2, short_code));
}

/* The worked map with one of its numbers changed: before and after the test of the place list. */
#define CHANGED(what, field, value, code, short_code)                                                                   \
    do {                                                                                                                \
        feed_call call = worked_map;                                                                                    \
        call.field = value;                                                                                             \
        expect_refused(what, call, code, short_code);                                                                   \
    } while (0)
#define EARLY(what, field, value, code) CHANGED(what, field, value, code, code)
#define LATE(what, field, value, code) CHANGED(what, field, value, code, 22)

/* Two numbers changed. */
#define TWO(what, field, value, other, other_value, code, short_code)                                                   \
    do {                                                                                                                \
        feed_call call = worked_map;                                                                                    \
        call.field = value;                                                                                             \
        call.other = other_value;                                                                                       \
        expect_refused(what, call, code, short_code);                                                                   \
    } while (0)

static void try_refused_feeds(void) {
    EARLY("no places: 14", places, 0, 14);
    EARLY("4,097 places: 14", places, 4097, 14);
    EARLY("start 3 of 3: 15", start, 3, 15);
    EARLY("minute 1,440: 24", minute, 1440, 24);
    EARLY("the largest number as minute: 24", minute, UINT32_MAX, 24);
    EARLY("from list of 2: 16", from_len, 2, 16);
    EARLY("to list of 2: 16", to_len, 2, 16);
    EARLY("loss list of 2: 16", loss_len, 2, 16);
    EARLY("list of 2 opening minutes: 16", opens_len, 2, 16);
    EARLY("list of 2 closing minutes: 16", closes_len, 2, 16);
    EARLY("2 words of losses, 3 places: 17", best_len, 2, 17);
    EARLY("2 words of spans, 3 places: 17", last_len, 2, 17);
    EARLY("no words of joints, 3 places: 17", joints_len, 0, 17);
    EARLY("2 words of joints, 3 places: 17", joints_len, 2, 17);
    EARLY("4 words of joints, 3 places: 17", joints_len, 4, 17);
    EARLY("a store for 2, 3 places: 17", store_len, STORE(2), 17);
    EARLY("a store of four words a heap: 17", store_len, STORE_OF_FOUR(3), 17);
    EARLY("a word too few: 17", store_len, STORE(3) - 1, 17);
    EARLY("a word too many: 17", store_len, STORE(3) + 1, 17);
    LATE("from 3 of 3: 18", from[2], 3, 18);
    LATE("to 3 of 3: 18", to[2], 3, 18);
    LATE("loss 0: 19", loss[1], 0, 19);
    LATE("loss 1,000,001: 19", loss[1], 1000001, 19);
    LATE("from 1 then 0: 20", from[0], 1, 20);
    LATE("closing at 1,441: 23", closes[1], 1441, 23);
    LATE("closing at 0, as it opens: 23", closes[1], 0, 23);
    LATE("opening at 1,440, as it closes: 23", opens[2], 1440, 23);
    LATE("opening after it closes: 23", opens[0], 1441, 23);
}

static void try_orders_of_codes(void) {
    TWO("14 before 24", places, 0, minute, 1440, 14, 14);
    TWO("15 before 24", start, 3, minute, 1440, 15, 15);
    TWO("24 before 16", minute, 1440, closes_len, 2, 24, 24);
    TWO("24 before 17", minute, 1440, best_len, 2, 24, 24);
    TWO("24 before 18", minute, 1440, from[0], 3, 24, 24);
    TWO("24 before 23", minute, 1440, closes[0], 0, 24, 24);
    TWO("24 before 17 of the joints", minute, 1440, joints_len, 2, 24, 24);
    TWO("16 before 17", opens_len, 2, best_len, 2, 16, 16);
    TWO("16 before 17 of the joints", opens_len, 2, joints_len, 4, 16, 16);
    TWO("17 before 23", last_len, 2, closes[0], 0, 17, 17);
    TWO("17 of the joints before 18", joints_len, 2, to[0], 3, 17, 17);
    TWO("17 of the joints before 23", joints_len, 4, closes[0], 0, 17, 17);
    TWO("18 before 23 on one span", to[1], 3, closes[1], 0, 18, 22);
    TWO("19 before 23 on one span", loss[1], 0, closes[1], 0, 19, 22);
    TWO("20 before 23 on one span", from[0], 1, closes[1], 0, 20, 22);
    TWO("23 on span 0 before 18 on span 1", closes[0], 0, to[1], 3, 23, 22);
    TWO("23 on span 1 before 19 on span 2", closes[1], 1441, loss[2], 0, 23, 22);
    TWO("18 on span 0 before 23 on span 1", to[0], 3, closes[1], 0, 18, 22);
    TWO("20 on span 1 before 23 on span 2", from[0], 1, closes[2], 0, 20, 22);
}

/* A span that is closed at the minute of the call is tested as any other. */
static void try_faulty_closed_spans(void) {
    TWO("18 on a closed span", opens[2], 720, to[2], 3, 18, 22);
    TWO("19 on a closed span", opens[2], 720, loss[2], 0, 19, 22);
    TWO("23 on a closed span", opens[2], 720, closes[2], 1441, 23, 22);
    TWO("20 before a closed span", opens[1], 720, from[0], 1, 20, 22);
}

/* The map reader. */

static const char worked_text[] = "3,0,720\n0,1,7,0,1440\n0,2,20,9,1400\n1,2,5,600,9999\n";

typedef struct {
    size_t from, to, loss, opens, closes;
} rooms;

static rooms all(size_t room) {
    rooms r = { room, room, room, room, room };
    return r;
}

/* Reading into lists so long returns the code. Done, it leaves the worked spans; refused, zeros and nothing else. */
static int reads(const char *text, rooms room, uint32_t code) {
    bytes in = copy_text(text);
    words from = filled(room.from), to = filled(room.to), loss = filled(room.loss), figures = filled(4);
    words opens = filled(room.opens), closes = filled(room.closes);
    int same = code == read_map(in.at, in.len, LENT(from), LENT(to), LENT(loss), LENT(opens), LENT(closes), figures.at);
    size_t spans = code == 0 ? 3 : 0;
    if (code == 0) {
        same &= are(from.at, 0, 0, 1) && are(to.at, 1, 2, 2) && are(loss.at, 7, 20, 5);
        same &= are(opens.at, 0, 9, 600) && are(closes.at, 1440, 1400, 9999);
        same &= are(figures.at, 3, 0, 720) && figures.at[3] == 3;
    } else {
        same &= are(figures.at, 0, 0, 0) && figures.at[3] == 0;
    }
    words lists[] = { from, to, loss, opens, closes };
    for (size_t i = 0; i < sizeof lists / sizeof *lists; i++) {
        same &= untouched(lists[i], spans);
        free(lists[i].at);
    }
    free(figures.at);
    free(in.at);
    return same;
}

static void try_lists_of_other_lengths(void) {
    for (size_t room = 2; room <= 4; room += 2) {
        rooms r[5] = { all(3), all(3), all(3), all(3), all(3) };
        r[0].from = r[1].to = r[2].loss = r[3].opens = r[4].closes = room;
        for (size_t i = 0; i < 5; i++) expect("one list of another length: 16", reads(worked_text, r[i], 16));
    }
}

static void try_readings(void) {
    expect("the worked text", reads(worked_text, all(3), 0));
    expect("longer lists", reads(worked_text, all(5), 0));
    expect("no LF at the end", reads("3,0,720\n0,1,7,0,1440\n0,2,20,9,1400\n1,2,5,600,9999", all(3), 0));
    expect("lists run out: 16", reads(worked_text, all(2), 16) && reads(worked_text, all(0), 16));
    try_lists_of_other_lengths();
    expect("0,1 as a span: 21", reads("3,0,0\n0,1,7,0,1440\n0,1\n", all(3), 21));
    expect("spans without windows: 21", reads("3,0,0\n0,1,7\n0,2,20\n1,2,5\n", all(3), 21));
    expect("a first line without a minute: 21", reads("3,0\n0,1,7,0,1440\n", all(3), 21));
    expect("four numbers or six as a span: 21",
           reads("3,0,0\n0,1,7,0\n", all(3), 21) && reads("3,0,0\n0,1,7,0,1440,0\n", all(3), 21));
    expect("four numbers in the first line: 21", reads("3,0,0,0\n0,1,7,0,1440\n", all(3), 21));
    expect("an empty text or line: 21", reads("", all(3), 21) && reads("3,0,0\n\n", all(3), 21));
    expect("zeros before numbers",
           reads("03,0000000000,0720\n00,1,0000000007,00,01440\n0,02,020,009,1400\n001,2,5,0600,0000009999\n", all(3), 0));
    expect("eleven digits: 21",
           reads("3,0,00000000000\n", all(3), 21) && reads("3,0,0\n0,1,7,0,00000001440\n", all(3), 21));
    rooms unequal = { 0, 1, 2, 3, 4 };
    expect("21 before 16", reads("3,0,0\n0,1\n", unequal, 21));
    bytes longest = filled_bytes(60002, '0');
    longest.at[60001] = 0;
    expect("60,001 bytes: 21", reads((const char *)longest.at, all(3), 21));
    free(longest.at);
}

int main(void) {
    try_worked_runs();
    try_raises();
    try_amounts();
    try_largest_store();
    try_refused_runs();
    try_turns();
    try_empty_turns();
    try_changed_turns();
    try_lengths_of_turns();
    try_tables();
    try_budgets();
    try_ties();
    try_counts();
    try_ceilings();
    try_refused_feeds();
    try_orders_of_codes();
    try_faulty_closed_spans();
    try_readings();
    return finish("host");
}
