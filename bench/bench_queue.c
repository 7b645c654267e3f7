/* queue_run beside plain C, LEMON and Boost, on sheets of 2,000 lines. */
#include "bench.h"
#include "cable_queue.h"
#include "measure.h"
#include "others.h"
#include "plain.h"
#include "rows.h"
#include "sheets.h"

#include <stdbool.h>
#include <string.h>

enum { PLAIN, PRODUCT, OTHER };

/* Plain C first, then the product. */
static const struct {
    int whose;
    const char *name;
    uint32_t (*run)(const uint8_t *sheet, size_t sheet_len, uint8_t *out, size_t out_len);
} sides[] = {
    { PLAIN, "plain C", plain_queue_run },
#ifdef HAVE_MODEM
    { PRODUCT, "product", queue_run },
#endif
#ifdef HAVE_LEMON
    { OTHER, "LEMON FibHeap", lemon_queue_run },
#endif
#ifdef HAVE_BOOST
    { OTHER, "Boost fibonacci", boost_queue_run },
#endif
};

enum { SIDES = sizeof sides / sizeof *sides };

enum { ANSWER_ROOM = LINE_ROOM * MAX_LINES };

typedef struct {
    uint8_t text[ANSWER_ROOM];
    uint32_t len;
} answers_text;

static sheet_text sheets[INPUTS];
static answers_text answers, plain_answers;

static void run_side(int side, int input)
{
    const sheet_text *sheet = &sheets[input];
    answers.len = sides[side].run(sheet->text, sheet->len, answers.text, ANSWER_ROOM);
}

/* Where code, item and key of the line at p end. */
static const uint8_t *after_key(const uint8_t *p)
{
    for (int commas = 0; commas < 3; p++)
        commas += *p == ',';
    return p;
}

static const uint8_t *after_line(const uint8_t *p) { return (const uint8_t *)strchr((const char *)p, '\n') + 1; }

/* Whether both hold the same code, item and key on every line; others print no links and cuts. */
static bool same_keys(const answers_text *a, const answers_text *b)
{
    const uint8_t *p = a->text, *q = b->text, *p_end = p + a->len, *q_end = q + b->len;
    while (p < p_end && q < q_end) {
        size_t length = (size_t)(after_key(p) - p);
        if (memcmp(p, q, length) != 0)
            return false;
        p = after_line(p);
        q = after_line(q);
    }
    return p == p_end && q == q_end;
}

static bool same_answers(const answers_text *a, const answers_text *b)
{
    return a->len == b->len && memcmp(a->text, b->text, a->len) == 0;
}

/* Runs a sheet on every side; the answers of plain C count. */
static void expect_agreement(int input)
{
    run_side(0, input);
    if (answers.len > ANSWER_ROOM)
        fail("the sheet is refused", sides[0].name);
    plain_answers = answers;
    for (int side = 1; side < SIDES; side++) {
        run_side(side, input);
        bool same = answers.len <= ANSWER_ROOM && (sides[side].whose == OTHER ? same_keys(&plain_answers, &answers)
                                                                              : same_answers(&plain_answers, &answers));
        if (!same)
            fail("answers differ from those of plain C", sides[side].name);
    }
}

/* A kind of sheets: what is asked of the product beside plain C, if anything, and whether it has to be ahead of the
   others. */
typedef struct {
    const char *name;
    void (*make)(sheet_text *sheet, uint32_t number);
    int sides;
    mark beside_plain;
    bool is_race;
} kind;

static mark mark_of(const kind *k, int side)
{
    if (sides[side].whose == PRODUCT)
        return k->beside_plain;
    bool is_raced = k->is_race && sides[side].whose == OTHER && sides[1].whose == PRODUCT;
    return is_raced ? AHEAD(sides[1].name) : NO_MARK;
}

static void compare(const kind *k)
{
    double ns[SIDES], in = 0, out = 0;
    for (int input = 0; input < INPUTS; input++) {
        k->make(&sheets[input], (uint32_t)input);
        expect_agreement(input);
        in += (double)sheets[input].len / INPUTS;
        out += (double)plain_answers.len / INPUTS;
    }
    print_title("queue_run, %s: %d sheets of %d lines, about %.0f bytes in, %.0f bytes out", k->name, INPUTS, MAX_LINES,
                in, out);
    measure(k->sides, INPUTS, run_side, ns);
    for (int side = 0; side < k->sides; side++) {
        begin_row(sides[side].name, mark_of(k, side));
        add_value(ns[side] / MAX_LINES, "%6.1f ns a line");
        add_value(1e3 * (in + out) / ns[side], "%5.0f MB a second");
        if (side > 0)
            add_value(ns[side] / ns[0], "%.3f of plain C");
        end_row();
    }
}

static int own_sides(void)
{
    int count = 0;
    while (count < SIDES && sides[count].whose != OTHER)
        count++;
    return count;
}

static void compare_mixed_sheets(void)
{
    for (uint32_t number = 0; number < 50; number++) {
        make_mixed_sheet(&sheets[0], number);
        expect_agreement(0);
    }
}

void bench_queue(void)
{
    compare_mixed_sheets();
    compare(&(kind){ "busy sheet", make_busy_sheet, SIDES, AT_MOST("1.10"), true });
    compare(&(kind){ "insert, take, lower, short numbers", make_calls_sheet, SIDES, AT_MOST("1.05"), false });
    compare(&(kind){ "busy sheet with raises", make_raises_sheet, SIDES, NO_MARK, false });
    compare(&(kind){ "reading and printing alone", make_text_sheet, own_sides(), AT_MOST("1.10"), false });
}
