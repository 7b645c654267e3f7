/* The entries in plain C, with the store's layout and the product's answers: what the product is measured against. */
#include "plain.h"
#include "rules.h"

#define QUEUE const store
#include "sheet.h"

uint32_t plain_queue_run(const uint8_t *sheet, size_t sheet_len, uint8_t *out, size_t out_len)
{
    uint32_t fault = run_fault(sheet, sheet_len, out_len);
    if (fault != 0)
        return REFUSED_RUN + fault;
    uint32_t words[HEAP_WORDS + ITEM_WORDS * MODEM_ITEMS];
    const store s = store_at(words, MODEM_ITEMS);
    make_empty(&s);
    return run_lines(&s, sheet, sheet_len, out);
}

/* The five span lists of a feed call, all of one length once that is tested. */
typedef struct {
    const uint32_t *from, *to, *loss, *opens, *closes;
} span_lists;

/* What a search reads and writes; first_span has one more entry, which ends the last place's spans. */
typedef struct {
    const uint32_t *first_span;
    span_lists spans;
    uint32_t minute, *best, *last, *joints;
} search;

/* The code of the first faulty span, or 0. */
static uint32_t first_fault(uint32_t places, const span_lists *s, size_t spans)
{
    for (size_t i = 0; i < spans; i++) {
        if (s->from[i] >= places || s->to[i] >= places)
            return 18;
        if (s->loss[i] < 1 || s->loss[i] > MAX_LOSS)
            return 19;
        if (i > 0 && s->from[i] < s->from[i - 1])
            return 20;
        if (s->closes[i] <= s->opens[i] || s->closes[i] > MINUTES)
            return 23;
    }
    return 0;
}

/* Whether any span is faulty. No branch depends on a span, and each is compared with the one before it in a pass of its
   own, so that several are tested at a time. */
static bool is_any_faulty(uint32_t places, const span_lists *s, size_t spans)
{
    uint32_t faulty = 0;
    for (size_t i = 0; i < spans; i++)
        faulty |= (s->from[i] >= places) | (s->to[i] >= places) | (s->loss[i] - 1 >= MAX_LOSS)
                  | (s->closes[i] <= s->opens[i]) | (s->closes[i] > MINUTES);
    for (size_t i = 1; i < spans; i++)
        faulty |= s->from[i] < s->from[i - 1];
    return faulty != 0;
}

static uint32_t span_fault(uint32_t places, const span_lists *s, size_t spans)
{
    return is_any_faulty(places, s, spans) ? first_fault(places, s, spans) : 0;
}

static void index_spans(uint32_t places, const uint32_t *from, size_t spans, uint32_t *first_span)
{
    uint32_t span = 0;
    for (uint32_t place = 0; place < places; place++) {
        first_span[place] = span;
        while (span < spans && from[span] == place)
            span++;
    }
    first_span[places] = (uint32_t)spans;
}

/* Open from its opening minute until just before its closing one. */
static inline int is_usable(const span_lists *spans, uint32_t span, uint32_t minute)
{
    return spans->opens[span] <= minute && minute < spans->closes[span];
}

/* Whether a chain of so many spans, of which span is the last, is better than the one shown of equal loss: it has fewer
   spans, or as many and a last one of a lower number. */
static inline int is_better(const search *run, uint32_t place, uint32_t hops, uint32_t span)
{
    return hops < run->joints[place] || (hops == run->joints[place] && span < run->last[place]);
}

static inline void show_chain(const search *run, uint32_t place, uint32_t hops, uint32_t span)
{
    run->last[place] = span;
    run->joints[place] = hops;
}

/* Tries the spans of a place just taken; returns the cuts made. An equal loss makes no queue call. */
static inline uint32_t try_spans(const store *s, const search *run, uint32_t place)
{
    uint32_t *best = run->best, hops = run->joints[place] + 1, cuts = 0;
    for (uint32_t span = run->first_span[place]; span < run->first_span[place + 1]; span++) {
        if (!is_usable(&run->spans, span, run->minute))
            continue;
        uint32_t next = run->spans.to[span], sum = best[place] + run->spans.loss[span];
        if (sum < best[next]) {
            if (best[next] == NONE)
                insert(s, 0, next, sum);
            else
                cuts += decrease_key(s, next, sum);
            best[next] = sum;
            show_chain(run, next, hops, span);
        } else if (sum == best[next] && is_better(run, next, hops, span)) {
            show_chain(run, next, hops, span);
        }
    }
    return cuts;
}

/* Takes the first place and tries its spans, of which the closed ones count as examined too. */
static inline void visit_next(const store *s, const search *run, uint32_t *figures)
{
    uint32_t place = s->heap[0].minimum;
    figures[0] += extract_min(s, 0);
    figures[1] += try_spans(s, run, place);
    figures[2] += run->first_span[place + 1] - run->first_span[place];
}

static void find_feeds(const store *s, const search *run, uint32_t *figures)
{
    while (s->heap[0].count > 0)
        visit_next(s, run, figures);
}

/* Lists the places as they are taken; returns how many are. */
static uint32_t find_within(const store *s, const search *run, uint32_t budget, uint32_t *listed, uint32_t *figures)
{
    uint32_t count = 0;
    while (s->heap[0].count > 0 && run->best[s->heap[0].minimum] <= budget) {
        listed[count++] = s->heap[0].minimum;
        visit_next(s, run, figures);
    }
    return count;
}

/* What places beyond the budget were offered is not shown. No branch depends on a place, so that several are hidden at
   a time. */
static void hide_beyond(const search *run, uint32_t places, uint32_t budget)
{
    for (uint32_t place = 0; place < places; place++) {
        uint32_t hidden = run->best[place] > budget ? NONE : 0;
        run->best[place] |= hidden;
        run->last[place] |= hidden;
        run->joints[place] |= hidden;
    }
}

/* The lengths of what a feed call is lent. */
typedef struct {
    size_t from, to, loss, opens, closes, best, last, joints, words;
} lengths;

/* Codes 14, 15, 24, 16 and 17, or 0. */
static uint32_t size_fault(uint32_t places, uint32_t start, uint32_t minute, const lengths *len)
{
    if (places == 0 || places > MAX_PLACES)
        return 14;
    if (start >= places)
        return 15;
    if (minute >= MINUTES)
        return 24;
    if (len->to != len->from || len->loss != len->from || len->opens != len->from || len->closes != len->from
        || len->from > MAX_SPANS)
        return 16;
    if (len->best != places || len->last != places || len->joints != places
        || len->words != HEAP_WORDS + ITEM_WORDS * (size_t)places)
        return 17;
    return 0;
}

/* No place but the start is met. */
static void begin_search(const store *s, const search *run, uint32_t places, uint32_t start)
{
    memset(run->best, 0xFF, places * sizeof *run->best);
    memset(run->last, 0xFF, places * sizeof *run->last);
    memset(run->joints, 0xFF, places * sizeof *run->joints);
    make_empty(s);
    run->best[start] = run->joints[start] = 0;
    insert(s, 0, start, 0);
}

uint32_t plain_feed_table(uint32_t places, uint32_t start, uint32_t minute,
                          const uint32_t *from, size_t from_len,
                          const uint32_t *to, size_t to_len,
                          const uint32_t *loss, size_t loss_len,
                          const uint32_t *opens, size_t opens_len,
                          const uint32_t *closes, size_t closes_len,
                          uint32_t *best, size_t best_len,
                          uint32_t *last, size_t last_len,
                          uint32_t *joints, size_t joints_len,
                          uint32_t *words, size_t words_len,
                          uint32_t figures[3])
{
    const lengths len = { from_len, to_len,   loss_len,   opens_len, closes_len,
                          best_len, last_len, joints_len, words_len };
    const span_lists spans = { from, to, loss, opens, closes };
    memset(figures, 0, 3 * sizeof *figures);
    uint32_t fault = size_fault(places, start, minute, &len);
    if (fault == 0)
        fault = span_fault(places, &spans, from_len);
    if (fault != 0)
        return fault;
    uint32_t first_span[MAX_PLACES + 1];
    index_spans(places, from, from_len, first_span);
    const store s = store_at(words, places);
    const search run = { first_span, spans, minute, best, last, joints };
    begin_search(&s, &run, places, start);
    find_feeds(&s, &run, figures);
    return 0;
}

uint32_t plain_feed_budget(uint32_t places, uint32_t start, uint32_t minute,
                           const uint32_t *from, size_t from_len,
                           const uint32_t *to, size_t to_len,
                           const uint32_t *loss, size_t loss_len,
                           const uint32_t *opens, size_t opens_len,
                           const uint32_t *closes, size_t closes_len,
                           uint32_t budget,
                           uint32_t *best, size_t best_len,
                           uint32_t *last, size_t last_len,
                           uint32_t *joints, size_t joints_len,
                           uint32_t *listed, size_t listed_len,
                           uint32_t *words, size_t words_len,
                           uint32_t figures[4])
{
    const lengths len = { from_len, to_len,   loss_len,   opens_len, closes_len,
                          best_len, last_len, joints_len, words_len };
    const span_lists spans = { from, to, loss, opens, closes };
    memset(figures, 0, 4 * sizeof *figures);
    uint32_t fault = size_fault(places, start, minute, &len);
    if (fault == 0)
        fault = listed_len < places ? 22 : span_fault(places, &spans, from_len);
    if (fault != 0)
        return fault;
    uint32_t first_span[MAX_PLACES + 1];
    index_spans(places, from, from_len, first_span);
    const store s = store_at(words, places);
    const search run = { first_span, spans, minute, best, last, joints };
    begin_search(&s, &run, places, start);
    figures[3] = find_within(&s, &run, budget, listed, figures);
    hide_beyond(&run, places, budget);
    make_empty(&s);
    return 0;
}
