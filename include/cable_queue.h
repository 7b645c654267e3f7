/* The C interface of the queue engine: libmodem.a has queue_run, libturn.a turn_store, libhost.a all the others.
 *
 * A lent area is two arguments: a pointer, then the number of its elements. Figures are one argument, a pointer to as
 * many words as the declaration says: they come without a length. Pointers are never NULL, not even with the number 0,
 * and areas of one call, figures too, do not overlap. Nothing else is asked of a caller: every call returns, and refuses
 * under a code what it can't accept. A refused call changes nothing but its figures, which are then zeros. Nothing is
 * allocated and nothing is kept between calls.
 *
 * A store for N items, N from 0 to 4,096, is 40 + 8N words, and its length says what N is. First come five words for each
 * of the heaps 0 to 7: first tree, last tree, first item, item count and amount. Then come eight words for each of the
 * items 0 to N - 1: key, parent, first child, last child, next sibling, previous sibling, rank and state. So word c of
 * item i, from c = 0 for the key to c = 7 for the state, is word 40 + 8i + c.
 *
 * An old store is one as runs left it before turn_store was there. It has the same words, those of the heaps at the same
 * places, but those of the items by kind: first N keys, then N parents, and so on, so that word c of item i is word
 * 40 + cN + i. turn_store turns an old store into a new one; no other call reads or leaves words in the old order.
 *
 * The amount of a heap is what its key words lack: an item's key is its key word plus the amount of its heap, and of the
 * sum 32 bits count. So a raise changes one word of the store, and key words alone tell neither keys nor their order. A
 * heap that has items may have any amount; that of an empty heap is 0. Keys in sheets and answers are the keys themselves.
 *
 * Calls, one on each line of a sheet:
 *   I,h,i,k  puts item i into heap h with key k      D,i,k  lowers the key of item i to k
 *   M,h      shows the first item of heap h          X,i    deletes item i
 *   T,h      takes it                                J,a,b  joins heap b into heap a
 *   A,h,d    adds d to all keys of heap h
 * A line is answered with its code, two numbers, links and cuts. The numbers are an item and its key; of J they are a and
 * its item count, of A they are h and its item count.
 *
 * A number in a sheet or a map text has one to ten digits, leading zeros among them, and is at most 4,294,967,295: `T,07`
 * takes from heap 7, while `T,-7` and `T,00000000007` are no calls. What is written has no leading zeros.
 *
 * Codes of a run, of turn_store, of a feed call and of the map reader, the first whose condition is met; 0 is done:
 *    1  the store is not 40 + 8N words, or the two stores of turn_store are of different lengths
 *    2  the sheet is over 60,000 bytes
 *    3  the sheet has over 2,000 lines
 *    4  the output has fewer than 32 bytes a line
 *    5  the kept store is not sound, or the old one of turn_store is not, read in the old order
 *   14  no places, or over 4,096
 *   15  the start is not a place
 *   24  the minute is above 1,439
 *   16  the five span lists differ in length, or are over 16,384 long (feed calls) or too short (read_map)
 *   17  best, last or joints is not one word a place, or the store is not 40 words and 8 a place
 *   22  the place list is shorter than the number of places (feed_budget)
 *   18  a span names no place
 *   19  a span's loss is not from 1 to 1,000,000
 *   20  a span comes from a smaller place than the span before it
 *   23  a span's closing minute is not above its opening minute, or is above 1,440
 *   21  the map text is over 60,000 bytes, or malformed
 * Of faulty spans the first one in the lists decides, under the first of 18, 19, 20 and 23 that it meets.
 *
 * Codes of a line, which stand in its answer, the first whose condition is met:
 *    6  not a call             11  the key is larger than before
 *    7  heap above 7           12  the heap is empty
 *    8  item N or above        25  the raise would carry a key above 4,294,967,295
 *    9  the item is in a heap  13  a heap is joined to itself
 *   10  the item is in no heap
 * An empty heap has no key that could be carried too far, so A on it is done for every d. */
#ifndef CABLE_QUEUE_H
#define CABLE_QUEUE_H

#include <stddef.h>
#include <stdint.h>

#ifdef __cplusplus
extern "C" {
#endif

/* What queue_run adds to the code of a refused run. A run that is done writes fewer bytes than that. */
#define CABLE_QUEUE_REFUSED 100000

/* The word of a feed table that is no loss, no span and no number of spans, and of a store's links that is no item. */
#define CABLE_QUEUE_NONE UINT32_MAX

/* The number of words of a store for so many items. */
#define CABLE_QUEUE_STORE_WORDS(items) (40 + 8 * (items))

/* Runs a sheet fresh on 256 items, in 2,088 words of its own on the stack. Returns the number of bytes written to out, or
 * CABLE_QUEUE_REFUSED + code, with a code from 2 to 4. Output beyond the bytes written stays as it was. */
uint32_t queue_run(const uint8_t *sheet, size_t sheet_len, uint8_t *out, size_t out_len);

/* Makes the store empty, whatever its words, and runs a sheet on it. Returns 0, or a code from 1 to 4. The figures are the
 * lines answered and the bytes written to out, two zeros after a refusal. Output beyond the bytes written stays as it
 * was. */
uint32_t fresh_run(uint32_t *store, size_t store_len, const uint8_t *sheet, size_t sheet_len, uint8_t *out,
                   size_t out_len, uint32_t figures[2]);

/* Runs a sheet on the store as an earlier run left it. Returns as fresh_run does, with a code from 1 to 5. */
uint32_t kept_run(uint32_t *store, size_t store_len, const uint8_t *sheet, size_t sheet_len, uint8_t *out,
                  size_t out_len, uint32_t figures[2]);

/* Returns 1 if the words, any number of them, are those of a sound store, else 0. */
uint32_t store_sound(const uint32_t *store, size_t store_len);

/* Turns a sound old store into the new order, in a second area: each word of an item goes from its old place to its new
 * one, those of the heaps to the same places. Returns 0, 1 or 5; 1 comes before 5. The old store is only read. When it is
 * done, turned is a sound store of the same heaps, whatever was there before, and a kept run on it answers as one on the
 * old store did; after a refusal it is as it was. */
uint32_t turn_store(const uint32_t *old, size_t old_len, uint32_t *turned, size_t turned_len);

/* The feed table of a map at a minute of the day: span e leads from place from[e] to place to[e] at loss[e]. It is usable
 * at a minute that is opens[e] or later and before closes[e]; with 0 and 1,440 it always is. Chains are made of the spans
 * usable at the minute, and of no others; all spans are tested. Returns 0, a code from 14 to 20, 23 or 24.
 *
 * When it is done, best[p] is the least loss from the start to place p, and joints[p] the number of spans of the shortest
 * chain of that loss. last[p] is the lowest-numbered span that ends such a chain: of that loss, and with that many spans.
 * All three are CABLE_QUEUE_NONE where no chain leads; at the start best and joints are 0, and last is CABLE_QUEUE_NONE.
 * Going back from a place over the last span of each place that is come to, the start is met after joints[p] spans, and
 * not before. The store is made empty, used and left empty.
 *
 * The figures are links, cuts and spans examined; three zeros after a refusal. The last is exactly the number of spans e
 * for which best[from[e]] is not CABLE_QUEUE_NONE: every span that leaves a reached place counts once, closed ones too.
 *
 * Links and cuts of a call that is done have ceilings. R(n) in them is the largest k with F(k + 2) <= n, where F is the
 * Fibonacci sequence with F(1) = F(2) = 1: R(1) is 0, R(64) is 8, R(1024) is 14, R(4096) is 16. Two ceilings follow from
 * places and from the length of the span lists, here spans, and so are known before the map is loaded:
 *   links + cuts <= 4 * spans + 1 + places * R(places)
 *   links + cuts <= places + 4 * (spans + 1 - places) + places * R(places), if places is from 5 to spans + 1
 * With four spans a place the second is 1,348 for 64 places, 27,652 for 1,024 and 118,788 for 4,096. The third is that of
 * the call, where reached is the number of places with a loss in best, the start among them, and examined the figure:
 *   links + cuts <= reached + 4 * (examined + 1 - reached) + reached * R(reached)
 * Here reached is from 1 to examined + 1. Closed spans count in spans and in examined as open ones do, so that the
 * ceilings hold at every minute. */
uint32_t feed_table(uint32_t places, uint32_t start, uint32_t minute, const uint32_t *from, size_t from_len,
                    const uint32_t *to, size_t to_len, const uint32_t *loss, size_t loss_len, const uint32_t *opens,
                    size_t opens_len, const uint32_t *closes, size_t closes_len, uint32_t *best, size_t best_len,
                    uint32_t *last, size_t last_len, uint32_t *joints, size_t joints_len, uint32_t *store,
                    size_t store_len, uint32_t figures[3]);

/* The feed table of a map at a minute within a budget of loss, and the places in it. Returns 0, a code from 14 to 20, 22,
 * 23 or 24.
 *
 * When it is done, best[p], last[p] and joints[p] are those of feed_table where that loss is at most the budget, and
 * CABLE_QUEUE_NONE elsewhere, all three. The places that have a loss in best are listed by ascending loss, those of equal
 * loss by ascending number; list words beyond them stay as they were. A list longer than the number of places is fine.
 * The store is made empty, used and left empty.
 *
 * The figures are links, cuts, spans examined and places listed; four zeros after a refusal. Links and cuts are those made
 * until the first place waiting is beyond the budget. Spans examined is exactly the number of spans e for which from[e] is
 * a listed place, closed ones included; a span of a place beyond the budget does not count. The ceilings of feed_table
 * hold with every budget; reached is then the number of places listed. */
uint32_t feed_budget(uint32_t places, uint32_t start, uint32_t minute, const uint32_t *from, size_t from_len,
                     const uint32_t *to, size_t to_len, const uint32_t *loss, size_t loss_len, const uint32_t *opens,
                     size_t opens_len, const uint32_t *closes, size_t closes_len, uint32_t budget, uint32_t *best,
                     size_t best_len, uint32_t *last, size_t last_len, uint32_t *joints, size_t joints_len,
                     uint32_t *listed, size_t listed_len, uint32_t *store, size_t store_len, uint32_t figures[4]);

/* Reads a map text into five span lists. Its first line is places, start and minute, each other line the from, to, loss,
 * opening and closing minute of a span. Returns 0, 16 or 21; 21 comes before 16. The figures are places, start, minute and
 * number of spans, four zeros after a refusal; the numbers read are not tested. List words beyond the spans stay as they
 * were. */
uint32_t read_map(const uint8_t *text, size_t text_len, uint32_t *from, size_t from_len, uint32_t *to, size_t to_len,
                  uint32_t *loss, size_t loss_len, uint32_t *opens, size_t opens_len, uint32_t *closes,
                  size_t closes_len, uint32_t figures[4]);

#ifdef __cplusplus
}
#endif

#endif
