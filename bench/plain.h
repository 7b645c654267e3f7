/* Plain C versions of three entries, as a measure and as a second opinion. */
#ifndef PLAIN_H
#define PLAIN_H

#include <stddef.h>
#include <stdint.h>

/* Fresh run of a sheet for 256 items: the bytes written, or 100,000 and the code. */
uint32_t plain_queue_run(const uint8_t *sheet, size_t sheet_len, uint8_t *out, size_t out_len);

/* Feed call at a minute of the day: the code; figures = links, cuts, spans examined. */
uint32_t plain_feed_table(uint32_t places, uint32_t start, uint32_t minute,
                          const uint32_t *from, size_t from_len,
                          const uint32_t *to, size_t to_len,
                          const uint32_t *loss, size_t loss_len,
                          const uint32_t *opens, size_t opens_len,
                          const uint32_t *closes, size_t closes_len,
                          uint32_t *best, size_t best_len,
                          uint32_t *last, size_t last_len,
                          uint32_t *joints, size_t joints_len,
                          uint32_t *store, size_t store_len,
                          uint32_t figures[3]);

/* Feed call with a budget: the code; figures = links, cuts, spans examined, places listed. */
uint32_t plain_feed_budget(uint32_t places, uint32_t start, uint32_t minute,
                           const uint32_t *from, size_t from_len,
                           const uint32_t *to, size_t to_len,
                           const uint32_t *loss, size_t loss_len,
                           const uint32_t *opens, size_t opens_len,
                           const uint32_t *closes, size_t closes_len,
                           uint32_t budget,
                           uint32_t *best, size_t best_len,
                           uint32_t *last, size_t last_len,
                           uint32_t *joints, size_t joints_len,
                           uint32_t *listed, size_t listed_len,
                           uint32_t *store, size_t store_len,
                           uint32_t figures[4]);

#endif
