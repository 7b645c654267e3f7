/* The Fibonacci heaps of LEMON and Boost on sheets, and LEMON's shortest paths on maps. */
#ifndef OTHERS_H
#define OTHERS_H

#include <stddef.h>
#include <stdint.h>

#ifdef __cplusplus
extern "C" {
#endif

/* A fresh run as queue_run makes it, but links and cuts are printed as 0: these heaps do not count them. */
uint32_t lemon_queue_run(const uint8_t *sheet, size_t sheet_len, uint8_t *out, size_t out_len);
uint32_t boost_queue_run(const uint8_t *sheet, size_t sheet_len, uint8_t *out, size_t out_len);

/* A graph that LEMON searches, built from spans that are listed by ascending from. It stays until the process ends. */
typedef struct lemon_map lemon_map;
lemon_map *lemon_build(uint32_t places, const uint32_t *from, const uint32_t *to, const uint32_t *loss, size_t spans);

/* The least loss of each place of that graph, UINT32_MAX where no chain exists. */
void lemon_feed_fibonacci(lemon_map *map, uint32_t start, uint32_t *best);
void lemon_feed_binary(lemon_map *map, uint32_t start, uint32_t *best);

/* The same as lemon_feed_fibonacci, with the graph and all else that it needs built in the call and gone after it. */
void lemon_build_and_feed(uint32_t places, const uint32_t *from, const uint32_t *to, const uint32_t *loss, size_t spans,
                          uint32_t start, uint32_t *best);

#ifdef __cplusplus
}
#endif

#endif
