/* What is measured, each on all sides that are linked: HAVE_MODEM, HAVE_HOST and HAVE_TURN for the product's libraries,
   HAVE_LEMON and HAVE_BOOST for the others. */
#ifndef BENCH_H
#define BENCH_H

void bench_queue(void);
void bench_feed(void);
void bench_check(void);

#endif
