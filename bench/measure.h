/* Draws, times, and the end of a run that went wrong. */
#ifndef MEASURE_H
#define MEASURE_H

#include <stdint.h>

/* How many sheets or maps of a kind are measured. If one were run a thousand times, the branch predictor would know its
   branches beforehand, as it does of no sheet that is run once. */
enum { INPUTS = 16 };

_Noreturn void fail(const char *what, const char *whose);

/* Numbers below a limit, the same ones after each start from the same seed. */
void start_draws(uint64_t from);
uint32_t draw(uint32_t limit);

/* Nanoseconds of one call of work for each of the sides 0 to sides - 1, on the inputs 0 to inputs - 1: of each input
   the least time of many rounds, and of these the mean. */
void measure(int sides, int inputs, void (*work)(int side, int input), double *ns);

#endif
