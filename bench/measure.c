#include "measure.h"

#include <float.h>
#include <stdio.h>
#include <stdlib.h>
#include <time.h>

/* Short, since there are many processes. */
static const double ns_per_side = 1e8;

static uint64_t seed;

void fail(const char *what, const char *whose)
{
    fprintf(stderr, "bench: %s: %s\n", whose, what);
    exit(1);
}

void start_draws(uint64_t from) { seed = from; }

uint32_t draw(uint32_t limit)
{
    seed += 0x9E3779B97F4A7C15u;
    uint64_t z = seed;
    z = (z ^ (z >> 30)) * 0xBF58476D1CE4E5B9u;
    z = (z ^ (z >> 27)) * 0x94D049BB133111EBu;
    return (uint32_t)((z ^ (z >> 31)) % limit);
}

static double now(void)
{
    struct timespec t;
    clock_gettime(CLOCK_MONOTONIC, &t);
    return 1e9 * (double)t.tv_sec + (double)t.tv_nsec;
}

/* A side runs all inputs before the next one does, so that none finds an input in the cache because the side before it
   has just read it. */
static void run_round(int sides, int inputs, void (*work)(int side, int input), double least[sides][inputs])
{
    for (int side = 0; side < sides; side++)
        for (int input = 0; input < inputs; input++) {
            double begin = now();
            work(side, input);
            double time = now() - begin;
            if (time < least[side][input])
                least[side][input] = time;
        }
}

/* Other work on the machine only adds to a time, so the least counts. The sides take turns, so that all of them meet
   the quiet moments. */
void measure(int sides, int inputs, void (*work)(int side, int input), double *ns)
{
    double least[sides][inputs];
    for (int side = 0; side < sides; side++)
        for (int input = 0; input < inputs; input++)
            least[side][input] = DBL_MAX;
    for (double end = now() + ns_per_side * sides; now() < end;)
        run_round(sides, inputs, work, least);
    for (int side = 0; side < sides; side++) {
        ns[side] = 0;
        for (int input = 0; input < inputs; input++)
            ns[side] += least[side][input] / inputs;
    }
}
