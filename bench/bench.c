#include "bench.h"

int main(void)
{
    bench_queue();
    bench_feed();
    bench_check();
    return 0;
}
