/* Times what is measured, less what reading the clock costs by itself. */
#include "bench.h"

#include <time.h>

static uint64_t from, taken, clock_cost;

static uint64_t now(void)
{
    struct timespec t;
    clock_gettime(CLOCK_MONOTONIC, &t);
    return (uint64_t)t.tv_sec * 1000000000u + (uint64_t)t.tv_nsec;
}

void set_stopwatch(void)
{
    clock_cost = UINT64_MAX;
    for (int i = 0; i < 1000; i++) {
        uint64_t began = now(), took = now() - began;
        if (took < clock_cost)
            clock_cost = took;
    }
}

void measure_from_here(void)
{
    from = now();
}

void measure_to_here(void)
{
    uint64_t took = now() - from;
    taken += took > clock_cost ? took - clock_cost : 0;
}

uint64_t stopwatch_ns(void)
{
    uint64_t ns = taken;
    taken = 0;
    return ns;
}
