/* The times of two sides, or of some more, on the same inputs: the best time of each group counts. */
#define _POSIX_C_SOURCE 199309L

#include "timing.h"

#include <stdio.h>
#include <time.h>

/* The least number of passes over all groups, and the least time of all passes in nanoseconds. */
enum { LEAST_PASSES = 21, LEAST_TIME = 600000000 };

/* The shortest time of each group, in nanoseconds; 0 before the first. */
struct times {
    double best[GROUPS];
};

static double now(void)
{
    struct timespec t;

    clock_gettime(CLOCK_MONOTONIC, &t);
    return 1e9 * (double)t.tv_sec + (double)t.tv_nsec;
}

/* Takes each group once. */
static void pass(struct side side, struct times *times)
{
    for (size_t g = 0; g < GROUPS; g++) {
        double start = now(), time;

        for (size_t i = g * GROUP; i < (g + 1) * GROUP; i++)
            side.call(side.task, i);
        time = now() - start;
        if (times->best[g] == 0 || time < times->best[g])
            times->best[g] = time;
    }
}

/* Nanoseconds a call. */
static double mean(const struct times *times)
{
    double sum = 0;

    for (size_t g = 0; g < GROUPS; g++)
        sum += times->best[g];
    return sum / INPUTS;
}

void take_times(const struct side *sides, size_t n, double *ns)
{
    struct times times[MOST_SIDES] = {{{0}}};
    double start = now();

    for (int i = 0; i < LEAST_PASSES || now() - start < LEAST_TIME; i++)
        for (size_t s = 0; s < n; s++)
            pass(sides[s], &times[s]);
    for (size_t s = 0; s < n; s++)
        ns[s] = mean(&times[s]);
}

void print_cells(double ours, double theirs)
{
    printf(" %.0f | %.0f | %.2f |\n", ours, theirs, ours / theirs);
    fflush(stdout);
}

void print_times(struct side ours, struct side theirs)
{
    double ns[2];

    take_times((struct side[]){ours, theirs}, 2, ns);
    print_cells(ns[0], ns[1]);
}
