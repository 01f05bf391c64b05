/* The times of two sides, or of some more, on the same inputs. */
#ifndef TIMING_H
#define TIMING_H

#include <stddef.h>

/* Inputs are timed in groups, so short that some pass over each goes undisturbed. */
enum { GROUP = 16, GROUPS = 64, INPUTS = GROUP * GROUPS };

/* What is timed: a call of a task on the input at i. */
struct side {
    void (*call)(void *task, size_t i);
    void *task;
};

enum { MOST_SIDES = 8 };

/* Nanoseconds a call of each of n sides, MOST_SIDES at most. The sides pass in turn. */
void take_times(const struct side *sides, size_t n, double *ns);

/* Prints the last cells of a table's row: nanoseconds a call of ours, of theirs, and the ratio. */
void print_cells(double ours, double theirs);

/* The same for two sides that pass in turn. */
void print_times(struct side ours, struct side theirs);

#endif
