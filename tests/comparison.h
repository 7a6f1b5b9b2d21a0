/* What the comparisons tests/machine/ and tests/text/ share: tests that give jobs
 * to the proved program and to the second program. Each compiles it with a job.h,
 * shrink.h and tell.h of its own. */
#ifndef COMPARISON_H
#define COMPARISON_H

#include <stdbool.h>

#include "job.h"

/* A test, with its number, which makes the seed of all that it draws. It ends
 * where the limits are reached. */
void compared_test(const char *name, uint64_t number, void (*body)(uint64_t seed));

/* Takes note of a job that was given to both, and of how many of its parts were
 * compared. One that differs fails the test; the first of all is told, with the
 * shortest job that still does. Does not return where the limits are reached. */
void end_job(const struct job *job, size_t parts, bool differs);

/* How many jobs of all tests so far. */
size_t jobs_compared(void);

/* Prints how much was compared in all. */
void tell_compared(void);

/* ---- what each has of its own, in its compare.c */

/* What it calls a job, a part of one, and the proved program. */
struct terms {
    const char *job;
    const char *part;
    const char *proved;
};

extern const struct terms terms;

/* The replies to the job that `differ` was given last. */
extern struct reply ours, twin;

bool differ(const struct job *job);

#endif
