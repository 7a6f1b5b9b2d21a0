/* Random states and runs, in jobs. */
#ifndef DRAW_H
#define DRAW_H

#include "job.h"
#include "steps.h"

/* A job's state: a fresh machine, and one that some random steps lead to. */
void draw_fresh(struct job *job, struct dice *dice, struct dimensions dimensions);
void draw_reached(struct job *job, struct dice *dice, struct dimensions dimensions);

/* A run of `length` steps, its columns of answers filled with anything. */
void draw_run(struct job *job, struct dice *dice, const struct mood *mood, size_t length);

/* A job of this kind on the state that the job has. */
void draw_use(struct job *job, struct dice *dice, enum job_kind kind);

#endif
