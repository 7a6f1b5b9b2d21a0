/* The shortest job that still shows a difference, found greedily. */
#ifndef SHRINK_H
#define SHRINK_H

#include <stdbool.h>

#include "job.h"

/* Leaves out of the job, one at a time and as long as `differ` still holds,
 * steps of its run, what the state has but for dimensions and flags, and words of the
 * memory that a making is given. */
void shrink(struct job *job, bool (*differ)(const struct job *job));

#endif
