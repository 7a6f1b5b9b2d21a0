/* One job for both machines. */
#ifndef COMPARE_H
#define COMPARE_H

#include "comparison.h"

/* Gives the job to both, and hands out what the proved machine replied. */
void compare(const struct job *job, struct reply *reply);

/* How often both have given this answer, or this refusal, so far. */
size_t answers_met(enum answer_kind answer);
size_t refusals_met(enum refusal refusal);

#endif
