/* What the proved replay answers to a job, by its driver. */
#ifndef OURS_H
#define OURS_H

#include "job.h"

/* Whatever the reply held before is gone. */
void ours_answer(const struct job *job, struct reply *reply);

#endif
