/* What the second program answers to a job. */
#ifndef TWIN_H
#define TWIN_H

#include "job.h"

void twin_answer(const struct job *job, struct reply *reply);

#endif
