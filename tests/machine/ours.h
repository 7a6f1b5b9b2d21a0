/* What the proved machine answers to a job, by the functions for C. */
#ifndef OURS_H
#define OURS_H

#include "job.h"

void ours_answer(const struct job *job, struct reply *reply);

#endif
