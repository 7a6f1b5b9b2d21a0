/* What the second program's listing makes the reply to a job. */
#ifndef TWIN_H
#define TWIN_H

#include "job.h"
#include "text.h"

/* Whatever the reply and the listing held before is gone. */
void twin_answer(const struct job *job, struct listing *listing, struct reply *reply);

#endif
