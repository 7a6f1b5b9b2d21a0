#include "reply.h"

#include <string.h>

enum { NOISE = 0xA5 };

/* The reply of a function that hands nothing back. */
static void reply_as_it_came(struct reply *reply, const struct job *job)
{
    memset(reply, NOISE, sizeof *reply);
    memcpy(reply->state, job->state, sizeof reply->state);
    reply->written = job->written;
}

static job_function *function_for(const struct job_functions *functions, enum job_kind kind)
{
    switch (kind) {
    case JOB_MAKE: return functions->make;
    case JOB_SOUND: return functions->sound;
    case JOB_SETTLE: return functions->settle;
    case JOB_STEP: return functions->step;
    case JOB_RUN: break;
    }
    return functions->run;
}

void reply_by(const struct job_functions *functions, const struct job *job,
              struct reply *reply)
{
    reply_as_it_came(reply, job);
    reply->refusal = function_for(functions, (enum job_kind)job->kind)(job, reply);
}
