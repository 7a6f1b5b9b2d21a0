/* The reply to a job, by the functions of a machine. */
#ifndef REPLY_H
#define REPLY_H

#include "job.h"

/* Says with what the job is refused, or 0, and writes into the reply what is
 * handed back. */
typedef uint8_t job_function(const struct job *job, struct reply *reply);

/* One for each kind of job. */
struct job_functions {
    job_function *make;
    job_function *sound;
    job_function *settle;
    job_function *step;
    job_function *run;
};

void reply_by(const struct job_functions *functions, const struct job *job,
              struct reply *reply);

#endif
