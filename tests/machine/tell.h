/* A job and a reply in readable form. */
#ifndef TELL_H
#define TELL_H

#include "job.h"

/* In the words of the second program's machine2, with remarks on what it cannot take. */
void tell_job(const struct job *job);
void tell_reply(const struct job *job, const struct reply *reply);

#endif
