/* A job and a reply in readable form. */
#ifndef TELL_H
#define TELL_H

#include "job.h"

/* The text as an argument of the shell's printf, and how to give it to a replay
 * program. */
void tell_job(const struct job *job);

/* Each piece with its length, and the bytes after it where they are not kept. */
void tell_reply(const struct job *job, const struct reply *reply);

#endif
