/* Random logs: what the bench would hand in, or nearly. */
#ifndef LOGS_H
#define LOGS_H

#include "job.h"
#include "steps.h"

/* Of the things that a log is made of (a header, a number, a name, the end of a
 * line), one in so many is not what it should be. */
enum oddity { NEVER_ODD = 0, SELDOM_ODD = 40, OFTEN_ODD = 6 };

/* A job for a machine of this size: a buffer of any size, and no text yet. */
void draw_job(struct job *job, struct dice *dice, struct dimensions dimensions);

/* The job's text becomes a log of so many records for its machine. */
void draw_log(struct job *job, struct dice *dice, uint32_t records, enum oddity oddity);

/* A size for the buffer that is lent: a few bytes, a line, many lines. */
uint64_t draw_room(struct dice *dice);

#endif
