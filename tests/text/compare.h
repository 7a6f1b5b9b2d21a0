/* One text for both replays. */
#ifndef COMPARE_H
#define COMPARE_H

#include "comparison.h"

/* Gives the job to both. */
void compare(const struct job *job);

#endif
