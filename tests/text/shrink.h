/* The shortest text that still shows a difference, found greedily. */
#ifndef SHRINK_H
#define SHRINK_H

#include <stdbool.h>

#include "job.h"

/* Leaves out of the text, as long as `differ` still holds, lines, then bytes. */
void shrink(struct job *job, bool (*differ)(const struct job *job));

#endif
