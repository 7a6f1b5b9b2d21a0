/* What the replay programs share: standard input to standard output. */
#ifndef PROGRAM_H
#define PROGRAM_H

#include "machine.h"

/* Replays standard input on a machine of these dimensions with memory zero.
 * The input is not looked at when the machine is refused. The result is the
 * exit status of the program. */
int program_replay(struct dimensions dimensions);

#endif
