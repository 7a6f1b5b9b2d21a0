/* Changes to a state that was reached: each clause of document 01's 'Sound states'
 * broken, and what breaks none. */
#ifndef CHANGE_H
#define CHANGE_H

#include "draw.h"

struct change {
    const char *name;
    bool sound; /* whether the state is still sound */
    /* False when the state has nothing to change so. */
    bool (*make)(struct job *job, struct dice *dice);
};

extern const struct change changes[];
extern const size_t changes_length;

#endif
