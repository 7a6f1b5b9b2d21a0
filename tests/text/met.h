/* How often each answer and each refusal was listed. */
#ifndef MET_H
#define MET_H

#include "text.h"

/* Counts a listing, and says how many lines it has between its header and its end. */
size_t meet(const struct listing *listing);

size_t answers_met(enum answer_kind answer);
size_t refusals_met(enum refusal refusal);

/* Prints all that was met. */
void tell_met(void);

#endif
