/* One machine that is timed. Two programs are made of pace.c: with proved.c, and
 * with second.c. */
#ifndef PACE_H
#define PACE_H

#include <stddef.h>
#include <stdint.h>

#include "stirnfeld.h"
#include "trace.h"

enum { CYCLE_KINDS = 6 };

/* Makes the fresh machine, whose memory is zero, and takes the trace over. False
 * where the machine is refused. */
int pace_prepare(const struct trace *trace);

/* Empties the columns of answers and copies the fresh machine; then the part that
 * is timed: a run of the trace from it. */
void pace_clear(void);
void pace_run(void);

/* How the run ended, and what it left. */
size_t pace_taken(void);
uint8_t pace_refusal(void);
uint32_t pace_answer(size_t place);
uint32_t pace_result(size_t place);
uint32_t pace_count(int cycle, size_t place);
void pace_state(uint64_t state[STIRNFELD_STATE]);

#endif
