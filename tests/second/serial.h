/* Demand 3 by brute force: the caches agree with one plain memory, on which
 * plain accesses happen at their place and each committed transaction happens
 * whole at its commit, everything aborted or unfinished left out. */
#ifndef SERIAL_H
#define SERIAL_H

#include <stdbool.h>

#include "trace.h"

/* machine_step, or one of the wrong machines. */
typedef struct answer step_function(struct machine *machine, uint32_t instruction,
                                    uint32_t core, uint32_t word, uint32_t value);

struct verdict {
    const char *complaint; /* NULL when caches and plain memory agree */
    size_t step;           /* the place in the trace of the complaint */
};

/* What the traces checked so far have reached. */
struct tally {
    uint64_t steps;
    uint64_t answers[INSTRUCTIONS][ANSWERS];
    uint64_t writes[4]; /* steps with so many WRITE cycles */
    uint64_t busy;
    uint64_t full; /* ABORTED with TSTATUS true before, and not by BUSY */
};

struct scrutiny {
    step_function *step;
    size_t stride;  /* at how many steps once the whole state is looked at */
    bool soundness; /* whether the state must be sound as well */
};

/* The steps of the trace must not be refused. Answers and bounds are checked
 * at every step, the whole state at every stride-th and at the last. */
struct verdict serial_check(const struct trace *trace, const struct scrutiny *scrutiny,
                            struct tally *tally);

/* Cuts a trace that draws a complaint to one from which no single step can be
 * left out, looking at every state, and gives the complaint that one draws. */
struct verdict serial_minimise(struct trace *trace, const struct scrutiny *scrutiny);

#endif
