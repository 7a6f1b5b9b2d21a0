/* One run of any length for both machines. A job has room for a short one. */
#ifndef LONG_H
#define LONG_H

#include "compare.h"

enum { LONGEST = STIRNFELD_STEPS + 1 };

/* From the fresh machine of these dimensions, whose memory is what `memory` has. */
struct long_run {
    struct dimensions dimensions;
    uint32_t memory[MAX_WORDS];
    size_t length;
    uint8_t steps[LONGEST];
    uint8_t cores[LONGEST];
    uint32_t words[LONGEST];
    uint32_t values[LONGEST];
};

/* A run that differs is told as a job: the steps that lead up to the first
 * difference, from the state before them. Says with what both refused it. */
uint8_t compare_long(const struct long_run *run);

#endif
