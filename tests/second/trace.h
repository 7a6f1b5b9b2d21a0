/* A trace: a fresh machine and the steps to give it. */
#ifndef TRACE_H
#define TRACE_H

#include "machine.h"

enum { TRACE_LIMIT = 1024 };

struct trace_step {
    uint32_t instruction;
    uint32_t core;
    uint32_t word;
    uint32_t value;
};

struct trace {
    struct dimensions dimensions;
    uint32_t memory[MAX_WORDS];
    size_t length;
    struct trace_step steps[TRACE_LIMIT];
};

void trace_print(const struct trace *trace);

#endif
