/* What pace.c reads: a head of six numbers and four columns of
 * bytes, all of full size, of which a run is lent the first `steps`. Every
 * number is little-endian, and there is no padding. */
#ifndef TRACE_H
#define TRACE_H

#include <assert.h>
#include <stdint.h>

enum { TRACE_PLACES = 65536 };

struct trace {
    uint32_t processors;
    uint32_t words;
    uint32_t lines;
    uint32_t entries;
    uint32_t steps;
    uint32_t rounds;
    uint8_t step_column[TRACE_PLACES];
    uint8_t core_column[TRACE_PLACES];
    uint8_t word_column[TRACE_PLACES];
    uint8_t value_column[TRACE_PLACES];
};

static_assert(sizeof(struct trace) == 24 + 4 * TRACE_PLACES, "a trace has no padding");

#endif
