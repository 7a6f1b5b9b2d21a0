/* A job for both machines, and what one replies. There is no padding, so that two
 * of them are the same where their bytes are. */
#ifndef JOB_H
#define JOB_H

#include <assert.h>

#include "machine.h"
#include "stirnfeld.h"

/* One for each function of include/stirnfeld.h. */
enum job_kind { JOB_MAKE = 1, JOB_SOUND, JOB_SETTLE, JOB_STEP, JOB_RUN };

enum { DIMENSIONS = 4, PLACES = 64, COLUMNS = 12 };

/* A run is lent these columns, in this order: four to read, eight to write. */
enum column {
    COLUMN_STEPS, COLUMN_CORES, COLUMN_WORDS, COLUMN_VALUES,
    COLUMN_ANSWERS, COLUMN_RESULTS, COLUMN_COUNTS
};

struct read_columns {
    uint8_t steps[PLACES];
    uint8_t cores[PLACES];
    uint32_t words[PLACES];
    uint32_t values[PLACES];
};

struct written_columns {
    uint8_t answers[PLACES];
    uint32_t results[PLACES];
    uint32_t counts[CYCLES][PLACES];
};

/* A making has dimensions and memory of its own; the state is then what the array
 * holds before. */
struct job {
    uint64_t kind;
    uint64_t dimensions[DIMENSIONS];
    uint64_t memory_length;
    uint32_t memory[MAX_WORDS];
    uint64_t step;
    uint64_t core;
    uint64_t word;
    uint64_t value;
    uint64_t lengths[COLUMNS];
    uint64_t state[STIRNFELD_STATE];
    struct read_columns read;
    struct written_columns written;
};

/* A state and columns that are not handed back are as they came, and all else is
 * noise. */
struct reply {
    uint64_t refusal;
    uint64_t taken;
    uint32_t told[STIRNFELD_TOLD];
    uint32_t settled[STIRNFELD_SETTLED];
    uint64_t state[STIRNFELD_STATE];
    struct written_columns written;
};

static_assert(sizeof(struct job) == 20080, "a job has no padding");
static_assert(sizeof(struct reply) == 19312, "a reply has no padding");

#endif
