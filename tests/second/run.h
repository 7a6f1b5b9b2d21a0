#ifndef RUN_H
#define RUN_H

#include "machine.h"

enum { RUN_LIMIT = 65536 };

/* The lent columns: four that are read and one of answers to be written. */
struct columns {
    const uint32_t *steps;
    const uint32_t *cores;
    const uint32_t *words;
    const uint32_t *values;
    struct answer *answers;
    size_t steps_length;
    size_t cores_length;
    size_t words_length;
    size_t values_length;
    size_t answers_length;
};

struct run {
    enum refusal refusal;
    size_t taken;
};

struct run machine_run(struct machine *machine, const struct columns *columns);

#endif
