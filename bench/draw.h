/* Steps drawn for the benchmark. The same seed gives the same steps. */
#ifndef DRAW_H
#define DRAW_H

#include <stdint.h>

struct kind;

/* The kind of trace so named, or NULL. */
const struct kind *kind_named(const char *name);

struct drawn {
    uint8_t step;
    uint8_t core;
    uint8_t word;
    uint8_t value;
};

struct drawn draw_step(const struct kind *kind, uint32_t processors, uint32_t words);

#endif
