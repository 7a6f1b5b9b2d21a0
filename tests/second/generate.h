/* Random traces, each wholly determined by its seed. */
#ifndef GENERATE_H
#define GENERATE_H

#include "trace.h"

enum size_class { SMALL, MIDDLE, LARGE };

/* Of any size within the class; smaller sizes make denser conflicts. */
void generate(struct trace *trace, uint64_t seed, enum size_class size_class);

#endif
