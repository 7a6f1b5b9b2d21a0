#include "trace.h"

#include <inttypes.h>
#include <stdio.h>

#include "names.h"

static void print_step(const struct trace_step *step)
{
    printf("  P%" PRIu32 " %s", step->core, instruction_name(step->instruction));
    if (step->instruction <= ST)
        printf(" %" PRIu32, step->word);
    if (step->instruction == STORE || step->instruction == ST)
        printf("=%" PRIu32, step->value);
    printf("\n");
}

void trace_print(const struct trace *trace)
{
    const struct dimensions *d = &trace->dimensions;
    printf("  processors %" PRIu32 ", words %" PRIu32 ", lines %" PRIu32
           ", entries %" PRIu32 "\n", d->processors, d->words, d->lines, d->entries);
    printf("  memory");
    for (uint32_t w = 0; w < d->words; w++)
        printf(" %" PRIu32, trace->memory[w]);
    printf("\n");
    for (size_t i = 0; i < trace->length; i++)
        print_step(&trace->steps[i]);
}
