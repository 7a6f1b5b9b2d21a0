/* Draws a trace and writes it to standard output. Called as
 * draw_trace KIND PROCESSORS WORDS LINES ENTRIES STEPS ROUNDS; the same
 * arguments give the same trace, and fewer steps the beginning of a longer one. */
#include <stdio.h>
#include <stdlib.h>

#include "draw.h"
#include "trace.h"

static void draw(struct trace *trace, const struct kind *kind)
{
    for (uint32_t i = 0; i < trace->steps; i++) {
        struct drawn drawn = draw_step(kind, trace->processors, trace->words);
        trace->step_column[i] = drawn.step;
        trace->core_column[i] = drawn.core;
        trace->word_column[i] = drawn.word;
        trace->value_column[i] = drawn.value;
    }
}

int main(int argc, char **argv)
{
    static struct trace trace;
    const struct kind *kind = argc == 8 ? kind_named(argv[1]) : NULL;
    if (kind == NULL)
        return EXIT_FAILURE;
    uint32_t *fields[] = {&trace.processors, &trace.words, &trace.lines,
                          &trace.entries, &trace.steps, &trace.rounds};
    for (int i = 0; i < 6; i++)
        *fields[i] = (uint32_t)strtoul(argv[i + 2], NULL, 10);
    if (trace.processors < 1 || trace.words < 1 || trace.steps > TRACE_PLACES)
        return EXIT_FAILURE;
    draw(&trace, kind);
    return fwrite(&trace, sizeof trace, 1, stdout) == 1 ? EXIT_SUCCESS : EXIT_FAILURE;
}
