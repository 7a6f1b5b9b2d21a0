/* Times a machine's run: reads a trace from standard input, runs it from the fresh
 * machine as often as asked, and prints the processor time that the runs took, and
 * a sum over all that came back. Called with an argument it leaves the sum out, for
 * those who count instructions. */
#include <inttypes.h>
#include <stdio.h>
#include <stdlib.h>
#include <time.h>

#include "pace.h"

static uint64_t sum = 14695981039346656037u;

/* FNV-1a with 64 bits to a turn. */
static void mix(uint64_t number)
{
    sum = (sum ^ number) * 1099511628211u;
}

static void mix_answers(void)
{
    for (size_t i = 0; i < TRACE_PLACES; i++)
        mix(pace_answer(i));
    for (size_t i = 0; i < TRACE_PLACES; i++)
        mix(pace_result(i));
    for (int cycle = 0; cycle < CYCLE_KINDS; cycle++)
        for (size_t i = 0; i < TRACE_PLACES; i++)
            mix(pace_count(cycle, i));
}

static void mix_state(void)
{
    static uint64_t state[STIRNFELD_STATE];
    pace_state(state);
    for (size_t place = 0; place < STIRNFELD_STATE; place++)
        mix(state[place]);
}

static void mix_round(void)
{
    mix(pace_taken());
    mix(pace_refusal());
    mix_answers();
    mix_state();
}

static uint64_t one_round(void)
{
    pace_clear();
    clock_t began = clock();
    pace_run();
    clock_t ended = clock();
    return (uint64_t)(ended - began);
}

int main(int argc, char **argv)
{
    (void)argv;
    static struct trace trace;
    uint64_t ticks = 0;
    if (fread(&trace, sizeof trace, 1, stdin) != 1 || !pace_prepare(&trace))
        return EXIT_FAILURE;
    for (uint32_t round = 0; round < trace.rounds; round++) {
        ticks += one_round();
        if (argc == 1)
            mix_round();
    }
    printf("%" PRIu64 " %016" PRIx64 "\n", ticks, sum);
    return EXIT_SUCCESS;
}
