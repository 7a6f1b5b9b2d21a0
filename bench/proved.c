/* The proved machine, by the functions for C. */
#include <string.h>

#include "pace.h"

static uint64_t fresh[STIRNFELD_STATE], state[STIRNFELD_STATE];
static size_t steps, taken;
static uint8_t refusal;
static uint8_t ops[TRACE_PLACES], cores[TRACE_PLACES];
static uint32_t words[TRACE_PLACES], values[TRACE_PLACES];
static uint8_t answers[TRACE_PLACES];
static uint32_t results[TRACE_PLACES], counts[CYCLE_KINDS][TRACE_PLACES];

int pace_prepare(const struct trace *trace)
{
    static const uint32_t zero[STIRNFELD_SETTLED];
    steps = trace->steps;
    for (size_t i = 0; i < TRACE_PLACES; i++) {
        ops[i] = trace->step_column[i];
        cores[i] = trace->core_column[i];
        words[i] = trace->word_column[i];
        values[i] = trace->value_column[i];
    }
    return stirnfeld_make(trace->processors, trace->words, trace->lines, trace->entries,
                          zero, trace->words, fresh) == STIRNFELD_ACCEPTED;
}

void pace_clear(void)
{
    memset(answers, 0, sizeof answers);
    memset(results, 0, sizeof results);
    memset(counts, 0, sizeof counts);
    memcpy(state, fresh, sizeof state);
}

void pace_run(void)
{
    refusal = stirnfeld_run(
        state, ops, steps, cores, steps, words, steps, values, steps, answers, steps,
        results, steps, counts[0], steps, counts[1], steps, counts[2], steps, counts[3],
        steps, counts[4], steps, counts[5], steps, &taken);
}

size_t pace_taken(void)
{
    return taken;
}

uint8_t pace_refusal(void)
{
    return refusal;
}

uint32_t pace_answer(size_t place)
{
    return answers[place];
}

uint32_t pace_result(size_t place)
{
    return results[place];
}

uint32_t pace_count(int cycle, size_t place)
{
    return counts[cycle][place];
}

void pace_state(uint64_t out[STIRNFELD_STATE])
{
    memcpy(out, state, sizeof state);
}
