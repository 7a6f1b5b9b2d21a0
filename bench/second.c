/* The second program's machine. */
#include <string.h>

#include "pace.h"
#include "pack.h"
#include "run.h"

static struct machine fresh, machine;
static struct run ran;
static size_t length;
static uint32_t steps[TRACE_PLACES], cores[TRACE_PLACES];
static uint32_t words[TRACE_PLACES], values[TRACE_PLACES];
static struct answer answers[TRACE_PLACES];

int pace_prepare(const struct trace *trace)
{
    static const uint32_t zero[MAX_WORDS];
    struct dimensions dimensions = {trace->processors, trace->words, trace->lines,
                                    trace->entries};
    length = trace->steps;
    for (size_t i = 0; i < TRACE_PLACES; i++) {
        steps[i] = trace->step_column[i];
        cores[i] = trace->core_column[i];
        words[i] = trace->word_column[i];
        values[i] = trace->value_column[i];
    }
    return machine_make(&fresh, dimensions, zero, trace->words) == NOT_REFUSED;
}

void pace_clear(void)
{
    memset(answers, 0, sizeof answers);
    machine = fresh;
}

void pace_run(void)
{
    ran = machine_run(&machine, &(struct columns){
        steps, cores, words, values, answers, length, length, length, length, length});
}

size_t pace_taken(void)
{
    return ran.taken;
}

uint8_t pace_refusal(void)
{
    return ran.refusal;
}

uint32_t pace_answer(size_t place)
{
    return answers[place].kind;
}

uint32_t pace_result(size_t place)
{
    return answers[place].value;
}

uint32_t pace_count(int cycle, size_t place)
{
    return answers[place].counts[cycle];
}

void pace_state(uint64_t out[STIRNFELD_STATE])
{
    pack_state(out, &machine);
}
