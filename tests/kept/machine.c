#include "machine.h"

#include "stirnfeld.h"

static uint64_t state[STIRNFELD_STATE];

uint8_t machine_make(struct size size, const uint32_t *memory)
{
    return stirnfeld_make(size.processors, size.words, size.lines, size.entries, memory,
                          size.words, state);
}

uint8_t machine_run(struct trace *trace)
{
    size_t n = trace->length;
    trace->refusal = stirnfeld_run(
        state, trace->ops, n, trace->cores, n, trace->words, n, trace->values, n,
        trace->answers, n, trace->results, n, trace->counts[0], n, trace->counts[1], n,
        trace->counts[2], n, trace->counts[3], n, trace->counts[4], n, trace->counts[5], n,
        &trace->taken);
    return trace->refusal;
}

uint64_t machine_word(uint32_t word)
{
    return state[STIRNFELD_MEMORY + word];
}

uint64_t machine_line(uint32_t processor, uint32_t line)
{
    return state[STIRNFELD_REGULAR + STIRNFELD_STRIDE * processor + line];
}

uint64_t machine_entry(uint32_t processor, uint32_t entry)
{
    return state[STIRNFELD_TRANSACTIONAL + STIRNFELD_STRIDE * processor + entry];
}

uint64_t machine_tactive(uint32_t processor)
{
    return state[STIRNFELD_TACTIVE + processor];
}

uint64_t machine_tstatus(uint32_t processor)
{
    return state[STIRNFELD_TSTATUS + processor];
}

void machine_settle(uint32_t settled[MOST_WORDS])
{
    stirnfeld_settle(state, settled);
}
