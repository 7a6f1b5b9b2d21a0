/* A small simulator: makes a machine, runs a trace, and prints what each core
 * saw, then every word's settled value. The trace is document 01's example. */
#include <inttypes.h>
#include <stdio.h>
#include <stdlib.h>

#include "stirnfeld.h"

enum { PROCESSORS = 4, WORDS = 16, LINES = 4, ENTRIES = 4, STEPS = 8 };

static uint64_t state[STIRNFELD_STATE];

static const uint8_t ops[STEPS] = {
    STIRNFELD_LTX, STIRNFELD_ST, STIRNFELD_LT, STIRNFELD_COMMIT,
    STIRNFELD_COMMIT, STIRNFELD_LT, STIRNFELD_VALIDATE, STIRNFELD_COMMIT
};
static const uint8_t cores[STEPS] = { 0, 0, 1, 1, 0, 1, 1, 1 };
static const uint32_t used_words[STEPS] = { 5, 5, 5, 0, 0, 5, 0, 0 };
static const uint32_t values[STEPS] = { 0, 7, 0, 0, 0, 0, 0, 0 };

static const stirnfeld_steps steps = {
    .ops = { ops, STEPS }, .cores = { cores, STEPS },
    .used_words = { used_words, STEPS }, .values = { values, STEPS }
};

static uint8_t numbers[STEPS];
static uint32_t results[STEPS];
static uint32_t reads[STEPS], rfos[STEPS], writes[STEPS];
static uint32_t t_reads[STEPS], t_rfos[STEPS], busies[STEPS];

static const stirnfeld_answers answers = {
    .numbers = { numbers, STEPS }, .results = { results, STEPS },
    .reads = { reads, STEPS }, .rfos = { rfos, STEPS },
    .writes = { writes, STEPS }, .t_reads = { t_reads, STEPS },
    .t_rfos = { t_rfos, STEPS }, .busies = { busies, STEPS }
};

static const char *const step_names[] = {
    "LOAD", "STORE", "LT", "LTX", "ST", "COMMIT", "ABORT", "VALIDATE", "INTERRUPT"
};
static const char *const answer_names[] = {
    "VALUE", "DONE", "SUCCESS", "FAILURE", "TRUE", "FALSE", "ABORTED"
};

static void must(const char *call, uint8_t refusal)
{
    if (refusal == STIRNFELD_ACCEPTED)
        return;
    fprintf(stderr, "%s is refused: %u\n", call, refusal);
    exit(1);
}

static void make_machine(void)
{
    static const uint32_t initial[WORDS];
    must("the machine",
         stirnfeld_make(PROCESSORS, WORDS, LINES, ENTRIES, initial, WORDS, state));
}

static void run_trace(void)
{
    size_t taken;
    must("the run", stirnfeld_run_columns(state, steps, answers, &taken));
}

static void print_answers(void)
{
    printf("core step       word value  answer   value  "
           "READ RFO WRITE T_READ T_RFO BUSY\n");
    for (size_t i = 0; i < STEPS; i++) {
        printf("%4u %-9s  %4" PRIu32 " %5" PRIu32 "  %-7s  %5" PRIu32 "  ",
               cores[i], step_names[ops[i]], used_words[i], values[i],
               answer_names[numbers[i]], results[i]);
        printf("%4" PRIu32 " %3" PRIu32 " %5" PRIu32 " %6" PRIu32 " %5" PRIu32
               " %4" PRIu32 "\n",
               reads[i], rfos[i], writes[i], t_reads[i], t_rfos[i], busies[i]);
    }
}

static void print_settled(void)
{
    uint32_t settled[STIRNFELD_SETTLED];
    must("the state", stirnfeld_settle(state, settled));
    printf("word settled\n");
    for (uint32_t word = 0; word < WORDS; word++)
        printf("%4" PRIu32 " %7" PRIu32 "\n", word, settled[word]);
}

int main(void)
{
    make_machine();
    run_trace();
    print_answers();
    print_settled();
    return 0;
}
