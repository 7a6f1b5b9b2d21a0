/* Runs that are drawn from a fixed seed, on machines of many sizes: four on each,
 * every one from the state that the one before it left. Prints a line for each run,
 * with sums over its answers, over the state and over the settled values. What is
 * drawn here stays as it is: answers.txt has what was printed before. */
#include <inttypes.h>
#include <stdio.h>

#include "machine.h"

enum { MACHINES = 36, RUNS = 4, OPS = 9 };

static struct trace trace;

/* ---- drawing */

static uint64_t seed = 20261115;

/* splitmix64 */
static uint64_t roll(void)
{
    uint64_t z = seed += 0x9e3779b97f4a7c15u;
    z = (z ^ (z >> 30)) * 0xbf58476d1ce4e5b9u;
    z = (z ^ (z >> 27)) * 0x94d049bb133111ebu;
    return z ^ (z >> 31);
}

static uint32_t below(uint32_t bound)
{
    return (uint32_t)(roll() % bound);
}

/* Small, of the replay's size, of any size, and the largest, in turn. */
static struct size draw_size(int machine)
{
    switch (machine % 4) {
    case 0: return (struct size){ 1 + below(3), 1 + below(4), 1u << below(3), 1 + below(3) };
    case 1: return (struct size){ 4, 16, 4, 4 };
    case 2: return (struct size){ 1 + below(8), 1 + below(256), 1u << below(7), 1 + below(64) };
    default: return (struct size){ 8, 256, 64, 64 };
    }
}

/* The longest runs stand on two machines alone. */
static size_t draw_length(int machine, int run)
{
    static const size_t lengths[] = { 0, 1, 2, 17, 64, 300, 1000, 4000 };
    if (run == 1 && (machine == 17 || machine == 35))
        return MOST_STEPS;
    return lengths[below(sizeof lengths / sizeof *lengths)];
}

/* Most steps are on a few words, so that cores meet; how many of them end a
 * transaction differs from run to run. */
static void draw_step(size_t i, struct size size, uint32_t ends)
{
    uint32_t op = below(100) < ends ? 5 + below(4) : below(5);
    trace.ops[i] = (uint8_t)op;
    trace.cores[i] = (uint8_t)below(size.processors);
    trace.words[i] = below(4) == 0 ? below(size.words) : below(4) % size.words;
    trace.values[i] = (uint32_t)roll();
}

static void spoil_step(size_t i, struct size size)
{
    switch (below(3)) {
    case 0: trace.ops[i] = (uint8_t)(OPS + below(256 - OPS)); break;
    case 1: trace.cores[i] = (uint8_t)(size.processors + below(256 - size.processors)); break;
    default: trace.words[i] = size.words + below(1000); break;
    }
}

static void draw_run(struct size size, size_t length)
{
    uint32_t ends = 2 + below(30);
    trace.length = length;
    for (size_t i = 0; i < length; i++)
        draw_step(i, size, ends);
    if (length > 0 && below(4) == 0)
        spoil_step(below((uint32_t)length), size);
}

/* ---- sums, in the manner of FNV-1a with 64 bits to a turn */

static uint64_t sum;

static void begin(void)
{
    sum = 14695981039346656037u;
}

static void mix(uint64_t number)
{
    sum = (sum ^ number) * 1099511628211u;
}

static uint64_t sum_of_answers(void)
{
    begin();
    for (size_t i = 0; i < trace.taken; i++) {
        mix(trace.answers[i]);
        mix(trace.results[i]);
        for (int cycle = 0; cycle < CYCLES; cycle++)
            mix(trace.counts[cycle][i]);
    }
    return sum;
}

static uint64_t sum_of_state(struct size size)
{
    begin();
    for (uint32_t word = 0; word < size.words; word++)
        mix(machine_word(word));
    for (uint32_t p = 0; p < size.processors; p++) {
        for (uint32_t i = 0; i < size.lines; i++)
            mix(machine_line(p, i));
        for (uint32_t i = 0; i < size.entries; i++)
            mix(machine_entry(p, i));
        mix(machine_tactive(p));
        mix(machine_tstatus(p));
    }
    return sum;
}

static uint64_t sum_of_settled(struct size size)
{
    uint32_t settled[MOST_WORDS] = { 0 };
    machine_settle(settled);
    begin();
    for (uint32_t word = 0; word < size.words; word++)
        mix(settled[word]);
    return sum;
}

static void print_run(struct size size)
{
    printf("%" PRIu32 "/%" PRIu32 "/%" PRIu32 "/%" PRIu32, size.processors, size.words,
           size.lines, size.entries);
    printf(" steps %zu refusal %u taken %zu", trace.length, trace.refusal, trace.taken);
    printf(" answers %016" PRIx64, sum_of_answers());
    printf(" state %016" PRIx64, sum_of_state(size));
    printf(" settled %016" PRIx64 "\n", sum_of_settled(size));
}

int main(void)
{
    for (int machine = 0; machine < MACHINES; machine++) {
        struct size size = draw_size(machine);
        uint32_t memory[MOST_WORDS];
        for (uint32_t word = 0; word < size.words; word++)
            memory[word] = (uint32_t)roll();
        if (machine_make(size, memory) != 0)
            return 1;
        for (int run = 0; run < RUNS; run++) {
            draw_run(size, draw_length(machine, run));
            machine_run(&trace);
            print_run(size);
        }
    }
    return 0;
}
