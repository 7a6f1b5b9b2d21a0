/* The machine as the kept answers know it, whatever the interface is. There is
 * one. */
#ifndef MACHINE_H
#define MACHINE_H

#include <stddef.h>
#include <stdint.h>

enum { MOST_STEPS = 65536, MOST_WORDS = 256, CYCLES = 6 };

struct size {
    uint32_t processors, words, lines, entries;
};

/* The columns of a run, and what became of it. */
struct trace {
    size_t length;
    uint8_t ops[MOST_STEPS], cores[MOST_STEPS];
    uint32_t words[MOST_STEPS], values[MOST_STEPS];
    uint8_t answers[MOST_STEPS];
    uint32_t results[MOST_STEPS], counts[CYCLES][MOST_STEPS];
    size_t taken;
    uint8_t refusal;
};

/* Both say with what they are refused, or 0. */
uint8_t machine_make(struct size size, const uint32_t *memory);
uint8_t machine_run(struct trace *trace);

/* What stands in its state. A line or an entry is packed, as
 * include/stirnfeld.h says. */
uint64_t machine_word(uint32_t word);
uint64_t machine_line(uint32_t processor, uint32_t line);
uint64_t machine_entry(uint32_t processor, uint32_t entry);
uint64_t machine_tactive(uint32_t processor);
uint64_t machine_tstatus(uint32_t processor);

/* Every word's settled value. */
void machine_settle(uint32_t settled[MOST_WORDS]);

#endif
