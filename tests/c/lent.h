/* All that the functions of include/stirnfeld.h are lent, with one place more
 * than the longest that passes, and calls on it. */
#ifndef LENT_H
#define LENT_H

#include <stdbool.h>
#include <stdint.h>

#include "stirnfeld.h"

enum { COLUMNS = 12, CYCLES = 6, MOST = STIRNFELD_STEPS + 1 };

/* What a call is told beside that. */
struct asked {
    size_t processors, words, lines, entries;
    size_t initial;
    size_t columns[COLUMNS];
};

struct lent {
    uint64_t state[STIRNFELD_STATE + 1];
    uint32_t initial[STIRNFELD_SETTLED + 1];
    uint32_t settled[STIRNFELD_SETTLED + 1];
    uint32_t told[STIRNFELD_TOLD + 1];
    uint32_t used_words[MOST], values[MOST];
    uint32_t results[MOST], counts[CYCLES][MOST];
    uint8_t ops[MOST], cores[MOST], numbers[MOST];
};

/* What every place holds that nothing is written to. */
enum { NOISE = 0xA5 };
#define NOISE_32 UINT32_C(0xA5A5A5A5)
#define NOISE_64 UINT64_C(0xA5A5A5A5A5A5A5A5)

extern struct asked asked;
extern struct lent lent;

/* Document 01's bench machine: 2 processors, 4 words holding 10, 11, 12, 13, 4
 * lines, 2 entries. All else is noise. */
void make_bench(void);

uint8_t make(void);
uint8_t step(uint8_t op, uint8_t core, uint32_t word, uint32_t value);
uint8_t run(size_t *taken);
uint8_t sound(void);
uint8_t settle(void);

/* All columns are so long. */
void set_columns(size_t length);

void set_step(size_t i, uint8_t op, uint8_t core, uint32_t word, uint32_t value);

/* What is lent now, and whether it is still so to the last byte. */
void remember(void);
bool unchanged(void);

#endif
