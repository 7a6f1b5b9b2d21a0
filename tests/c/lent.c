#include "lent.h"

#include <string.h>

struct asked asked;
struct lent lent;

static struct lent remembered;

void make_bench(void)
{
    memset(&lent, NOISE, sizeof lent);
    asked = (struct asked){
        .processors = 2, .words = 4, .lines = 4, .entries = 2, .initial = 4
    };
    for (uint32_t a = 0; a < 4; a++)
        lent.initial[a] = 10 + a;
    make();
}

uint8_t make(void)
{
    return stirnfeld_make(asked.processors, asked.words, asked.lines, asked.entries,
                          lent.initial, asked.initial, lent.state);
}

uint8_t step(uint8_t op, uint8_t core, uint32_t word, uint32_t value)
{
    return stirnfeld_step(lent.state, op, core, word, value, lent.told);
}

uint8_t run(size_t *taken)
{
    const size_t *n = asked.columns;
    return stirnfeld_run(
        lent.state, lent.ops, n[0], lent.cores, n[1], lent.used_words, n[2],
        lent.values, n[3], lent.numbers, n[4], lent.results, n[5],
        lent.counts[0], n[6], lent.counts[1], n[7], lent.counts[2], n[8],
        lent.counts[3], n[9], lent.counts[4], n[10], lent.counts[5], n[11], taken);
}

uint8_t sound(void)
{
    return stirnfeld_sound(lent.state);
}

uint8_t settle(void)
{
    return stirnfeld_settle(lent.state, lent.settled);
}

void set_columns(size_t length)
{
    for (int k = 0; k < COLUMNS; k++)
        asked.columns[k] = length;
}

void set_step(size_t i, uint8_t op, uint8_t core, uint32_t word, uint32_t value)
{
    lent.ops[i] = op;
    lent.cores[i] = core;
    lent.used_words[i] = word;
    lent.values[i] = value;
}

void remember(void)
{
    memcpy(&remembered, &lent, sizeof lent);
}

bool unchanged(void)
{
    return memcmp(&remembered, &lent, sizeof lent) == 0;
}
