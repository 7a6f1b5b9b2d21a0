/* Making a machine, and reading a word's settled value. */
#include "machine.h"

#include <stdbool.h>
#include <string.h>

#include "cache.h"

static bool within(uint32_t number, uint32_t most)
{
    return number >= 1 && number <= most;
}

static bool power_of_two(uint32_t number)
{
    return number != 0 && (number & (number - 1)) == 0;
}

enum refusal dimensions_refusal(const struct dimensions *dimensions)
{
    if (!within(dimensions->processors, MAX_PROCESSORS))
        return REFUSED_PROCESSORS;
    if (!within(dimensions->words, MAX_WORDS))
        return REFUSED_WORDS;
    if (!within(dimensions->lines, MAX_LINES) || !power_of_two(dimensions->lines))
        return REFUSED_LINES;
    if (!within(dimensions->entries, MAX_ENTRIES))
        return REFUSED_ENTRIES;
    return NOT_REFUSED;
}

enum refusal machine_make(struct machine *machine, struct dimensions dimensions,
                          const uint32_t *memory, size_t memory_length)
{
    enum refusal refusal = dimensions_refusal(&dimensions);
    if (refusal != NOT_REFUSED)
        return refusal;
    if (memory_length != dimensions.words)
        return REFUSED_MEMORY;
    memset(machine, 0, sizeof *machine);
    machine->dimensions = dimensions;
    memcpy(machine->memory, memory, memory_length * sizeof *memory);
    for (uint32_t p = 0; p < dimensions.processors; p++)
        machine->processors[p].tstatus = true;
    return NOT_REFUSED;
}

uint32_t machine_settled(const struct machine *machine, uint32_t word)
{
    for (uint32_t p = 0; p < machine->dimensions.processors; p++) {
        const struct processor *processor = &machine->processors[p];
        const struct line *line = &processor->lines[line_index(machine, word)];
        if (line->state == DIRTY && line->word == word)
            return line->data;
        for (uint32_t i = 0; i < machine->dimensions.entries; i++) {
            const struct entry *entry = &processor->entries[i];
            if (entry->state == DIRTY && entry->tag != TENTATIVE && entry->word == word)
                return entry->data;
        }
    }
    return machine->memory[word];
}
