/* Bus cycles as the processors other than the one that issues them meet them.
 * A cycle is exclusive (RFO, T_RFO, WRITE) or shared (READ, T_READ). */
#ifndef BUS_H
#define BUS_H

#include "cache.h"

static inline bool holds_against(const struct machine *machine,
                                 struct processor *processor, uint32_t word,
                                 bool exclusive)
{
    const struct entry *entry = find_entry(machine, processor, word);
    return entry != NULL && entry->tag == TENTATIVE &&
           (exclusive || entry->state != VALID);
}

/* 'Refusing the bus': T_READ and T_RFO meet BUSY. */
static inline bool bus_refuses(struct machine *machine, const struct processor *own,
                               uint32_t word, bool exclusive)
{
    struct processor *end = machine->processors + machine->dimensions.processors;
    for (struct processor *other = machine->processors; other < end; other++)
        if (other != own && holds_against(machine, other, word, exclusive))
            return true;
    return false;
}

/* READ, RFO and WRITE are never refused: whoever holds the word against them
 * is rolled back first (the paper's footnote 1). */
static inline void roll_back_others(struct machine *machine,
                                    const struct processor *own, uint32_t word,
                                    bool exclusive)
{
    struct processor *end = machine->processors + machine->dimensions.processors;
    for (struct processor *other = machine->processors; other < end; other++)
        if (other != own && holds_against(machine, other, word, exclusive))
            rollback(machine, other);
}

static inline void snoop_line(struct machine *machine, struct line *line, bool exclusive)
{
    if (line->state == DIRTY)
        machine->memory[line->word] = line->data;
    if (exclusive)
        clear_line(line);
    else
        line->state = VALID;
}

static inline void snoop_entry(struct machine *machine, struct entry *entry,
                               bool exclusive)
{
    if (entry->state == DIRTY)
        machine->memory[entry->word] = entry->data;
    if (exclusive)
        clear_entry(entry);
    else
        entry->state = VALID;
}

/* 'Other caches'. Afterwards memory has the data to supply: a DIRTY copy gave
 * it there, and every other copy agrees with it. */
static inline void snoop(struct machine *machine, const struct processor *own,
                         uint32_t word, bool exclusive)
{
    struct processor *end = machine->processors + machine->dimensions.processors;
    for (struct processor *other = machine->processors; other < end; other++) {
        if (other == own)
            continue;
        struct line *line = line_for(machine, other, word);
        if (line_holds(line, word)) {
            snoop_line(machine, line, exclusive);
            continue; /* exclusive caches: no entry holds it too */
        }
        struct entry *entry = find_entry(machine, other, word);
        if (entry != NULL)
            snoop_entry(machine, entry, exclusive);
    }
}

#endif
