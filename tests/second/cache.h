/* One processor's two caches: looking up, rolling back, finding a slot. */
#ifndef CACHE_H
#define CACHE_H

#include <stdbool.h>

#include "machine.h"
#include "mutant.h"

static inline uint32_t line_index(const struct machine *machine, uint32_t word)
{
    return word & (machine->dimensions.lines - 1); /* lines is a power of two */
}

static inline struct line *line_for(const struct machine *machine,
                                    struct processor *processor, uint32_t word)
{
    return &processor->lines[line_index(machine, word)];
}

static inline bool line_holds(const struct line *line, uint32_t word)
{
    return line->state != INVALID && line->word == word;
}

static inline void clear_line(struct line *line)
{
    *line = (struct line){0};
}

static inline void clear_entry(struct entry *entry)
{
    *entry = (struct entry){0};
}

/* The NORMAL or tentative entry of a word: there is at most one of the two. */
static inline struct entry *find_entry(const struct machine *machine,
                                       struct processor *processor, uint32_t word)
{
    struct entry *end = processor->entries + machine->dimensions.entries;
    for (struct entry *entry = processor->entries; entry < end; entry++)
        if (entry->word == word && (entry->tag == NORMAL || entry->tag == TENTATIVE))
            return entry;
    return NULL;
}

static inline void rollback(const struct machine *machine, struct processor *processor)
{
    struct entry *end = processor->entries + machine->dimensions.entries;
    for (struct entry *entry = processor->entries; entry < end; entry++) {
        if (entry->tag == TENTATIVE)
            clear_entry(entry);
        else if (entry->tag == BACKUP && MUTANT == MUTANT_LOST_BACKUP)
            clear_entry(entry);
        else if (entry->tag == BACKUP)
            entry->tag = NORMAL;
    }
    processor->tstatus = false;
}

/* 'Slot search'. A slot taken earlier in the step is already tentative, which
 * keeps it out of the search. */
static inline struct entry *find_slot(const struct machine *machine,
                                      struct processor *processor)
{
    struct entry *normal = NULL;
    struct entry *backup = NULL;
    struct entry *end = processor->entries + machine->dimensions.entries;
    for (struct entry *entry = processor->entries; entry < end; entry++) {
        if (entry->tag == NO_TAG)
            return entry;
        if (entry->tag == NORMAL && normal == NULL)
            normal = entry;
        if (entry->tag == BACKUP && backup == NULL)
            backup = entry;
    }
    return normal != NULL ? normal : backup;
}

#endif
