/* 'Sound states', clause by clause: first each line and entry alone, then the
 * list of all copies, taken two at a time. */
#include "sound.h"

enum place { IN_REGULAR, IN_NORMAL, IN_BACKUP, IN_TENTATIVE };

struct copy {
    uint32_t core;
    enum place place;
    uint32_t state;
    uint32_t word;
    uint32_t data;
};

enum { MAX_COPIES = MAX_PROCESSORS * (MAX_LINES + MAX_ENTRIES) };

struct copies {
    size_t length;
    struct copy items[MAX_COPIES];
};

static bool line_sound(const struct machine *machine, const struct line *line,
                       uint32_t index)
{
    if (line->state > DIRTY)
        return false;
    if (line->state == INVALID)
        return line->word == 0 && line->data == 0;
    return line->word < machine->dimensions.words &&
           line->word % machine->dimensions.lines == index;
}

static bool entry_sound(const struct machine *machine, const struct entry *entry)
{
    if (entry->state > DIRTY || entry->tag > TENTATIVE)
        return false;
    if ((entry->state == INVALID) != (entry->tag == NO_TAG))
        return false;
    if (entry->state == INVALID)
        return entry->word == 0 && entry->data == 0;
    return entry->word < machine->dimensions.words;
}

static bool processor_sound(const struct machine *machine,
                            const struct processor *processor)
{
    if (processor->tactive > 1 || processor->tstatus > 1)
        return false;
    for (uint32_t i = 0; i < machine->dimensions.lines; i++)
        if (!line_sound(machine, &processor->lines[i], i))
            return false;
    for (uint32_t i = 0; i < machine->dimensions.entries; i++)
        if (!entry_sound(machine, &processor->entries[i]))
            return false;
    return true;
}

static enum place place_of(uint32_t tag)
{
    return tag == NORMAL ? IN_NORMAL : tag == BACKUP ? IN_BACKUP : IN_TENTATIVE;
}

static void gather_processor(const struct machine *machine, uint32_t core,
                             struct copies *copies)
{
    const struct processor *processor = &machine->processors[core];
    for (uint32_t i = 0; i < machine->dimensions.lines; i++) {
        const struct line *line = &processor->lines[i];
        if (line->state != INVALID)
            copies->items[copies->length++] = (struct copy){
                core, IN_REGULAR, line->state, line->word, line->data};
    }
    for (uint32_t i = 0; i < machine->dimensions.entries; i++) {
        const struct entry *entry = &processor->entries[i];
        if (entry->state != INVALID)
            copies->items[copies->length++] = (struct copy){
                core, place_of(entry->tag), entry->state, entry->word, entry->data};
    }
}

static bool copy_sound(const struct machine *machine, const struct copy *copy)
{
    const struct processor *processor = &machine->processors[copy->core];
    if (copy->place == IN_TENTATIVE && !(processor->tactive && processor->tstatus))
        return false;
    return copy->state == DIRTY || copy->data == machine->memory[copy->word];
}

static bool has_tentative(const struct copies *copies, const struct copy *backup)
{
    for (size_t i = 0; i < copies->length; i++) {
        const struct copy *copy = &copies->items[i];
        if (copy->place == IN_TENTATIVE && copy->core == backup->core &&
            copy->word == backup->word)
            return true;
    }
    return false;
}

static bool backup_not_above(const struct copy *one, const struct copy *other)
{
    if (one->place == IN_BACKUP && other->place == IN_TENTATIVE)
        return one->state <= other->state;
    if (one->place == IN_TENTATIVE && other->place == IN_BACKUP)
        return other->state <= one->state;
    return true;
}

/* Two copies of one word. */
static bool pair_sound(const struct copy *one, const struct copy *other)
{
    if (one->core != other->core)
        return one->state == VALID && other->state == VALID;
    if ((one->place == IN_BACKUP) == (other->place == IN_BACKUP))
        return false;
    return backup_not_above(one, other);
}

static bool pairs_sound(const struct copies *copies)
{
    for (size_t i = 0; i < copies->length; i++)
        for (size_t j = i + 1; j < copies->length; j++)
            if (copies->items[i].word == copies->items[j].word &&
                !pair_sound(&copies->items[i], &copies->items[j]))
                return false;
    return true;
}

bool machine_sound(const struct machine *machine)
{
    if (dimensions_refusal(&machine->dimensions) != NOT_REFUSED)
        return false;
    struct copies copies;
    copies.length = 0;
    for (uint32_t p = 0; p < machine->dimensions.processors; p++) {
        if (!processor_sound(machine, &machine->processors[p]))
            return false;
        gather_processor(machine, p, &copies);
    }
    for (size_t i = 0; i < copies.length; i++) {
        const struct copy *copy = &copies.items[i];
        if (!copy_sound(machine, copy))
            return false;
        if (copy->place == IN_BACKUP && !has_tentative(&copies, copy))
            return false;
    }
    return pairs_sound(&copies);
}
