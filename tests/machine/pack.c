#include "pack.h"

#include <string.h>

uint64_t pack_copy(uint32_t state, uint32_t tag, uint32_t word, uint32_t data)
{
    return (uint64_t)state << STIRNFELD_STATE_BIT | (uint64_t)tag << STIRNFELD_TAG_BIT |
           (uint64_t)word << STIRNFELD_WORD_BIT | data;
}

uint32_t copy_state(uint64_t copy)
{
    return copy >> STIRNFELD_STATE_BIT & 3;
}

uint32_t copy_tag(uint64_t copy)
{
    return copy >> STIRNFELD_TAG_BIT & 3;
}

uint32_t copy_word(uint64_t copy)
{
    return copy >> STIRNFELD_WORD_BIT & 255;
}

uint32_t copy_data(uint64_t copy)
{
    return (uint32_t)copy;
}

size_t line_place(uint32_t p, uint32_t i)
{
    return STIRNFELD_REGULAR + (size_t)STIRNFELD_STRIDE * p + i;
}

size_t entry_place(uint32_t p, uint32_t i)
{
    return STIRNFELD_TRANSACTIONAL + (size_t)STIRNFELD_STRIDE * p + i;
}

static uint32_t narrow(uint64_t number)
{
    return number < UINT32_MAX ? (uint32_t)number : UINT32_MAX;
}

struct dimensions unpack_dimensions(const uint64_t dimensions[4])
{
    return (struct dimensions){narrow(dimensions[0]), narrow(dimensions[1]),
                               narrow(dimensions[2]), narrow(dimensions[3])};
}

static void unpack_processor(struct processor *processor, const uint64_t *state, uint32_t p)
{
    for (uint32_t i = 0; i < MAX_LINES; i++) {
        uint64_t copy = state[line_place(p, i)];
        processor->lines[i] = (struct line){
            .data = copy_data(copy), .word = copy_word(copy), .state = copy_state(copy)};
    }
    for (uint32_t i = 0; i < MAX_ENTRIES; i++) {
        uint64_t copy = state[entry_place(p, i)];
        processor->entries[i] = (struct entry){
            .data = copy_data(copy), .word = copy_word(copy),
            .state = copy_state(copy), .tag = copy_tag(copy)};
    }
    processor->tactive = (uint8_t)state[STIRNFELD_TACTIVE + p];
    processor->tstatus = (uint8_t)state[STIRNFELD_TSTATUS + p];
}

void unpack_state(struct machine *machine, const uint64_t state[STIRNFELD_STATE])
{
    machine->dimensions = unpack_dimensions(state + STIRNFELD_PROCESSORS);
    for (uint32_t w = 0; w < MAX_WORDS; w++)
        machine->memory[w] = (uint32_t)state[STIRNFELD_MEMORY + w];
    for (uint32_t p = 0; p < MAX_PROCESSORS; p++)
        unpack_processor(&machine->processors[p], state, p);
}

static void pack_processor(uint64_t *state, const struct machine *machine, uint32_t p)
{
    const struct processor *processor = &machine->processors[p];
    for (uint32_t i = 0; i < machine->dimensions.lines; i++) {
        const struct line *line = &processor->lines[i];
        state[line_place(p, i)] = pack_copy(line->state, NO_TAG, line->word, line->data);
    }
    for (uint32_t i = 0; i < machine->dimensions.entries; i++) {
        const struct entry *entry = &processor->entries[i];
        state[entry_place(p, i)] =
            pack_copy(entry->state, entry->tag, entry->word, entry->data);
    }
    state[STIRNFELD_TACTIVE + p] = processor->tactive;
    state[STIRNFELD_TSTATUS + p] = processor->tstatus;
}

void pack_state(uint64_t state[STIRNFELD_STATE], const struct machine *machine)
{
    const struct dimensions *d = &machine->dimensions;
    memset(state, 0, STIRNFELD_STATE * sizeof *state);
    state[STIRNFELD_PROCESSORS] = d->processors;
    state[STIRNFELD_WORDS] = d->words;
    state[STIRNFELD_LINES] = d->lines;
    state[STIRNFELD_ENTRIES] = d->entries;
    for (uint32_t w = 0; w < d->words; w++)
        state[STIRNFELD_MEMORY + w] = machine->memory[w];
    for (uint32_t p = 0; p < d->processors; p++)
        pack_processor(state, machine, p);
}

static bool is_within(size_t place, size_t from, size_t length)
{
    return place >= from && place - from < length;
}

/* The same, `length` places for each of some processors. */
static bool is_among(size_t place, size_t from, size_t length, uint32_t processors)
{
    return is_within(place, from, (size_t)STIRNFELD_STRIDE * processors) &&
           (place - from) % STIRNFELD_STRIDE < length;
}

bool is_reached(const struct dimensions *dimensions, size_t place)
{
    return is_within(place, STIRNFELD_PROCESSORS, 4) ||
           is_within(place, STIRNFELD_TACTIVE, dimensions->processors) ||
           is_within(place, STIRNFELD_TSTATUS, dimensions->processors) ||
           is_within(place, STIRNFELD_MEMORY, dimensions->words) ||
           is_among(place, STIRNFELD_REGULAR, dimensions->lines, dimensions->processors) ||
           is_among(place, STIRNFELD_TRANSACTIONAL, dimensions->entries,
                    dimensions->processors);
}

/* Of the number at a place that is reached, the bits that the second program can
 * hold. */
static uint64_t bits_of(size_t place)
{
    if (place < STIRNFELD_TACTIVE)
        return UINT64_MAX;
    if (place < STIRNFELD_MEMORY)
        return UINT8_MAX;
    if (place < STIRNFELD_REGULAR)
        return UINT32_MAX;
    return pack_copy(3, place < STIRNFELD_TRANSACTIONAL ? NO_TAG : 3, 255, UINT32_MAX);
}

bool state_in_form(const uint64_t state[STIRNFELD_STATE])
{
    struct dimensions d = unpack_dimensions(state + STIRNFELD_PROCESSORS);
    for (size_t place = 0; place < STIRNFELD_STATE; place++)
        if ((state[place] & ~(is_reached(&d, place) ? bits_of(place) : 0)) != 0)
            return false;
    return true;
}
