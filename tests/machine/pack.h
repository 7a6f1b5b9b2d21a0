/* The second program's state and the array that holds one. */
#ifndef PACK_H
#define PACK_H

#include <stdbool.h>

#include "machine.h"
#include "stirnfeld.h"

enum { COPY_BITS = 44 };

uint64_t pack_copy(uint32_t state, uint32_t tag, uint32_t word, uint32_t data);
uint32_t copy_state(uint64_t copy);
uint32_t copy_tag(uint64_t copy);
uint32_t copy_word(uint64_t copy);
uint32_t copy_data(uint64_t copy);

/* Where processor p's line or entry i stands. */
size_t line_place(uint32_t p, uint32_t i);
size_t entry_place(uint32_t p, uint32_t i);

/* Four numbers as dimensions, each no larger than the second program can hold. */
struct dimensions unpack_dimensions(const uint64_t dimensions[4]);

void unpack_state(struct machine *machine, const uint64_t state[STIRNFELD_STATE]);
void pack_state(uint64_t state[STIRNFELD_STATE], const struct machine *machine);

/* Whether the dimensions reach that place. */
bool is_reached(const struct dimensions *dimensions, size_t place);

/* Whether the second program can hold the state. It cannot hold a word of memory of
 * more than 32 bits, a flag of more than 8, a copy of more than 44, a line with a
 * tag, nor anything in a place that the dimensions, which are in range, do not
 * reach. The proved machine calls each of these unsound. */
bool state_in_form(const uint64_t state[STIRNFELD_STATE]);

#endif
