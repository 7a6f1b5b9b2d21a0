/* The document's names of instructions and answers. */
#ifndef NAMES_H
#define NAMES_H

#include <stddef.h>
#include <stdint.h>

const char *instruction_name(uint32_t instruction);

/* The instruction so named, or INSTRUCTIONS. */
uint32_t instruction_named(const char *text, size_t length);

const char *answer_name(uint32_t kind);

#endif
