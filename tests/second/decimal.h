#ifndef DECIMAL_H
#define DECIMAL_H

#include <stdbool.h>
#include <stddef.h>
#include <stdint.h>

/* A decimal of document 01: digits only, at least one, at most 4294967295, no
 * leading zero but for 0. *number is written only when the text is one. */
bool decimal_parse(const char *text, size_t length, uint32_t *number);

#endif
