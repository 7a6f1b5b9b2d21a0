/* What stands in a text where something else should: each a list, so that a test
 * can go through it, and a draw from it or beyond. */
#ifndef ODD_H
#define ODD_H

#include <stddef.h>

#include "dice.h"
#include "job.h"

struct odd {
    const char *const *texts;
    size_t length;
};

extern const struct odd odd_headers; /* none is the header */
extern const struct odd odd_numbers; /* at the edge of a number, and beyond */
extern const struct odd odd_names;   /* none is a step's */
extern const struct odd odd_ends;    /* of a line; none is CRLF */
extern const struct odd odd_records; /* too few fields, too many, none */

void write_odd(struct job *job, struct dice *dice, const struct odd *odd);

/* Digits, up to some more than a number may have. */
void write_digits(struct job *job, struct dice *dice);

/* A step's name in other letters, cut short, or with a byte too many. */
void write_wrong_name(struct job *job, struct dice *dice);

/* A record that is well formed but for its length. */
void write_record_of_length(struct job *job, size_t length);

#endif
