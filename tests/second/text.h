/* The text replay of 'The replay program and its text'. */
#ifndef TEXT_H
#define TEXT_H

#include "machine.h"

/* The record that holds the byte after this many is refused with 14. */
enum { TEXT_LIMIT = 4194304 };

struct listing {
    char *bytes;
    size_t length;
    size_t capacity;
};

/* Replays the text on the machine and appends the whole listing. */
void text_replay(struct machine *machine, const char *input, size_t length,
                 struct listing *listing);

/* The listing when there is no machine to replay on. */
void text_refuse_machine(enum refusal refusal, struct listing *listing);

void listing_free(struct listing *listing);

#endif
