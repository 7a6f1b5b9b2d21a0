/* How far the tests go: from which seed, for how long, and whether past a
 * difference. */
#ifndef LIMITS_H
#define LIMITS_H

#include <stdbool.h>
#include <stdint.h>

/* How a program is told, in LIMITS words: `all` that there is to compare, or up
 * to the `first` difference; a seed; and the seconds after which it ends where it
 * is, 0 for none. */
enum { LIMITS = 3 };
#define LIMITS_USAGE "all|first SEED SECONDS"

/* Whether the words are such. */
bool limits_read(char *const words[LIMITS]);

/* The seed of the test with this number. */
uint64_t test_seed(uint64_t number);

/* Called at each difference. */
void limits_differ(void);

/* Whether no more is to be compared. */
bool limits_reached(void);

#endif
