/* Bytes of a text damaged. */
#ifndef DAMAGE_H
#define DAMAGE_H

#include "dice.h"
#include "job.h"

/* One byte, or a few, replaced, removed, doubled, swapped, inserted or moved. */
void damage(struct job *job, struct dice *dice);

/* A byte that often means something in a text, or any byte. */
char draw_byte(struct dice *dice);

#endif
