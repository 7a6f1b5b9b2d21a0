#ifndef SOUND_H
#define SOUND_H

#include <stdbool.h>

#include "machine.h"

/* Whether a state handed in is sound, whatever its fields hold (refusal 9). */
bool machine_sound(const struct machine *machine);

#endif
