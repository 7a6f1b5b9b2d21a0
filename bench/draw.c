#include "draw.h"

#include <stddef.h>
#include <string.h>

#include "machine.h"

enum spread { ANY_WORD, OWN_WORDS, ONE_WORD };

struct kind {
    const char *name;
    uint32_t weights[INSTRUCTIONS];
    enum spread spread;
};

static const struct kind kinds[] = {
    /* every step as often as any other, on any word */
    {"random", {1, 1, 1, 1, 1, 1, 1, 1, 1}, ANY_WORD},
    /* long transactions; a core keeps to its own words, but for a step in 32 */
    {"apart", {[LT] = 40, [LTX] = 8, [ST] = 16, [COMMIT] = 3, [VALIDATE] = 1}, OWN_WORDS},
    /* all cores on one word */
    {"one-word", {1, 1, 1, 1, 1, 1, 1, 1, 1}, ONE_WORD},
};

static uint64_t seed = 1;

/* splitmix64 */
static uint32_t below(uint32_t bound)
{
    uint64_t z = seed += 0x9e3779b97f4a7c15u;
    z = (z ^ (z >> 30)) * 0xbf58476d1ce4e5b9u;
    z = (z ^ (z >> 27)) * 0x94d049bb133111ebu;
    return (uint32_t)((z ^ (z >> 31)) % bound);
}

static uint8_t draw_number(const struct kind *kind)
{
    uint32_t total = 0;
    for (int i = 0; i < INSTRUCTIONS; i++)
        total += kind->weights[i];
    uint32_t ticket = below(total);
    uint8_t step = 0;
    while (ticket >= kind->weights[step])
        ticket -= kind->weights[step++];
    return step;
}

static uint32_t draw_word(enum spread spread, uint32_t core, uint32_t processors, uint32_t words)
{
    uint32_t share = words / processors;
    if (spread == ONE_WORD)
        return 0;
    if (spread == ANY_WORD || share == 0 || below(32) == 0)
        return below(words);
    return core * share + below(share);
}

const struct kind *kind_named(const char *name)
{
    for (size_t i = 0; i < sizeof kinds / sizeof kinds[0]; i++)
        if (strcmp(kinds[i].name, name) == 0)
            return &kinds[i];
    return NULL;
}

struct drawn draw_step(const struct kind *kind, uint32_t processors, uint32_t words)
{
    struct drawn drawn;
    drawn.step = draw_number(kind);
    drawn.core = (uint8_t)below(processors);
    drawn.word = (uint8_t)draw_word(kind->spread, drawn.core, processors, words);
    drawn.value = (uint8_t)below(256);
    return drawn;
}
