#include "generate.h"

#include <stdbool.h>

enum { HOT_WORDS = 4 };

struct mood {
    uint32_t hot[HOT_WORDS]; /* words that most steps use */
    uint32_t weights[INSTRUCTIONS];
    uint32_t total;
};

/* splitmix64 */
static uint64_t draw(uint64_t *seed)
{
    uint64_t z = *seed += 0x9e3779b97f4a7c15u;
    z = (z ^ (z >> 30)) * 0xbf58476d1ce4e5b9u;
    z = (z ^ (z >> 27)) * 0x94d049bb133111ebu;
    return z ^ (z >> 31);
}

static uint32_t below(uint64_t *seed, uint32_t bound)
{
    return (uint32_t)(draw(seed) % bound);
}

static uint32_t from_to(uint64_t *seed, uint32_t least, uint32_t most)
{
    return least + below(seed, most - least + 1);
}

static struct dimensions draw_dimensions(uint64_t *seed, enum size_class size_class)
{
    static const uint32_t words[] = {8, 32, MAX_WORDS};
    static const uint32_t lines[] = {2, 4, 6};
    static const uint32_t entries[] = {4, 12, MAX_ENTRIES};
    static const uint32_t processors[] = {4, 6, MAX_PROCESSORS};
    return (struct dimensions){
        from_to(seed, 1, processors[size_class]), from_to(seed, 1, words[size_class]),
        1u << from_to(seed, 0, lines[size_class]), from_to(seed, 1, entries[size_class])};
}

/* Long and short transactions, many or few plain accesses: each trace its own. */
static void draw_mood(struct mood *mood, uint64_t *seed, uint32_t words)
{
    static const uint32_t most[INSTRUCTIONS] = {
        [LOAD] = 10, [STORE] = 10, [LT] = 20, [LTX] = 10, [ST] = 20,
        [COMMIT] = 12, [ABORT] = 3, [VALIDATE] = 3, [INTERRUPT] = 2};
    mood->total = 0;
    for (int i = 0; i < INSTRUCTIONS; i++) {
        mood->weights[i] = from_to(seed, i == LT, most[i]);
        mood->total += mood->weights[i];
    }
    for (int i = 0; i < HOT_WORDS; i++)
        mood->hot[i] = below(seed, words);
}

static uint32_t draw_instruction(const struct mood *mood, uint64_t *seed)
{
    uint32_t ticket = below(seed, mood->total);
    uint32_t instruction = 0;
    while (ticket >= mood->weights[instruction])
        ticket -= mood->weights[instruction++];
    return instruction;
}

static uint32_t draw_word(const struct mood *mood, uint64_t *seed, uint32_t words)
{
    bool hot = below(seed, 4) != 0;
    return hot ? mood->hot[below(seed, HOT_WORDS)] : below(seed, words);
}

void generate(struct trace *trace, uint64_t seed, enum size_class size_class)
{
    struct mood mood;
    trace->dimensions = draw_dimensions(&seed, size_class);
    draw_mood(&mood, &seed, trace->dimensions.words);
    for (uint32_t w = 0; w < MAX_WORDS; w++)
        trace->memory[w] = w < trace->dimensions.words ? below(&seed, 100) : 0;
    trace->length = TRACE_LIMIT;
    for (size_t i = 0; i < trace->length; i++)
        trace->steps[i] = (struct trace_step){
            draw_instruction(&mood, &seed), below(&seed, trace->dimensions.processors),
            draw_word(&mood, &seed, trace->dimensions.words), (uint32_t)draw(&seed)};
}
