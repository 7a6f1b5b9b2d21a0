/* A scene: steps on a machine with the exact answer due to each. */
#ifndef SCENE_H
#define SCENE_H

#include "machine.h"

struct scene_step {
    uint32_t core;
    uint32_t instruction;
    uint32_t word;
    uint32_t value;
    struct answer due;
};

/* READ, RFO, WRITE, T_READ, T_RFO, BUSY */
#define COUNTS(r, rfo, w, tr, trfo, b) {r, rfo, w, tr, trfo, b}
#define NONE COUNTS(0, 0, 0, 0, 0, 0)

#define GIVES(kind_, value_, ...) \
    {.kind = ANSWER_##kind_, .value = (value_), .counts = __VA_ARGS__}

/* The bench machine: 4 words holding 10, 11, 12, 13, and 4 lines. */
void bench_make(struct machine *machine, uint32_t processors, uint32_t entries);

void scene_play(struct machine *machine, const struct scene_step *steps, size_t length);

void expect_entry(const struct machine *machine, uint32_t core, uint32_t index,
                  struct entry due);
void expect_line(const struct machine *machine, uint32_t core, uint32_t index,
                 struct line due);
void expect_flags(const struct machine *machine, uint32_t core, uint32_t tactive,
                  uint32_t tstatus);
void expect_memory(const struct machine *machine, uint32_t word, uint32_t due);

#define ENTRY(state_, tag_, word_, data_) \
    ((struct entry){.state = (state_), .tag = (tag_), .word = (word_), .data = (data_)})
#define NO_ENTRY ((struct entry){0})
#define LINE(state_, word_, data_) \
    ((struct line){.state = (state_), .word = (word_), .data = (data_)})
#define NO_LINE ((struct line){0})

#define PLAY(machine, ...)                                                        \
    scene_play(machine, (const struct scene_step[]){__VA_ARGS__},                 \
               sizeof((const struct scene_step[]){__VA_ARGS__}) /                 \
                   sizeof(struct scene_step))

#endif
