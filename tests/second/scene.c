#include "scene.h"

#include <inttypes.h>
#include <stdio.h>
#include <string.h>

#include "check.h"
#include "names.h"
#include "sound.h"

void bench_make(struct machine *machine, uint32_t processors, uint32_t entries)
{
    static const uint32_t memory[] = {10, 11, 12, 13};
    struct dimensions dimensions = {processors, 4, 4, entries};
    enum refusal refusal = machine_make(machine, dimensions, memory, 4);
    expect(refusal == NOT_REFUSED, "the bench machine is refused with %d", (int)refusal);
}

static void spell(char *text, size_t capacity, const struct answer *answer)
{
    const uint8_t *c = answer->counts;
    snprintf(text, capacity, "%s %" PRIu32 " counts %d %d %d %d %d %d refusal %d",
             answer_name(answer->kind), answer->value, c[0], c[1], c[2], c[3], c[4],
             c[5], answer->refusal);
}

void scene_play(struct machine *machine, const struct scene_step *steps, size_t length)
{
    for (size_t i = 0; i < length; i++) {
        const struct scene_step *step = &steps[i];
        struct answer got = machine_step(machine, step->instruction, step->core,
                                         step->word, step->value);
        char due_text[96];
        char got_text[96];
        spell(due_text, sizeof due_text, &step->due);
        spell(got_text, sizeof got_text, &got);
        expect(memcmp(&got, &step->due, sizeof got) == 0, "step %zu, P%" PRIu32
               " %s %" PRIu32 ": due %s, got %s", i + 1, step->core,
               instruction_name(step->instruction), step->word, due_text, got_text);
        expect(machine_sound(machine), "the state is sound after step %zu", i + 1);
    }
}

void expect_entry(const struct machine *machine, uint32_t core, uint32_t index,
                  struct entry due)
{
    struct entry got = machine->processors[core].entries[index];
    expect(memcmp(&got, &due, sizeof got) == 0, "P%" PRIu32 " entry %" PRIu32
           ": due state %d tag %d word %d data %" PRIu32
           ", got state %d tag %d word %d data %" PRIu32, core, index, due.state,
           due.tag, due.word, due.data, got.state, got.tag, got.word, got.data);
}

void expect_line(const struct machine *machine, uint32_t core, uint32_t index,
                 struct line due)
{
    struct line got = machine->processors[core].lines[index];
    expect(memcmp(&got, &due, sizeof got) == 0, "P%" PRIu32 " line %" PRIu32
           ": due state %d word %d data %" PRIu32 ", got state %d word %d data %" PRIu32,
           core, index, due.state, due.word, due.data, got.state, got.word, got.data);
}

void expect_flags(const struct machine *machine, uint32_t core, uint32_t tactive,
                  uint32_t tstatus)
{
    const struct processor *got = &machine->processors[core];
    expect(got->tactive == tactive && got->tstatus == tstatus,
           "P%" PRIu32 ": TACTIVE %d, TSTATUS %d", core, got->tactive, got->tstatus);
}

void expect_memory(const struct machine *machine, uint32_t word, uint32_t due)
{
    expect(machine->memory[word] == due, "memory at %" PRIu32 ": due %" PRIu32
           ", got %" PRIu32, word, due, machine->memory[word]);
}
