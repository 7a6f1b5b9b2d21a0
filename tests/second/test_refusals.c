/* Refusals 1 to 8: their edges, their order, and that they change nothing. */
#include <inttypes.h>
#include <string.h>

#include "check.h"
#include "names.h"
#include "scene.h"
#include "suites.h"

static struct machine machine;
static struct machine before;
static const uint32_t zero[MAX_WORDS + 1];

static void expect_made(uint32_t processors, uint32_t words, uint32_t lines,
                        uint32_t entries, enum refusal due)
{
    memset(&machine, 0x5a, sizeof machine);
    before = machine;
    struct dimensions dimensions = {processors, words, lines, entries};
    enum refusal got = machine_make(&machine, dimensions, zero, words);
    expect(got == due, "%" PRIu32 " processors, %" PRIu32 " words, %" PRIu32
           " lines, %" PRIu32 " entries: due %d, got %d", processors, words, lines,
           entries, (int)due, (int)got);
    if (due != NOT_REFUSED)
        expect(memcmp(&machine, &before, sizeof machine) == 0,
               "a refusal to make changes nothing");
}

static void processors_edges(void)
{
    for (uint32_t p = 1; p <= MAX_PROCESSORS; p++)
        expect_made(p, 4, 4, 2, NOT_REFUSED);
    expect_made(0, 4, 4, 2, REFUSED_PROCESSORS);
    expect_made(9, 4, 4, 2, REFUSED_PROCESSORS);
    expect_made(UINT32_MAX, 4, 4, 2, REFUSED_PROCESSORS);
}

static void words_edges(void)
{
    expect_made(2, 1, 4, 2, NOT_REFUSED);
    expect_made(2, 256, 4, 2, NOT_REFUSED);
    expect_made(2, 0, 4, 2, REFUSED_WORDS);
    expect_made(2, 257, 4, 2, REFUSED_WORDS);
    expect_made(2, UINT32_MAX, 4, 2, REFUSED_WORDS);
}

static void lines_edges(void)
{
    for (uint32_t lines = 0; lines <= 130; lines++) {
        bool allowed = lines == 1 || lines == 2 || lines == 4 || lines == 8 ||
                       lines == 16 || lines == 32 || lines == 64;
        expect_made(2, 4, lines, 2, allowed ? NOT_REFUSED : REFUSED_LINES);
    }
    expect_made(2, 4, 0x80000000u, 2, REFUSED_LINES);
}

static void entries_edges(void)
{
    expect_made(2, 4, 4, 1, NOT_REFUSED);
    expect_made(2, 4, 4, 3, NOT_REFUSED);
    expect_made(2, 4, 4, 64, NOT_REFUSED);
    expect_made(2, 4, 4, 0, REFUSED_ENTRIES);
    expect_made(2, 4, 4, 65, REFUSED_ENTRIES);
    expect_made(2, 4, 4, UINT32_MAX, REFUSED_ENTRIES);
}

static void memory_length(void)
{
    static const size_t lengths[] = {0, 3, 5, 257};
    struct dimensions dimensions = {2, 4, 4, 2};
    expect(machine_make(&machine, dimensions, zero, 4) == NOT_REFUSED, "4 of 4 words");
    for (size_t i = 0; i < sizeof lengths / sizeof lengths[0]; i++)
        expect(machine_make(&machine, dimensions, zero, lengths[i]) == REFUSED_MEMORY,
               "%zu of 4 words is refused with 5", lengths[i]);
}

static void order_of_making(void)
{
    expect_made(0, 0, 0, 0, REFUSED_PROCESSORS);
    expect_made(1, 0, 0, 0, REFUSED_WORDS);
    expect_made(1, 1, 0, 0, REFUSED_LINES);
    expect_made(1, 1, 1, 0, REFUSED_ENTRIES);
    struct dimensions dimensions = {1, 1, 1, 0};
    expect(machine_make(&machine, dimensions, zero, 7) == REFUSED_ENTRIES,
           "4 comes before 5");
}

static void fresh(void)
{
    bench_make(&machine, 8, 64);
    for (uint32_t p = 0; p < MAX_PROCESSORS; p++) {
        static const struct processor empty;
        const struct processor *got = &machine.processors[p];
        expect(!got->tactive && got->tstatus, "TACTIVE false and TSTATUS true");
        expect(memcmp(got->lines, empty.lines, sizeof empty.lines) == 0 &&
               memcmp(got->entries, empty.entries, sizeof empty.entries) == 0,
               "the caches are empty");
    }
    for (uint32_t w = 0; w < 4; w++)
        expect(machine.memory[w] == 10 + w && machine_settled(&machine, w) == 10 + w,
               "word %" PRIu32 " is what the caller gave", w);
}

static void expect_refused(uint32_t instruction, uint32_t core, uint32_t word,
                           enum refusal due)
{
    struct answer refused = {.kind = ANSWER_REFUSED, .refusal = due};
    before = machine;
    struct answer got = machine_step(&machine, instruction, core, word, 77);
    expect(memcmp(&got, &refused, sizeof got) == 0, "step %" PRIu32 " core %" PRIu32
           " word %" PRIu32 ": due %d, got %s %d", instruction, core, word, (int)due,
           answer_name(got.kind), got.refusal);
    expect(memcmp(&machine, &before, sizeof machine) == 0,
           "a refused step changes nothing");
}

/* A state with something of every kind in it. */
static void busy_state(void)
{
    bench_make(&machine, 2, 2);
    PLAY(&machine,
         {1, STORE, 3, 9, GIVES(DONE, 0, COUNTS(0, 1, 0, 0, 0, 0))},
         {0, ST, 1, 5, GIVES(DONE, 0, COUNTS(0, 0, 0, 0, 1, 0))});
}

static void step_refusals(void)
{
    busy_state();
    expect_refused(9, 0, 0, REFUSED_STEP);
    expect_refused(UINT32_MAX, 0, 0, REFUSED_STEP);
    for (uint32_t i = 0; i < INSTRUCTIONS; i++) {
        expect_refused(i, 2, 0, REFUSED_CORE);
        expect_refused(i, UINT32_MAX, 0, REFUSED_CORE);
    }
    for (uint32_t i = LOAD; i <= ST; i++) {
        expect_refused(i, 0, 4, REFUSED_WORD);
        expect_refused(i, 1, UINT32_MAX, REFUSED_WORD);
    }
}

static void order_of_steps(void)
{
    busy_state();
    expect_refused(9, 2, 4, REFUSED_STEP);
    expect_refused(LOAD, 2, 4, REFUSED_CORE);
    expect_refused(LOAD, 1, 4, REFUSED_WORD);
}

static void unused_fields(void)
{
    bench_make(&machine, 1, 2);
    PLAY(&machine,
         {0, LOAD, 1, UINT32_MAX, GIVES(VALUE, 11, COUNTS(1, 0, 0, 0, 0, 0))},
         {0, COMMIT, UINT32_MAX, 7, GIVES(SUCCESS, 0, NONE)},
         {0, ABORT, 4, 7, GIVES(DONE, 0, NONE)},
         {0, VALIDATE, 256, 7, GIVES(TRUE, 0, NONE)},
         {0, INTERRUPT, UINT32_MAX, 7, GIVES(DONE, 0, NONE)});
}

void refusals_suite(void)
{
    test("refusal 1: 1 to 8 processors pass, 0 and 9 do not", processors_edges);
    test("refusal 2: 1 and 256 words pass, 0 and 257 do not", words_edges);
    test("refusal 3: powers of two to 64 lines pass, all else does not", lines_edges);
    test("refusal 4: 1 and 64 entries pass, 0 and 65 do not", entries_edges);
    test("refusal 5: initial memory of another length", memory_length);
    test("refusals 1 to 5 come in order", order_of_making);
    test("a fresh machine", fresh);
    test("refusals 6, 7, 8 of a step", step_refusals);
    test("refusals 6, 7, 8 come in order", order_of_steps);
    test("unused fields are ignored", unused_fields);
}
