/* Each function is called on a stack of its own, which is painted before. */
#include <stdio.h>
#include <string.h>
#include <ucontext.h>

#include "check.h"
#include "lent.h"
#include "suites.h"

enum { ROOM = 1 << 20, PAINT = 0x5C };

static _Alignas(64) unsigned char stack[ROOM];
static ucontext_t outside, inside;
static uint8_t refusal;

static size_t used_of_stack(void (*call)(void))
{
    memset(stack, PAINT, sizeof stack);
    getcontext(&inside);
    inside.uc_stack.ss_sp = stack;
    inside.uc_stack.ss_size = sizeof stack;
    inside.uc_link = &outside;
    makecontext(&inside, call, 0);
    swapcontext(&outside, &inside);
    size_t untouched = 0;
    while (untouched < sizeof stack && stack[untouched] == PAINT)
        untouched++;
    return sizeof stack - untouched;
}

static void call_make(void)
{
    refusal = make();
}

static void call_step(void)
{
    refusal = step(STIRNFELD_LTX, 7, 255, 0);
}

static void call_run(void)
{
    size_t taken;
    refusal = run(&taken);
}

static void call_sound(void)
{
    refusal = sound();
}

static void call_settle(void)
{
    refusal = settle();
}

static void expect_room(const char *name, void (*call)(void))
{
    refusal = 99;
    size_t used = used_of_stack(call);
    printf("  %s: %zu bytes\n", name, used);
    expect(refusal == 0, "%s is not refused", name);
    expect(used <= STIRNFELD_STACK, "%s needs no more than %d bytes", name, STIRNFELD_STACK);
}

/* Steps of every kind, on any core and word, so that a run goes wherever it can. */
static void set_mixed_run(void)
{
    uint64_t seed = 1;
    set_columns(STIRNFELD_STEPS);
    for (size_t i = 0; i < STIRNFELD_STEPS; i++) {
        seed = seed * UINT64_C(6364136223846793005) + UINT64_C(1442695040888963407);
        set_step(i, (seed >> 33) % 9, (seed >> 40) % 8, seed >> 48 & 255, (uint32_t)(seed >> 20));
    }
}

static void needed(void)
{
    make_bench();
    asked.processors = 8;
    asked.words = asked.initial = 256;
    asked.lines = asked.entries = 64;
    set_mixed_run();
    expect_room("make", call_make);
    expect_room("run", call_run);
    expect_room("step", call_step);
    expect_room("sound", call_sound);
    expect_room("settle", call_settle);
}

void test_stack(void)
{
    test("a call needs no more stack than the header says", needed);
}
