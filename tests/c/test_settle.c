#include "check.h"
#include "lent.h"
#include "suites.h"

static void is_9(const char *what)
{
    remember();
    uint8_t refusal = settle();
    expect(refusal == 9, "%s is 9, and not %u", what, refusal);
    expect(unchanged(), "%s: nothing is written", what);
}

static void unsound(void)
{
    make_bench();
    for_each_unsound(is_9);
}

/* A committed store is settled, one that is tentative is not. */
static void values(void)
{
    static const uint32_t settled[STIRNFELD_SETTLED] = { 10, 5, 12, 13 };
    make_bench();
    expect(step(STIRNFELD_ST, 0, 1, 5) == 0 && step(STIRNFELD_COMMIT, 0, 0, 0) == 0 &&
               step(STIRNFELD_ST, 0, 2, 6) == 0,
           "the steps are taken");
    uint64_t before[STIRNFELD_STATE];
    for (size_t i = 0; i < STIRNFELD_STATE; i++)
        before[i] = lent.state[i];
    expect(settle() == 0, "the state is sound");
    for (size_t a = 0; a < STIRNFELD_SETTLED; a++)
        expect(lent.settled[a] == settled[a], "word %zu is %u, and not %u", a, settled[a],
               lent.settled[a]);
    expect(lent.settled[STIRNFELD_SETTLED] == NOISE_32, "nothing is written past the last");
    for (size_t i = 0; i < STIRNFELD_STATE; i++)
        expect(lent.state[i] == before[i], "place %zu is as before", i);
}

void test_settle(void)
{
    test("settle: 9, a state that is not sound", unsound);
    test("settle: every word, and 0 past the last", values);
}
