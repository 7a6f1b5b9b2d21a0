#include <string.h>

#include "check.h"
#include "lent.h"
#include "suites.h"

static void expect_refusal(uint8_t number, uint8_t op, uint8_t core, uint32_t word,
                           const char *what)
{
    remember();
    uint8_t refusal = step(op, core, word, 5);
    expect(refusal == number, "%s is %u, and not %u", what, number, refusal);
    expect(unchanged(), "%s: nothing is written", what);
}

/* The step would be refused too, so that 9 is seen to come before 6, 7 and 8. */
static void is_9(const char *what)
{
    expect_refusal(9, STIRNFELD_ST, 0, 1, what);
    expect_refusal(9, 9, 2, 4, what);
}

static void unsound(void)
{
    make_bench();
    for_each_unsound(is_9);
}

static void refused(void)
{
    make_bench();
    expect_refusal(6, 9, 0, 0, "step 9");
    expect_refusal(6, 255, 2, 4, "step 255, before 7 and 8");
    expect_refusal(7, STIRNFELD_COMMIT, 2, 0, "core 2 of 2");
    expect_refusal(7, STIRNFELD_LOAD, 255, 4, "core 255, before 8");
    expect_refusal(8, STIRNFELD_LOAD, 1, 4, "word 4 of 4");
    expect_refusal(8, STIRNFELD_ST, 1, UINT32_MAX, "the largest word");
    expect(step(STIRNFELD_COMMIT, 0, 4, 5) == 0, "a word that is not used is ignored");
}

static void expect_told(uint8_t op, uint8_t core, uint32_t word, uint32_t value,
                        const uint32_t told[STIRNFELD_TOLD])
{
    expect(step(op, core, word, value) == 0, "step %u is taken", op);
    for (int k = 0; k < STIRNFELD_TOLD; k++)
        expect(lent.told[k] == told[k], "step %u: %d is %u, and not %u", op, k, told[k],
               lent.told[k]);
    expect(lent.told[STIRNFELD_TOLD] == NOISE_32, "nothing is written past the answer");
}

/* Document 01's case J, then a refused request. Every count is
 * met. */
static void answers(void)
{
    enum { RESULT = 1, READ, RFO, WRITE, T_READ, T_RFO, BUSY };
    make_bench();
    expect_told(STIRNFELD_LOAD, 0, 1, 0,
                (uint32_t[8]){ STIRNFELD_VALUE, [RESULT] = 11, [READ] = 1 });
    expect_told(STIRNFELD_LT, 1, 1, 0,
                (uint32_t[8]){ STIRNFELD_VALUE, [RESULT] = 11, [T_READ] = 1 });
    expect_told(STIRNFELD_STORE, 0, 1, 8, (uint32_t[8]){ STIRNFELD_DONE, [WRITE] = 1 });
    expect_told(STIRNFELD_COMMIT, 1, 77, 77, (uint32_t[8]){ STIRNFELD_FAILURE });
    expect(lent.state[STIRNFELD_MEMORY + 1] == 8, "memory has the WRITE");
    expect_told(STIRNFELD_ST, 0, 2, 6, (uint32_t[8]){ STIRNFELD_DONE, [T_RFO] = 1 });
    expect_told(STIRNFELD_LT, 1, 2, 0,
                (uint32_t[8]){ STIRNFELD_ABORTED, [T_READ] = 1, [BUSY] = 1 });
    expect_told(STIRNFELD_STORE, 1, 3, 6, (uint32_t[8]){ STIRNFELD_DONE, [RFO] = 1 });
}

void test_step(void)
{
    test("step: 9, a state that is not sound, before 6", unsound);
    test("step: 6, 7, 8, a refused step", refused);
    test("step: answers, with every count", answers);
}
