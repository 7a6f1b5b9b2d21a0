#include <string.h>

#include "check.h"
#include "lent.h"
#include "suites.h"

static void expect_refusal(uint8_t number, const char *what)
{
    remember();
    uint8_t refusal = make();
    expect(refusal == number, "%s is %u, and not %u", what, number, refusal);
    expect(unchanged(), "%s: nothing is written", what);
}

static void out_of_range(void)
{
    static const struct { size_t dimensions[4]; uint8_t refusal; } rows[] = {
        { { 0, 4, 4, 2 }, 1 }, { { 9, 4, 4, 2 }, 1 }, { { SIZE_MAX, 4, 4, 2 }, 1 },
        { { 2, 0, 4, 2 }, 2 }, { { 2, 257, 4, 2 }, 2 }, { { 2, SIZE_MAX, 4, 2 }, 2 },
        { { 2, 4, 0, 2 }, 3 }, { { 2, 4, 3, 2 }, 3 }, { { 2, 4, 128, 2 }, 3 },
        { { 2, 4, 4, 0 }, 4 }, { { 2, 4, 4, 65 }, 4 }, { { 2, 4, 4, SIZE_MAX }, 4 },
        { { 0, 0, 0, 0 }, 1 }, { { 2, 0, 0, 0 }, 2 }, { { 2, 4, 0, 0 }, 3 },
    };
    for (size_t k = 0; k < sizeof rows / sizeof *rows; k++) {
        make_bench();
        asked.processors = rows[k].dimensions[0];
        asked.words = rows[k].dimensions[1];
        asked.lines = rows[k].dimensions[2];
        asked.entries = rows[k].dimensions[3];
        expect_refusal(rows[k].refusal, "a dimension out of range");
    }
}

static void initial_of_another_length(void)
{
    make_bench();
    asked.initial = 3;
    expect_refusal(5, "a word short");
    asked.initial = 5;
    expect_refusal(5, "a word more");
    asked.initial = 0;
    expect_refusal(5, "no word");
    asked.entries = 0;
    expect_refusal(4, "4 before 5");
}

/* The array held noise before. */
static void a_fresh_state(void)
{
    uint64_t fresh[STIRNFELD_STATE] = {
        [STIRNFELD_PROCESSORS] = 2, [STIRNFELD_WORDS] = 4,
        [STIRNFELD_LINES] = 4, [STIRNFELD_ENTRIES] = 2,
        [STIRNFELD_TSTATUS] = 1, [STIRNFELD_TSTATUS + 1] = 1,
        [STIRNFELD_MEMORY] = 10, [STIRNFELD_MEMORY + 1] = 11,
        [STIRNFELD_MEMORY + 2] = 12, [STIRNFELD_MEMORY + 3] = 13
    };
    make_bench();
    for (size_t i = 0; i < STIRNFELD_STATE; i++)
        expect(lent.state[i] == fresh[i], "place %zu is %llu", i,
               (unsigned long long)fresh[i]);
    expect(lent.state[STIRNFELD_STATE] == NOISE_64, "nothing is written past the array");
}

static void the_largest(void)
{
    make_bench();
    asked.processors = 8;
    asked.words = asked.initial = 256;
    asked.lines = asked.entries = 64;
    expect(make() == 0, "8 processors, 256 words, 64 lines, 64 entries pass");
    for (size_t a = 0; a < 256; a++)
        expect(lent.state[STIRNFELD_MEMORY + a] == lent.initial[a], "word %zu is there", a);
    expect(sound() == 0, "it is sound");
}

void test_make(void)
{
    test("make: 1 to 4, dimensions out of range", out_of_range);
    test("make: 5, initial memory of another length", initial_of_another_length);
    test("make: a fresh state", a_fresh_state);
    test("make: the largest machine", the_largest);
}
