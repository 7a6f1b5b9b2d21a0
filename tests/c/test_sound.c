#include "check.h"
#include "lent.h"
#include "suites.h"

static void expect_sound(uint8_t number, const char *what)
{
    remember();
    uint8_t refusal = sound();
    expect(refusal == number, "%s is %u, and not %u", what, number, refusal);
    expect(unchanged(), "%s: nothing is written", what);
}

static void is_9(const char *what)
{
    expect_sound(9, what);
}

static void unsound(void)
{
    make_bench();
    for_each_unsound(is_9);
}

/* Of the bench machine's places those that may hold something. */
static bool is_used(size_t place)
{
    static const struct { size_t from, length; } used[] = {
        { STIRNFELD_PROCESSORS, 4 }, { STIRNFELD_TACTIVE, 2 }, { STIRNFELD_TSTATUS, 2 },
        { STIRNFELD_MEMORY, 4 }, { STIRNFELD_REGULAR, 4 },
        { STIRNFELD_REGULAR + STIRNFELD_STRIDE, 4 }, { STIRNFELD_TRANSACTIONAL, 2 },
        { STIRNFELD_TRANSACTIONAL + STIRNFELD_STRIDE, 2 }
    };
    for (size_t k = 0; k < sizeof used / sizeof *used; k++)
        if (place >= used[k].from && place - used[k].from < used[k].length)
            return true;
    return false;
}

static void every_other_place_is_0(void)
{
    make_bench();
    for (size_t place = 0; place < STIRNFELD_STATE; place++)
        for (int bit = 0; bit < 64 && !is_used(place); bit += 21) {
            lent.state[place] = UINT64_C(1) << bit;
            expect(sound() == 9, "bit %d of place %zu is 9", bit, place);
            lent.state[place] = 0;
        }
    expect_sound(0, "the bench machine");
}

/* Of a place that is used only some bits may be set: none from 44 on. */
static void no_bit_past_a_copys(void)
{
    make_bench();
    for (size_t place = 0; place < STIRNFELD_STATE; place++)
        for (int bit = 44; bit < 64 && is_used(place); bit++) {
            lent.state[place] ^= UINT64_C(1) << bit;
            expect(sound() == 9, "bit %d of place %zu is 9", bit, place);
            lent.state[place] ^= UINT64_C(1) << bit;
        }
    expect_sound(0, "the bench machine");
}

/* A state may be written by hand. */
static void by_hand(void)
{
    uint64_t tentative = (uint64_t)STIRNFELD_DIRTY << STIRNFELD_STATE_BIT |
                         (uint64_t)STIRNFELD_TENTATIVE << STIRNFELD_TAG_BIT |
                         UINT64_C(1) << STIRNFELD_WORD_BIT | 5;
    make_bench();
    lent.state[STIRNFELD_TACTIVE + 1] = 1;
    lent.state[STIRNFELD_TRANSACTIONAL + STIRNFELD_STRIDE] = tentative;
    expect_sound(0, "a tentative entry of processor 1");
    expect(step(STIRNFELD_COMMIT, 1, 0, 0) == 0 && lent.told[0] == STIRNFELD_SUCCESS,
           "it commits");
    expect(settle() == 0 && lent.settled[1] == 5, "its value is settled");
}

void test_sound(void)
{
    test("sound: 9, a state that is not sound", unsound);
    test("sound: 9, any bit of a place that is not used", every_other_place_is_0);
    test("sound: 9, any bit from 44 on of a place that is used", no_bit_past_a_copys);
    test("sound: a state that is written by hand", by_hand);
}
