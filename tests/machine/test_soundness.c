/* States handed in, sound or not, to everything that takes one. */
#include <stdio.h>

#include "change.h"
#include "check.h"
#include "compare.h"
#include "pack.h"
#include "suites.h"

enum { STATES = 100, TRIES = 100000 };

static const struct change *change;

/* Says whether it is sound. */
static bool give_to_all(struct job *job, struct dice *dice)
{
    struct reply reply;
    job->kind = JOB_SOUND;
    compare(job, &reply);
    bool sound = reply.refusal == NOT_REFUSED;
    for (int kind = JOB_SETTLE; kind <= JOB_RUN; kind++) {
        draw_use(job, dice, kind);
        compare(job, &reply);
    }
    return sound;
}

static void changed_states(uint64_t seed)
{
    struct dice dice = {seed};
    int given = 0;
    for (int i = 0; i < TRIES && given < STATES; i++) {
        struct job job = {0};
        draw_reached(&job, &dice, draw_any_dimensions(&dice));
        if (!change->make(&job, &dice))
            continue;
        bool sound = give_to_all(&job, &dice);
        expect(sound == change->sound, "the state is%s sound", sound ? "" : " not");
        given++;
    }
    expect(given == STATES, "only %d states could be changed so", given);
}

/* Something else at a place: a bit turned, what another place has, a small number,
 * or anything. */
static void spoil_place(struct job *job, struct dice *dice)
{
    struct dimensions d = unpack_dimensions(job->state);
    uint32_t place = roll_below(dice, STIRNFELD_STATE);
    for (int i = 0; i < 20 && !is_reached(&d, place); i++)
        place = roll_below(dice, STIRNFELD_STATE);
    uint64_t numbers[] = {job->state[place] ^ 1ull << roll_below(dice, 64),
                          job->state[place] ^ 1ull << roll_below(dice, COPY_BITS),
                          job->state[roll_below(dice, STIRNFELD_STATE)], roll_below(dice, 4),
                          roll(dice)};
    job->state[place] = numbers[roll_below(dice, 5)];
}

/* Nothing says beforehand which of them are sound, and some are. */
static void spoilt_places(uint64_t seed)
{
    struct dice dice = {seed};
    int sound = 0, given = 2000;
    for (int i = 0; i < given; i++) {
        struct job job = {0};
        draw_reached(&job, &dice, draw_any_dimensions(&dice));
        for (uint32_t left = roll_from(&dice, 1, 3); left > 0; left--)
            spoil_place(&job, &dice);
        sound += give_to_all(&job, &dice);
    }
    expect(sound > given / 50 && sound < given - given / 50, "%d of %d are sound", sound, given);
}

static void arrays_of_anything(uint64_t seed)
{
    struct dice dice = {seed};
    for (int i = 0; i < 200; i++) {
        struct job job = {0};
        uint32_t bound = 1u << roll_below(&dice, 8);
        for (size_t place = 0; place < STIRNFELD_STATE; place++)
            job.state[place] = roll_one_in(&dice, bound) ? roll(&dice) : 0;
        expect(!give_to_all(&job, &dice), "the array is not sound");
    }
}

void test_soundness(void)
{
    for (size_t i = 0; i < changes_length; i++) {
        char name[100];
        change = &changes[i];
        snprintf(name, sizeof name, "%s: %s", change->sound ? "sound" : "not sound",
                 change->name);
        compared_test(name, 401 + i, changed_states);
    }
    compared_test("places with something else", 461, spoilt_places);
    compared_test("arrays of anything", 462, arrays_of_anything);
}
