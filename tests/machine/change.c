#include "change.h"

#include "pack.h"

typedef bool predicate(uint64_t copy);

/* A place of the state, and whose it is. */
struct spot {
    uint64_t *copy; /* NULL: there is none */
    uint32_t p;
    uint32_t i;
    bool line;
};

static bool is_free(uint64_t copy) { return copy == 0; }
static bool is_held(uint64_t copy) { return copy != 0; }
static bool is_normal(uint64_t copy) { return copy_tag(copy) == NORMAL; }
static bool is_backup(uint64_t copy) { return copy_tag(copy) == BACKUP; }
static bool is_tentative(uint64_t copy) { return copy_tag(copy) == TENTATIVE; }
static bool is_dirty(uint64_t copy) { return copy_state(copy) == DIRTY; }
static bool is_reserved(uint64_t copy) { return copy_state(copy) == RESERVED; }
static bool is_owned(uint64_t copy) { return copy_state(copy) >= RESERVED; }

static bool is_any(uint64_t copy)
{
    (void)copy;
    return true;
}

static bool is_no_backup(uint64_t copy)
{
    return copy != 0 && copy_tag(copy) != BACKUP;
}

static bool is_no_tentative(uint64_t copy)
{
    return copy != 0 && copy_tag(copy) != TENTATIVE;
}

static bool agrees_with_memory(uint64_t copy)
{
    return copy_state(copy) == VALID || copy_state(copy) == RESERVED;
}

enum caches { IN_LINES = 1, IN_ENTRIES = 2, IN_BOTH = 3 };

/* Of the places of processors from..to-1 that fit, each has the same chance to be
 * picked: the n-th that is seen takes the place of the one before in one case of n. */
static struct spot pick_between(struct job *job, struct dice *dice, enum caches caches,
                                predicate *fits, uint32_t from, uint32_t to)
{
    struct spot picked = {NULL, 0, 0, false};
    uint32_t seen = 0;
    for (uint32_t p = from; p < to; p++)
        for (int line = 0; line < 2; line++) {
            if (!(caches & (line ? IN_LINES : IN_ENTRIES)))
                continue;
            uint64_t length = job->state[line ? STIRNFELD_LINES : STIRNFELD_ENTRIES];
            for (uint32_t i = 0; i < length; i++) {
                uint64_t *copy = &job->state[line ? line_place(p, i) : entry_place(p, i)];
                if (fits(*copy) && roll_one_in(dice, ++seen))
                    picked = (struct spot){copy, p, i, line};
            }
        }
    return picked;
}

static struct spot pick(struct job *job, struct dice *dice, enum caches caches,
                        predicate *fits)
{
    return pick_between(job, dice, caches, fits, 0, (uint32_t)job->state[STIRNFELD_PROCESSORS]);
}

static struct spot pick_of(struct job *job, struct dice *dice, enum caches caches,
                           predicate *fits, uint32_t p)
{
    return pick_between(job, dice, caches, fits, p, p + 1);
}

static void set_state(uint64_t *copy, uint32_t state)
{
    *copy = pack_copy(state, copy_tag(*copy), copy_word(*copy), copy_data(*copy));
}

static void set_tag(uint64_t *copy, uint32_t tag)
{
    *copy = pack_copy(copy_state(*copy), tag, copy_word(*copy), copy_data(*copy));
}

static uint64_t valid_copy(const struct job *job, uint32_t tag, uint32_t word)
{
    return pack_copy(VALID, tag, word, (uint32_t)job->state[STIRNFELD_MEMORY + word]);
}

/* Any number but 0. */
static uint32_t draw_some(struct dice *dice)
{
    return roll_one_in(dice, 2) ? 1u << roll_below(dice, 32)
                                : (uint32_t)(roll(dice) | 1u << roll_below(dice, 32));
}

static uint32_t another_processor(const struct job *job, struct dice *dice, uint32_t p)
{
    uint32_t processors = (uint32_t)job->state[STIRNFELD_PROCESSORS];
    return (p + roll_from(dice, 1, processors - 1)) % processors;
}

/* ---- each breaks a clause of document 01's 'Sound states' */

static bool wrong_dimension(struct job *job, struct dice *dice)
{
    static const uint64_t most[DIMENSIONS] = {MAX_PROCESSORS, MAX_WORDS, MAX_LINES,
                                              MAX_ENTRIES};
    static const uint64_t no_power[] = {3, 5, 6, 7, 9, 12, 33, 48, 63};
    uint32_t which = roll_below(dice, DIMENSIONS);
    size_t place = STIRNFELD_PROCESSORS + which;
    uint64_t wrong[] = {0, most[which] + 1, 2 * most[which],
                        job->state[place] + (1ull << roll_from(dice, 32, 63)),
                        roll(dice) | 1ull << 63, no_power[roll_below(dice, 9)]};
    job->state[place] = wrong[roll_below(dice, which == 2 ? 6 : 5)];
    return true;
}

static bool too_many_bits(struct job *job, struct dice *dice)
{
    struct spot spot = pick(job, dice, IN_BOTH, roll_one_in(dice, 2) ? is_held : is_any);
    if (spot.copy == NULL)
        return false;
    *spot.copy |= 1ull << roll_from(dice, COPY_BITS, 63);
    return true;
}

static bool word_out_of_range(struct job *job, struct dice *dice)
{
    struct spot spot = pick(job, dice, IN_BOTH, is_held);
    if (spot.copy == NULL || job->state[STIRNFELD_WORDS] == MAX_WORDS)
        return false;
    uint32_t word = roll_from(dice, (uint32_t)job->state[STIRNFELD_WORDS], MAX_WORDS - 1);
    if (spot.line && word % job->state[STIRNFELD_LINES] != spot.i)
        return false;
    uint64_t copy = *spot.copy;
    *spot.copy = pack_copy(copy_state(copy), copy_tag(copy), word, copy_data(copy));
    return true;
}

static bool another_lines_word(struct job *job, struct dice *dice)
{
    struct spot spot = pick(job, dice, IN_LINES, is_held);
    uint32_t word = roll_below(dice, (uint32_t)job->state[STIRNFELD_WORDS]);
    if (spot.copy == NULL || word % job->state[STIRNFELD_LINES] == spot.i)
        return false;
    *spot.copy = pack_copy(copy_state(*spot.copy), NO_TAG, word,
                           (uint32_t)job->state[STIRNFELD_MEMORY + word]);
    return true;
}

static bool state_without_tag(struct job *job, struct dice *dice)
{
    struct spot spot = pick(job, dice, IN_ENTRIES, is_held);
    if (spot.copy == NULL)
        return false;
    set_tag(spot.copy, NO_TAG);
    return true;
}

static bool tag_without_state(struct job *job, struct dice *dice)
{
    struct spot spot = pick(job, dice, IN_ENTRIES, is_held);
    if (spot.copy == NULL)
        return false;
    set_state(spot.copy, INVALID);
    return true;
}

static bool invalid_not_zero(struct job *job, struct dice *dice)
{
    struct spot spot = pick(job, dice, IN_BOTH, is_free);
    if (spot.copy == NULL)
        return false;
    *spot.copy = roll_one_in(dice, 2)
                     ? pack_copy(INVALID, NO_TAG, roll_from(dice, 1, 255), 0)
                     : pack_copy(INVALID, NO_TAG, 0, draw_some(dice));
    return true;
}

static bool word_held_twice(struct job *job, struct dice *dice)
{
    struct spot held = pick(job, dice, IN_BOTH, is_no_backup);
    if (held.copy == NULL)
        return false;
    struct spot other = pick_of(job, dice, IN_ENTRIES, is_free, held.p);
    if (other.copy == NULL)
        return false;
    uint32_t tag = is_tentative(*held.copy) || roll_one_in(dice, 2) ? NORMAL : TENTATIVE;
    *other.copy = valid_copy(job, tag, copy_word(*held.copy));
    return true;
}

static bool word_in_both_caches(struct job *job, struct dice *dice)
{
    struct spot held = pick(job, dice, IN_ENTRIES, is_no_backup);
    if (held.copy == NULL)
        return false;
    uint32_t word = copy_word(*held.copy);
    uint32_t index = word % (uint32_t)job->state[STIRNFELD_LINES];
    job->state[line_place(held.p, index)] = valid_copy(job, NO_TAG, word);
    return true;
}

static bool two_backups(struct job *job, struct dice *dice)
{
    struct spot backup = pick(job, dice, IN_ENTRIES, is_backup);
    if (backup.copy == NULL)
        return false;
    struct spot other = pick_of(job, dice, IN_ENTRIES, is_free, backup.p);
    if (other.copy == NULL)
        return false;
    *other.copy = *backup.copy;
    return true;
}

static bool backup_of_normal(struct job *job, struct dice *dice)
{
    struct spot spot = pick(job, dice, IN_ENTRIES, is_normal);
    if (spot.copy == NULL)
        return false;
    set_tag(spot.copy, BACKUP);
    return true;
}

static struct spot tentative_of(struct job *job, const struct spot *backup)
{
    for (uint32_t i = 0; i < job->state[STIRNFELD_ENTRIES]; i++) {
        uint64_t *copy = &job->state[entry_place(backup->p, i)];
        if (is_tentative(*copy) && copy_word(*copy) == copy_word(*backup->copy))
            return (struct spot){copy, backup->p, i, false};
    }
    return (struct spot){NULL, 0, 0, false};
}

static bool backup_alone(struct job *job, struct dice *dice)
{
    struct spot backup = pick(job, dice, IN_ENTRIES, is_backup);
    if (backup.copy == NULL)
        return false;
    *tentative_of(job, &backup).copy = 0;
    return true;
}

static bool tentative_without_tactive(struct job *job, struct dice *dice)
{
    struct spot spot = pick(job, dice, IN_ENTRIES, is_tentative);
    if (spot.copy == NULL)
        return false;
    job->state[STIRNFELD_TACTIVE + spot.p] = 0;
    return true;
}

static bool tentative_without_tstatus(struct job *job, struct dice *dice)
{
    struct spot spot = pick(job, dice, IN_ENTRIES, is_tentative);
    if (spot.copy == NULL)
        return false;
    job->state[STIRNFELD_TSTATUS + spot.p] = 0;
    return true;
}

static bool owned_and_shared(struct job *job, struct dice *dice)
{
    struct spot spot = pick(job, dice, IN_BOTH, is_owned);
    if (spot.copy == NULL || job->state[STIRNFELD_PROCESSORS] == 1)
        return false;
    uint32_t p = another_processor(job, dice, spot.p);
    struct spot other = pick_of(job, dice, IN_ENTRIES, is_free, p);
    if (other.copy == NULL)
        return false;
    *other.copy = valid_copy(job, NORMAL, copy_word(*spot.copy));
    return true;
}

static bool shared_becomes_owned(struct job *job, struct dice *dice)
{
    struct spot one = pick(job, dice, IN_BOTH, agrees_with_memory);
    if (one.copy == NULL || job->state[STIRNFELD_PROCESSORS] == 1)
        return false;
    uint32_t p = another_processor(job, dice, one.p);
    struct spot other = pick_of(job, dice, IN_BOTH, agrees_with_memory, p);
    if (other.copy == NULL || copy_word(*other.copy) != copy_word(*one.copy))
        return false;
    set_state(one.copy, roll_from(dice, RESERVED, DIRTY));
    return true;
}

static bool data_not_memorys(struct job *job, struct dice *dice)
{
    struct spot spot = pick(job, dice, IN_BOTH, agrees_with_memory);
    if (spot.copy == NULL)
        return false;
    *spot.copy ^= draw_some(dice);
    return true;
}

static bool memory_not_the_datas(struct job *job, struct dice *dice)
{
    struct spot spot = pick(job, dice, IN_BOTH, agrees_with_memory);
    if (spot.copy == NULL)
        return false;
    job->state[STIRNFELD_MEMORY + copy_word(*spot.copy)] ^= draw_some(dice);
    return true;
}

static bool backup_above(struct job *job, struct dice *dice)
{
    struct spot backup = pick(job, dice, IN_ENTRIES, is_backup);
    if (backup.copy == NULL)
        return false;
    uint32_t state = copy_state(*tentative_of(job, &backup).copy);
    if (state == DIRTY)
        return false;
    set_state(backup.copy, roll_from(dice, state + 1, DIRTY));
    return true;
}

static size_t any_flag(struct dice *dice, uint32_t p)
{
    return (roll_one_in(dice, 2) ? STIRNFELD_TACTIVE : STIRNFELD_TSTATUS) + p;
}

static bool flag_above_one(struct job *job, struct dice *dice)
{
    uint32_t p = roll_below(dice, (uint32_t)job->state[STIRNFELD_PROCESSORS]);
    job->state[any_flag(dice, p)] = roll_one_in(dice, 2) ? 2 : roll_from(dice, 2, 255);
    return true;
}

/* Its lowest byte alone would be right. */
static bool flag_above_a_byte(struct job *job, struct dice *dice)
{
    uint32_t p = roll_below(dice, (uint32_t)job->state[STIRNFELD_PROCESSORS]);
    job->state[any_flag(dice, p)] |= 1ull << roll_from(dice, 8, 63);
    return true;
}

static bool memory_above_a_word(struct job *job, struct dice *dice)
{
    uint32_t word = roll_below(dice, (uint32_t)job->state[STIRNFELD_WORDS]);
    job->state[STIRNFELD_MEMORY + word] |= 1ull << roll_from(dice, 32, 63);
    return true;
}

static bool line_with_tag(struct job *job, struct dice *dice)
{
    struct spot spot = pick(job, dice, IN_LINES, is_held);
    if (spot.copy == NULL)
        return false;
    set_tag(spot.copy, roll_from(dice, NORMAL, TENTATIVE));
    return true;
}

/* Any number but 0, of all the bits of a place. */
static uint64_t draw_any(struct dice *dice)
{
    uint64_t bit = 1ull << roll_below(dice, 64);
    return roll_one_in(dice, 2) ? bit : roll(dice) | bit;
}

static bool memory_outside(struct job *job, struct dice *dice)
{
    if (job->state[STIRNFELD_WORDS] == MAX_WORDS)
        return false;
    uint32_t word = roll_from(dice, (uint32_t)job->state[STIRNFELD_WORDS], MAX_WORDS - 1);
    job->state[STIRNFELD_MEMORY + word] = draw_any(dice);
    return true;
}

static bool flag_outside(struct job *job, struct dice *dice)
{
    uint32_t processors = (uint32_t)job->state[STIRNFELD_PROCESSORS];
    if (processors == MAX_PROCESSORS)
        return false;
    uint32_t p = roll_from(dice, processors, MAX_PROCESSORS - 1);
    job->state[any_flag(dice, p)] = roll_one_in(dice, 2) ? 1 : draw_any(dice);
    return true;
}

/* A place that no dimensions reach. */
static bool kept_place(struct job *job, struct dice *dice)
{
    static const struct dimensions largest = {MAX_PROCESSORS, MAX_WORDS, MAX_LINES,
                                              MAX_ENTRIES};
    uint32_t bound = roll_one_in(dice, 2) ? STIRNFELD_MEMORY : STIRNFELD_STATE;
    uint32_t place = roll_below(dice, bound);
    if (is_reached(&largest, place))
        return false;
    job->state[place] = draw_any(dice);
    return true;
}

/* A copy that would be sound in a place that is one of the state's. */
static bool copy_outside(struct job *job, struct dice *dice, bool line)
{
    uint32_t p = roll_below(dice, MAX_PROCESSORS);
    uint32_t i = roll_below(dice, STIRNFELD_STRIDE);
    struct dimensions d = unpack_dimensions(job->state);
    size_t place = line ? line_place(p, i) : entry_place(p, i);
    if (is_reached(&d, place))
        return false;
    uint32_t word = roll_below(dice, d.words);
    job->state[place] = roll_one_in(dice, 4) ? draw_any(dice)
                                             : valid_copy(job, line ? NO_TAG : NORMAL, word);
    return true;
}

static bool line_outside(struct job *job, struct dice *dice)
{
    return copy_outside(job, dice, true);
}

static bool entry_outside(struct job *job, struct dice *dice)
{
    return copy_outside(job, dice, false);
}

/* ---- these break none */

static bool other_dirty_data(struct job *job, struct dice *dice)
{
    struct spot spot = pick(job, dice, IN_BOTH, is_dirty);
    if (spot.copy == NULL)
        return false;
    *spot.copy ^= draw_some(dice);
    return true;
}

static bool other_flags(struct job *job, struct dice *dice)
{
    uint32_t p = roll_below(dice, (uint32_t)job->state[STIRNFELD_PROCESSORS]);
    if (pick_of(job, dice, IN_ENTRIES, is_tentative, p).copy != NULL)
        return false;
    job->state[STIRNFELD_TACTIVE + p] = roll_below(dice, 2);
    job->state[STIRNFELD_TSTATUS + p] = roll_below(dice, 2);
    return true;
}

static bool bound_by_memory(const struct job *job, uint32_t word)
{
    for (size_t i = line_place(0, 0); i < entry_place(MAX_PROCESSORS, 0); i++)
        if (agrees_with_memory(job->state[i]) && copy_word(job->state[i]) == word)
            return true;
    return false;
}

static bool other_memory(struct job *job, struct dice *dice)
{
    uint32_t word = roll_below(dice, (uint32_t)job->state[STIRNFELD_WORDS]);
    if (bound_by_memory(job, word))
        return false;
    job->state[STIRNFELD_MEMORY + word] ^= draw_some(dice);
    return true;
}

static bool other_order(struct job *job, struct dice *dice)
{
    struct spot one = pick(job, dice, IN_ENTRIES, is_held);
    if (one.copy == NULL)
        return false;
    struct spot other = pick_of(job, dice, IN_ENTRIES, is_any, one.p);
    uint64_t copy = *one.copy;
    *one.copy = *other.copy;
    *other.copy = copy;
    return copy != *one.copy;
}

static bool copy_left_out(struct job *job, struct dice *dice)
{
    struct spot spot = pick(job, dice, IN_BOTH, is_no_tentative);
    if (spot.copy == NULL)
        return false;
    *spot.copy = 0;
    return true;
}

static bool reserved_becomes_dirty(struct job *job, struct dice *dice)
{
    struct spot spot = pick(job, dice, IN_BOTH, is_reserved);
    if (spot.copy == NULL || is_backup(*spot.copy))
        return false;
    set_state(spot.copy, DIRTY);
    return true;
}

static bool reserved_becomes_valid(struct job *job, struct dice *dice)
{
    struct spot spot = pick(job, dice, IN_BOTH, is_reserved);
    if (spot.copy == NULL || is_tentative(*spot.copy))
        return false;
    set_state(spot.copy, VALID);
    return true;
}

static bool nothing(struct job *job, struct dice *dice)
{
    (void)job;
    (void)dice;
    return true;
}

const struct change changes[] = {
    {"a dimension out of range", false, wrong_dimension},
    {"a copy of 2^44 or more", false, too_many_bits},
    {"a flag above 1", false, flag_above_one},
    {"a flag above 255", false, flag_above_a_byte},
    {"a word of memory of 2^32 or more", false, memory_above_a_word},
    {"a copy of a word that is not there", false, word_out_of_range},
    {"a line with another line's word", false, another_lines_word},
    {"a line with a tag", false, line_with_tag},
    {"an entry with a state and no tag", false, state_without_tag},
    {"an entry with a tag and no state", false, tag_without_state},
    {"an invalid line or entry that is not zero", false, invalid_not_zero},
    {"a word that a processor has twice", false, word_held_twice},
    {"a word in both caches", false, word_in_both_caches},
    {"two backups of a word", false, two_backups},
    {"a backup where the entry is NORMAL", false, backup_of_normal},
    {"a backup with no other entry", false, backup_alone},
    {"a tentative entry without TACTIVE", false, tentative_without_tactive},
    {"a tentative entry without TSTATUS", false, tentative_without_tstatus},
    {"RESERVED or DIRTY, and given to another too", false, owned_and_shared},
    {"shared, and made RESERVED or DIRTY", false, shared_becomes_owned},
    {"VALID or RESERVED data that are not memory's", false, data_not_memorys},
    {"memory that is not VALID or RESERVED data", false, memory_not_the_datas},
    {"a backup above its tentative entry", false, backup_above},
    {"memory outside the dimensions", false, memory_outside},
    {"a flag outside the dimensions", false, flag_outside},
    {"a line outside the dimensions", false, line_outside},
    {"an entry outside the dimensions", false, entry_outside},
    {"a place that is kept", false, kept_place},
    {"no change", true, nothing},
    {"other DIRTY data", true, other_dirty_data},
    {"other flags without a tentative entry", true, other_flags},
    {"other memory where no copy is bound by it", true, other_memory},
    {"entries in another order", true, other_order},
    {"a copy left out", true, copy_left_out},
    {"RESERVED becomes DIRTY", true, reserved_becomes_dirty},
    {"RESERVED becomes VALID", true, reserved_becomes_valid},
};

const size_t changes_length = sizeof changes / sizeof changes[0];
