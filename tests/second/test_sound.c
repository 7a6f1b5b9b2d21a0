/* 'Sound states': a state that breaks each clause, beside one that does not. */
#include <inttypes.h>
#include <string.h>

#include "check.h"
#include "scene.h"
#include "sound.h"
#include "suites.h"

static struct machine machine;

static void begin(void)
{
    bench_make(&machine, 2, 4);
}

static void set_line(uint32_t core, uint32_t index, struct line line)
{
    machine.processors[core].lines[index] = line;
}

static void set_entry(uint32_t core, uint32_t index, struct entry entry)
{
    machine.processors[core].entries[index] = entry;
}

static void set_flags(uint32_t core, uint8_t tactive, uint8_t tstatus)
{
    machine.processors[core].tactive = tactive;
    machine.processors[core].tstatus = tstatus;
}

static void expect_sound(bool due, const char *what)
{
    struct machine before = machine;
    expect(machine_sound(&machine) == due, "%s: due %s", what, due ? "sound" : "unsound");
    expect(memcmp(&machine, &before, sizeof machine) == 0, "looking changes nothing");
}

static void fresh_states(void)
{
    static const uint32_t zero[MAX_WORDS];
    for (uint32_t p = 1; p <= MAX_PROCESSORS; p++)
        for (uint32_t lines = 1; lines <= MAX_LINES; lines *= 2) {
            struct dimensions dimensions = {p, 256, lines, 9 * p - 8};
            machine_make(&machine, dimensions, zero, 256);
            expect_sound(true, "a fresh state");
        }
}

static void expect_dimensions(uint32_t p, uint32_t w, uint32_t l, uint32_t e, bool due)
{
    begin();
    machine.dimensions = (struct dimensions){p, w, l, e};
    expect_sound(due, "dimensions");
}

static void dimensions_in_range(void)
{
    expect_dimensions(8, 256, 64, 64, true);
    expect_dimensions(0, 4, 4, 2, false);
    expect_dimensions(9, 4, 4, 2, false);
    expect_dimensions(2, 0, 4, 2, false);
    expect_dimensions(2, 257, 4, 2, false);
    expect_dimensions(2, 4, 0, 2, false);
    expect_dimensions(2, 4, 3, 2, false);
    expect_dimensions(2, 4, 128, 2, false);
    expect_dimensions(2, 4, 4, 0, false);
    expect_dimensions(2, 4, 4, 65, false);
    expect_dimensions(UINT32_MAX, UINT32_MAX, UINT32_MAX, UINT32_MAX, false);
}

static void codes_in_range(void)
{
    begin();
    set_line(0, 1, LINE(4, 1, 11));
    expect_sound(false, "line state 4");
    begin();
    set_entry(0, 0, ENTRY(4, NORMAL, 1, 11));
    expect_sound(false, "entry state 4");
    begin();
    set_flags(0, 1, 1);
    set_entry(0, 0, ENTRY(VALID, 4, 1, 11));
    expect_sound(false, "tag 4");
    begin();
    set_flags(1, 2, 1);
    expect_sound(false, "TACTIVE 2");
    begin();
    set_flags(1, 0, 2);
    expect_sound(false, "TSTATUS 2");
}

static void words_in_range(void)
{
    begin();
    set_line(0, 3, LINE(DIRTY, 3, 0));
    set_entry(1, 0, ENTRY(DIRTY, NORMAL, 2, 0));
    expect_sound(true, "words 3 and 2 of 4");
    set_line(0, 0, LINE(DIRTY, 4, 0));
    expect_sound(false, "word 4 of 4 in a line");
    begin();
    set_entry(1, 0, ENTRY(DIRTY, NORMAL, 4, 0));
    expect_sound(false, "word 4 of 4 in an entry");
    begin();
    set_entry(1, 0, ENTRY(DIRTY, NORMAL, UINT16_MAX, 0));
    expect_sound(false, "the largest word in an entry");
}

static void own_words(void)
{
    static const uint32_t zero[16];
    machine_make(&machine, (struct dimensions){2, 16, 4, 4}, zero, 16);
    for (uint32_t index = 0; index < 4; index++)
        for (uint16_t word = 0; word < 16; word++) {
            set_line(1, index, LINE(VALID, word, 0));
            expect_sound(word % 4 == index, "a line with its own words alone");
            set_line(1, index, NO_LINE);
        }
}

static void invalid_together(void)
{
    begin();
    set_entry(0, 0, ENTRY(INVALID, NORMAL, 1, 11));
    expect_sound(false, "state INVALID, tag NORMAL");
    set_entry(0, 0, ENTRY(INVALID, NORMAL, 0, 0));
    expect_sound(false, "state INVALID, tag NORMAL, all else zero");
    set_entry(0, 0, ENTRY(VALID, NO_TAG, 0, 10));
    expect_sound(false, "state VALID, tag INVALID");
    set_entry(0, 0, ENTRY(VALID, NORMAL, 0, 10));
    expect_sound(true, "state VALID, tag NORMAL");
}

static void invalid_is_zero(void)
{
    begin();
    set_line(1, 2, LINE(INVALID, 2, 0));
    expect_sound(false, "an invalid line with a word");
    set_line(1, 2, LINE(INVALID, 0, 12));
    expect_sound(false, "an invalid line with data");
    begin();
    set_entry(1, 3, ENTRY(INVALID, NO_TAG, 2, 0));
    expect_sound(false, "an invalid entry with a word");
    set_entry(1, 3, ENTRY(INVALID, NO_TAG, 0, 12));
    expect_sound(false, "an invalid entry with data");
}

static void one_copy(void)
{
    begin();
    set_flags(0, 1, 1);
    set_line(0, 1, LINE(VALID, 1, 11));
    set_entry(0, 0, ENTRY(VALID, NORMAL, 1, 11));
    expect_sound(false, "regular and NORMAL");
    set_entry(0, 0, ENTRY(VALID, TENTATIVE, 1, 11));
    expect_sound(false, "regular and tentative");
    set_line(0, 1, NO_LINE);
    expect_sound(true, "tentative alone");
    set_entry(0, 1, ENTRY(VALID, NORMAL, 1, 11));
    expect_sound(false, "NORMAL and tentative");
    set_entry(0, 1, ENTRY(VALID, TENTATIVE, 1, 11));
    expect_sound(false, "two tentative");
    set_entry(0, 0, ENTRY(VALID, NORMAL, 1, 11));
    set_entry(0, 1, ENTRY(VALID, NORMAL, 1, 11));
    expect_sound(false, "two NORMAL");
}

static void one_backup(void)
{
    begin();
    set_flags(0, 1, 1);
    set_entry(0, 2, ENTRY(VALID, BACKUP, 1, 11));
    expect_sound(false, "a backup alone");
    set_entry(0, 1, ENTRY(VALID, NORMAL, 1, 11));
    expect_sound(false, "a backup of a NORMAL entry");
    set_entry(0, 1, NO_ENTRY);
    set_line(0, 1, LINE(VALID, 1, 11));
    expect_sound(false, "a backup of a regular line");
    set_line(0, 1, NO_LINE);
    set_entry(0, 1, ENTRY(VALID, TENTATIVE, 2, 12));
    expect_sound(false, "a backup beside another word's tentative entry");
    set_entry(0, 1, ENTRY(VALID, TENTATIVE, 1, 11));
    expect_sound(true, "a backup of a tentative entry");
    set_entry(0, 3, ENTRY(VALID, BACKUP, 1, 11));
    expect_sound(false, "two backups");
    set_entry(0, 3, NO_ENTRY);
    set_entry(0, 1, NO_ENTRY);
    set_flags(1, 1, 1);
    set_entry(1, 1, ENTRY(VALID, TENTATIVE, 1, 11));
    expect_sound(false, "a backup of another processor's tentative entry");
}

static void tentative_needs_flags(void)
{
    for (uint8_t tactive = 0; tactive <= 1; tactive++)
        for (uint8_t tstatus = 0; tstatus <= 1; tstatus++) {
            begin();
            set_flags(1, tactive, tstatus);
            expect_sound(true, "any flags with no tentative entry");
            set_entry(1, 0, ENTRY(VALID, NORMAL, 1, 11));
            expect_sound(true, "any flags with a NORMAL entry");
            set_entry(1, 0, ENTRY(VALID, TENTATIVE, 1, 11));
            expect_sound(tactive && tstatus, "flags with a tentative entry");
        }
}

static void exclusive_states(void)
{
    for (uint8_t mine = VALID; mine <= DIRTY; mine++)
        for (uint8_t other = VALID; other <= DIRTY; other++) {
            bool shared = mine == VALID && other == VALID;
            begin();
            set_flags(1, 1, 1);
            set_line(0, 1, LINE(mine, 1, 11));
            set_line(1, 1, LINE(other, 1, 11));
            expect_sound(shared, "two regular lines");
            set_line(1, 1, NO_LINE);
            set_entry(1, 0, ENTRY(other, NORMAL, 1, 11));
            expect_sound(shared, "regular and NORMAL of two processors");
            set_entry(1, 0, ENTRY(other, TENTATIVE, 1, 11));
            expect_sound(shared, "regular and tentative of two processors");
            set_entry(1, 1, ENTRY(other, BACKUP, 1, 11));
            expect_sound(shared, "regular, tentative and backup of two processors");
        }
}

static void clean_equals_memory(void)
{
    for (uint16_t state = VALID; state <= DIRTY; state++) {
        begin();
        set_line(0, 1, LINE(state, 1, 99));
        expect_sound(state == DIRTY, "a regular line that differs from memory");
        begin();
        set_flags(0, 1, 1);
        set_entry(0, 0, ENTRY(state, NORMAL, 1, 99));
        expect_sound(state == DIRTY, "a NORMAL entry that differs from memory");
        set_entry(0, 0, ENTRY(state, TENTATIVE, 1, 99));
        expect_sound(state == DIRTY, "a tentative entry that differs from memory");
        set_entry(0, 0, ENTRY(DIRTY, TENTATIVE, 1, 98));
        set_entry(0, 1, ENTRY(state, BACKUP, 1, 99));
        expect_sound(state == DIRTY, "a backup that differs from memory");
    }
}

static void backup_not_above(void)
{
    for (uint8_t tentative = VALID; tentative <= DIRTY; tentative++)
        for (uint8_t backup = VALID; backup <= DIRTY; backup++)
            for (uint32_t slot = 0; slot <= 1; slot++) {
                begin();
                set_flags(0, 1, 1);
                set_entry(0, slot, ENTRY(tentative, TENTATIVE, 1, 11));
                set_entry(0, 1 - slot, ENTRY(backup, BACKUP, 1, 11));
                expect_sound(backup <= tentative, "a backup and its tentative entry");
            }
}

void sound_suite(void)
{
    test("sound: fresh states", fresh_states);
    test("sound: dimensions in range", dimensions_in_range);
    test("sound: codes in range", codes_in_range);
    test("sound: words in range", words_in_range);
    test("sound: a line holds only its own words", own_words);
    test("sound: state and tag are INVALID together", invalid_together);
    test("sound: an invalid line or entry is zero", invalid_is_zero);
    test("sound: one of regular, NORMAL, tentative", one_copy);
    test("sound: one backup, which needs a tentative entry", one_backup);
    test("sound: tentative needs TACTIVE and TSTATUS", tentative_needs_flags);
    test("sound: RESERVED or DIRTY is alone", exclusive_states);
    test("sound: VALID and RESERVED equal memory", clean_equals_memory);
    test("sound: a backup is not above its tentative entry", backup_not_above);
}
