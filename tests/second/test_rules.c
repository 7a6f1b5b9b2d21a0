/* The rules of 'Steps', one at a time, down to the slots they leave. */
#include "check.h"
#include "scene.h"
#include "suites.h"

static struct machine machine;

static void goodman(void)
{
    bench_make(&machine, 2, 2);
    PLAY(&machine, {0, LOAD, 1, 0, GIVES(VALUE, 11, COUNTS(1, 0, 0, 0, 0, 0))});
    expect_line(&machine, 0, 1, LINE(VALID, 1, 11));
    PLAY(&machine, {0, STORE, 1, 5, GIVES(DONE, 0, COUNTS(0, 0, 1, 0, 0, 0))});
    expect_line(&machine, 0, 1, LINE(RESERVED, 1, 5));
    expect_memory(&machine, 1, 5);
    PLAY(&machine,
         {0, STORE, 1, 6, GIVES(DONE, 0, NONE)},
         {0, STORE, 1, 7, GIVES(DONE, 0, NONE)});
    expect_line(&machine, 0, 1, LINE(DIRTY, 1, 7));
    expect_memory(&machine, 1, 5);
    PLAY(&machine, {1, LOAD, 1, 0, GIVES(VALUE, 7, COUNTS(1, 0, 0, 0, 0, 0))});
    expect_line(&machine, 0, 1, LINE(VALID, 1, 7));
    expect_memory(&machine, 1, 7);
    PLAY(&machine, {0, STORE, 1, 8, GIVES(DONE, 0, COUNTS(0, 0, 1, 0, 0, 0))});
    expect_line(&machine, 1, 1, NO_LINE);
    PLAY(&machine, {1, STORE, 1, 9, GIVES(DONE, 0, COUNTS(0, 1, 0, 0, 0, 0))});
    expect_line(&machine, 0, 1, NO_LINE);
    expect_line(&machine, 1, 1, LINE(DIRTY, 1, 9));
    expect_memory(&machine, 1, 8);
}

static void eviction(void)
{
    static const uint32_t memory[] = {20, 21, 22, 23, 24, 25, 26, 27};
    machine_make(&machine, (struct dimensions){1, 8, 4, 1}, memory, 8);
    PLAY(&machine,
         {0, LOAD, 1, 0, GIVES(VALUE, 21, COUNTS(1, 0, 0, 0, 0, 0))},
         {0, LOAD, 5, 0, GIVES(VALUE, 25, COUNTS(1, 0, 0, 0, 0, 0))},
         {0, STORE, 1, 1, GIVES(DONE, 0, COUNTS(0, 1, 0, 0, 0, 0))},
         {0, LOAD, 5, 0, GIVES(VALUE, 25, COUNTS(1, 0, 1, 0, 0, 0))},
         {0, STORE, 1, 2, GIVES(DONE, 0, COUNTS(0, 1, 0, 0, 0, 0))},
         {0, STORE, 5, 3, GIVES(DONE, 0, COUNTS(0, 1, 1, 0, 0, 0))});
    expect_line(&machine, 0, 1, LINE(DIRTY, 5, 3));
    expect_memory(&machine, 1, 2);
}

static void regular_copy_leaves(void)
{
    bench_make(&machine, 1, 2);
    PLAY(&machine,
         {0, STORE, 1, 9, GIVES(DONE, 0, COUNTS(0, 1, 0, 0, 0, 0))},
         {0, LT, 1, 0, GIVES(VALUE, 9, COUNTS(0, 0, 1, 1, 0, 0))},
         {0, LOAD, 2, 0, GIVES(VALUE, 12, COUNTS(1, 0, 0, 0, 0, 0))},
         {0, LTX, 2, 0, GIVES(VALUE, 12, COUNTS(0, 0, 0, 0, 1, 0))});
    expect_line(&machine, 0, 1, NO_LINE);
    expect_line(&machine, 0, 2, NO_LINE);
    expect_entry(&machine, 0, 0, ENTRY(VALID, TENTATIVE, 1, 9));
    expect_entry(&machine, 0, 1, ENTRY(RESERVED, TENTATIVE, 2, 12));
}

static void slot_order(void)
{
    bench_make(&machine, 1, 3);
    PLAY(&machine,
         {0, LT, 0, 0, GIVES(VALUE, 10, COUNTS(0, 0, 0, 1, 0, 0))},
         {0, COMMIT, 0, 0, GIVES(SUCCESS, 0, NONE)});
    expect_entry(&machine, 0, 0, ENTRY(VALID, NORMAL, 0, 10));
    expect_entry(&machine, 0, 1, NO_ENTRY);
    PLAY(&machine, {0, LT, 1, 0, GIVES(VALUE, 11, COUNTS(0, 0, 0, 1, 0, 0))});
    expect_entry(&machine, 0, 0, ENTRY(VALID, NORMAL, 0, 10));
    expect_entry(&machine, 0, 1, ENTRY(VALID, TENTATIVE, 1, 11));
    expect_entry(&machine, 0, 2, ENTRY(VALID, BACKUP, 1, 11));
    PLAY(&machine, {0, LT, 2, 0, GIVES(VALUE, 12, COUNTS(0, 0, 0, 1, 0, 0))});
    expect_entry(&machine, 0, 0, ENTRY(VALID, TENTATIVE, 2, 12));
    expect_entry(&machine, 0, 2, ENTRY(VALID, BACKUP, 2, 12));
    PLAY(&machine, {0, LT, 3, 0, GIVES(VALUE, 13, COUNTS(0, 0, 0, 1, 0, 0))});
    expect_entry(&machine, 0, 1, ENTRY(VALID, TENTATIVE, 1, 11));
    expect_entry(&machine, 0, 2, ENTRY(VALID, TENTATIVE, 3, 13));
    PLAY(&machine, {0, LT, 0, 0, GIVES(ABORTED, 0, NONE)});
    for (uint32_t i = 0; i < 3; i++)
        expect_entry(&machine, 0, i, NO_ENTRY);
    expect_flags(&machine, 0, 1, 0);
}

static void normal_before_backup(void)
{
    bench_make(&machine, 1, 3);
    PLAY(&machine,
         {0, LT, 0, 0, GIVES(VALUE, 10, COUNTS(0, 0, 0, 1, 0, 0))},
         {0, LT, 1, 0, GIVES(VALUE, 11, COUNTS(0, 0, 0, 1, 0, 0))},
         {0, COMMIT, 0, 0, GIVES(SUCCESS, 0, NONE)});
    expect_entry(&machine, 0, 0, ENTRY(VALID, NORMAL, 0, 10));
    expect_entry(&machine, 0, 1, NO_ENTRY);
    expect_entry(&machine, 0, 2, ENTRY(VALID, NORMAL, 1, 11));
    PLAY(&machine,
         {0, LT, 0, 0, GIVES(VALUE, 10, NONE)},
         {0, LT, 3, 0, GIVES(VALUE, 13, COUNTS(0, 0, 0, 1, 0, 0))});
    expect_entry(&machine, 0, 0, ENTRY(VALID, TENTATIVE, 0, 10));
    expect_entry(&machine, 0, 1, ENTRY(VALID, BACKUP, 3, 13));
    expect_entry(&machine, 0, 2, ENTRY(VALID, TENTATIVE, 3, 13));
}

static void lowest_of_each(void)
{
    bench_make(&machine, 1, 4);
    PLAY(&machine,
         {0, LT, 0, 0, GIVES(VALUE, 10, COUNTS(0, 0, 0, 1, 0, 0))},
         {0, LT, 1, 0, GIVES(VALUE, 11, COUNTS(0, 0, 0, 1, 0, 0))},
         {0, LT, 2, 0, GIVES(VALUE, 12, COUNTS(0, 0, 0, 1, 0, 0))});
    /* The backups stood in 1 and 3; the lower went to word 2, then the other. */
    expect_entry(&machine, 0, 0, ENTRY(VALID, TENTATIVE, 0, 10));
    expect_entry(&machine, 0, 1, ENTRY(VALID, TENTATIVE, 2, 12));
    expect_entry(&machine, 0, 2, ENTRY(VALID, TENTATIVE, 1, 11));
    expect_entry(&machine, 0, 3, ENTRY(VALID, BACKUP, 2, 12));
    PLAY(&machine,
         {0, COMMIT, 0, 0, GIVES(SUCCESS, 0, NONE)},
         {0, LT, 3, 0, GIVES(VALUE, 13, COUNTS(0, 0, 0, 1, 0, 0))});
    expect_entry(&machine, 0, 3, ENTRY(VALID, TENTATIVE, 3, 13));
    expect_entry(&machine, 0, 0, ENTRY(VALID, BACKUP, 3, 13));
    expect_entry(&machine, 0, 1, ENTRY(VALID, NORMAL, 2, 12));
    expect_entry(&machine, 0, 2, ENTRY(VALID, NORMAL, 1, 11));
}

static void written_back_for_want_of_a_slot(void)
{
    bench_make(&machine, 1, 1);
    PLAY(&machine,
         {0, ST, 1, 5, GIVES(DONE, 0, COUNTS(0, 0, 0, 0, 1, 0))},
         {0, COMMIT, 0, 0, GIVES(SUCCESS, 0, NONE)},
         {0, LTX, 1, 0, GIVES(VALUE, 5, COUNTS(0, 0, 1, 0, 0, 0))});
    expect_entry(&machine, 0, 0, ENTRY(RESERVED, TENTATIVE, 1, 5));
    expect_memory(&machine, 1, 5);
    PLAY(&machine,
         {0, ST, 1, 6, GIVES(DONE, 0, NONE)},
         {0, ABORT, 0, 0, GIVES(DONE, 0, NONE)},
         {0, LT, 1, 0, GIVES(VALUE, 5, COUNTS(0, 0, 0, 1, 0, 0))},
         {0, COMMIT, 0, 0, GIVES(SUCCESS, 0, NONE)},
         {0, LT, 1, 0, GIVES(VALUE, 5, NONE)});
    expect_entry(&machine, 0, 0, ENTRY(VALID, TENTATIVE, 1, 5));
}

/* Two DIRTY NORMAL entries, 1 and 2, and no room beside them. */
static void two_dirty(void)
{
    bench_make(&machine, 2, 2);
    PLAY(&machine,
         {0, ST, 1, 5, GIVES(DONE, 0, COUNTS(0, 0, 0, 0, 1, 0))},
         {0, ST, 2, 6, GIVES(DONE, 0, COUNTS(0, 0, 0, 0, 1, 0))},
         {0, COMMIT, 0, 0, GIVES(SUCCESS, 0, NONE)});
    expect_entry(&machine, 0, 0, ENTRY(DIRTY, NORMAL, 1, 5));
    expect_entry(&machine, 0, 1, ENTRY(DIRTY, NORMAL, 2, 6));
}

static void three_writes(void)
{
    two_dirty();
    PLAY(&machine,
         {0, STORE, 3, 7, GIVES(DONE, 0, COUNTS(0, 1, 0, 0, 0, 0))},
         {0, LT, 3, 0, GIVES(VALUE, 7, COUNTS(0, 0, 3, 1, 0, 0))});
    expect_memory(&machine, 1, 5);
    expect_memory(&machine, 2, 6);
    expect_memory(&machine, 3, 7);
}

static void refused_miss(void)
{
    two_dirty();
    PLAY(&machine,
         {1, ST, 3, 7, GIVES(DONE, 0, COUNTS(0, 0, 0, 0, 1, 0))},
         {0, LT, 3, 0, GIVES(ABORTED, 0, COUNTS(0, 0, 2, 1, 0, 1))});
    expect_entry(&machine, 0, 0, NO_ENTRY);
    expect_entry(&machine, 0, 1, NO_ENTRY);
    expect_memory(&machine, 1, 5);
    expect_memory(&machine, 2, 6);
    expect_entry(&machine, 1, 0, ENTRY(DIRTY, TENTATIVE, 3, 7));
    expect_flags(&machine, 0, 1, 0);
    expect_flags(&machine, 1, 1, 1);
}

static void no_slot_keeps_write(void)
{
    bench_make(&machine, 1, 1);
    PLAY(&machine,
         {0, STORE, 2, 9, GIVES(DONE, 0, COUNTS(0, 1, 0, 0, 0, 0))},
         {0, LT, 1, 0, GIVES(VALUE, 11, COUNTS(0, 0, 0, 1, 0, 0))},
         {0, ST, 2, 1, GIVES(ABORTED, 0, COUNTS(0, 0, 1, 0, 0, 0))});
    expect_line(&machine, 0, 2, NO_LINE);
    expect_memory(&machine, 2, 9);
    expect_entry(&machine, 0, 0, NO_ENTRY);
}

static void refused_upgrade(void)
{
    bench_make(&machine, 2, 2);
    PLAY(&machine,
         {0, LT, 1, 0, GIVES(VALUE, 11, COUNTS(0, 0, 0, 1, 0, 0))},
         {0, COMMIT, 0, 0, GIVES(SUCCESS, 0, NONE)},
         {1, LT, 1, 0, GIVES(VALUE, 11, COUNTS(0, 0, 0, 1, 0, 0))},
         {0, LTX, 1, 0, GIVES(ABORTED, 0, COUNTS(0, 0, 0, 0, 1, 1))});
    expect_entry(&machine, 0, 0, NO_ENTRY);
    expect_entry(&machine, 0, 1, ENTRY(VALID, NORMAL, 1, 11));
    PLAY(&machine, {1, COMMIT, 0, 0, GIVES(SUCCESS, 0, NONE)});
}

static void upgrade(void)
{
    bench_make(&machine, 2, 2);
    PLAY(&machine,
         {1, LOAD, 1, 0, GIVES(VALUE, 11, COUNTS(1, 0, 0, 0, 0, 0))},
         {0, LT, 1, 0, GIVES(VALUE, 11, COUNTS(0, 0, 0, 1, 0, 0))},
         {0, LTX, 1, 0, GIVES(VALUE, 11, COUNTS(0, 0, 0, 0, 1, 0))});
    expect_line(&machine, 1, 1, NO_LINE);
    expect_entry(&machine, 0, 0, ENTRY(RESERVED, TENTATIVE, 1, 11));
    expect_entry(&machine, 0, 1, ENTRY(VALID, BACKUP, 1, 11));
    PLAY(&machine,
         {0, ST, 1, 5, GIVES(DONE, 0, NONE)},
         {0, LT, 1, 0, GIVES(VALUE, 5, NONE)},
         {0, LTX, 1, 0, GIVES(VALUE, 5, NONE)});
    expect_entry(&machine, 0, 0, ENTRY(DIRTY, TENTATIVE, 1, 5));
    expect_entry(&machine, 0, 1, ENTRY(VALID, BACKUP, 1, 11));
    expect(machine_settled(&machine, 1) == 11, "a tentative value is not settled");
}

static void dirty_backup_evicted(void)
{
    bench_make(&machine, 1, 2);
    PLAY(&machine,
         {0, ST, 1, 5, GIVES(DONE, 0, COUNTS(0, 0, 0, 0, 1, 0))},
         {0, COMMIT, 0, 0, GIVES(SUCCESS, 0, NONE)},
         {0, ST, 1, 6, GIVES(DONE, 0, NONE)},
         {0, LT, 2, 0, GIVES(VALUE, 12, COUNTS(0, 0, 1, 1, 0, 0))});
    expect_memory(&machine, 1, 5);
    expect(machine_settled(&machine, 1) == 5, "the settled value is the committed one");
    PLAY(&machine,
         {0, ABORT, 0, 0, GIVES(DONE, 0, NONE)},
         {0, LOAD, 1, 0, GIVES(VALUE, 5, COUNTS(1, 0, 0, 0, 0, 0))});
}

static void load_own(void)
{
    bench_make(&machine, 1, 1);
    PLAY(&machine,
         {0, LT, 1, 0, GIVES(VALUE, 11, COUNTS(0, 0, 0, 1, 0, 0))},
         {0, LOAD, 1, 0, GIVES(VALUE, 11, NONE)},
         {0, VALIDATE, 0, 0, GIVES(TRUE, 0, NONE)},
         {0, LTX, 1, 0, GIVES(VALUE, 11, COUNTS(0, 0, 0, 0, 1, 0))},
         {0, LOAD, 1, 0, GIVES(VALUE, 11, COUNTS(1, 0, 0, 0, 0, 0))},
         {0, COMMIT, 0, 0, GIVES(FAILURE, 0, NONE)});
    expect_line(&machine, 0, 1, LINE(VALID, 1, 11));
    expect_entry(&machine, 0, 0, NO_ENTRY);
}

static void load_own_normal(void)
{
    bench_make(&machine, 1, 1);
    PLAY(&machine,
         {0, ST, 1, 5, GIVES(DONE, 0, COUNTS(0, 0, 0, 0, 1, 0))},
         {0, COMMIT, 0, 0, GIVES(SUCCESS, 0, NONE)},
         {0, LOAD, 1, 0, GIVES(VALUE, 5, NONE)});
    expect_entry(&machine, 0, 0, ENTRY(DIRTY, NORMAL, 1, 5));
    expect_line(&machine, 0, 1, NO_LINE);
}

static void store_own(void)
{
    bench_make(&machine, 1, 2);
    PLAY(&machine,
         {0, LT, 1, 0, GIVES(VALUE, 11, COUNTS(0, 0, 0, 1, 0, 0))},
         {0, STORE, 1, 9, GIVES(DONE, 0, COUNTS(0, 1, 0, 0, 0, 0))},
         {0, COMMIT, 0, 0, GIVES(FAILURE, 0, NONE)});
    expect_entry(&machine, 0, 0, NO_ENTRY);
    expect_entry(&machine, 0, 1, NO_ENTRY);
    expect_line(&machine, 0, 1, LINE(DIRTY, 1, 9));
}

static void store_two_writes(void)
{
    static const uint32_t memory[] = {20, 21};
    machine_make(&machine, (struct dimensions){1, 2, 1, 1}, memory, 2);
    PLAY(&machine,
         {0, ST, 1, 5, GIVES(DONE, 0, COUNTS(0, 0, 0, 0, 1, 0))},
         {0, COMMIT, 0, 0, GIVES(SUCCESS, 0, NONE)},
         {0, STORE, 0, 6, GIVES(DONE, 0, COUNTS(0, 1, 0, 0, 0, 0))},
         {0, STORE, 1, 7, GIVES(DONE, 0, COUNTS(0, 1, 2, 0, 0, 0))});
    expect_memory(&machine, 0, 6);
    expect_memory(&machine, 1, 5);
}

static void transactional_snoop(void)
{
    bench_make(&machine, 2, 2);
    PLAY(&machine,
         {0, STORE, 1, 9, GIVES(DONE, 0, COUNTS(0, 1, 0, 0, 0, 0))},
         {1, LT, 1, 0, GIVES(VALUE, 9, COUNTS(0, 0, 0, 1, 0, 0))});
    expect_line(&machine, 0, 1, LINE(VALID, 1, 9));
    expect_memory(&machine, 1, 9);
    PLAY(&machine,
         {0, STORE, 2, 8, GIVES(DONE, 0, COUNTS(0, 1, 0, 0, 0, 0))},
         {1, ST, 2, 7, GIVES(DONE, 0, COUNTS(0, 0, 0, 0, 1, 0))});
    expect_line(&machine, 0, 2, NO_LINE);
    expect_memory(&machine, 2, 8);
}

static void others_rolled_back(void)
{
    bench_make(&machine, 3, 2);
    PLAY(&machine,
         {0, LT, 1, 0, GIVES(VALUE, 11, COUNTS(0, 0, 0, 1, 0, 0))},
         {1, LT, 1, 0, GIVES(VALUE, 11, COUNTS(0, 0, 0, 1, 0, 0))},
         {2, LOAD, 1, 0, GIVES(VALUE, 11, COUNTS(1, 0, 0, 0, 0, 0))},
         {0, VALIDATE, 0, 0, GIVES(TRUE, 0, NONE)},
         {2, STORE, 1, 9, GIVES(DONE, 0, COUNTS(0, 0, 1, 0, 0, 0))},
         {0, VALIDATE, 0, 0, GIVES(FALSE, 0, NONE)},
         {1, COMMIT, 0, 0, GIVES(FAILURE, 0, NONE)},
         {0, LTX, 1, 0, GIVES(VALUE, 9, COUNTS(0, 0, 0, 0, 1, 0))},
         {1, STORE, 1, 8, GIVES(DONE, 0, COUNTS(0, 1, 0, 0, 0, 0))},
         {0, COMMIT, 0, 0, GIVES(FAILURE, 0, NONE)});
}

static void flags(void)
{
    bench_make(&machine, 1, 2);
    PLAY(&machine, {0, COMMIT, 0, 0, GIVES(SUCCESS, 0, NONE)});
    expect_flags(&machine, 0, 0, 1);
    PLAY(&machine, {0, INTERRUPT, 0, 0, GIVES(DONE, 0, NONE)});
    expect_flags(&machine, 0, 0, 0);
    PLAY(&machine, {0, ST, 0, 1, GIVES(ABORTED, 0, NONE)});
    expect_flags(&machine, 0, 1, 0);
    PLAY(&machine, {0, INTERRUPT, 0, 0, GIVES(DONE, 0, NONE)});
    expect_flags(&machine, 0, 1, 0);
    PLAY(&machine, {0, ABORT, 0, 0, GIVES(DONE, 0, NONE)});
    expect_flags(&machine, 0, 0, 1);
    PLAY(&machine,
         {0, LT, 0, 0, GIVES(VALUE, 10, COUNTS(0, 0, 0, 1, 0, 0))},
         {0, VALIDATE, 0, 0, GIVES(TRUE, 0, NONE)});
    expect_flags(&machine, 0, 1, 1);
    PLAY(&machine, {0, INTERRUPT, 0, 0, GIVES(DONE, 0, NONE)});
    expect_flags(&machine, 0, 1, 0);
    PLAY(&machine, {0, VALIDATE, 0, 0, GIVES(FALSE, 0, NONE)});
    expect_flags(&machine, 0, 0, 1);
}

void rules_suite(void)
{
    test("plain LOAD and STORE follow Goodman", goodman);
    test("a line's occupant is evicted", eviction);
    test("LT and LTX make the own regular copy leave", regular_copy_leaves);
    test("slot search: invalid, NORMAL, backup, none", slot_order);
    test("slot search: lowest backup when no NORMAL is left", normal_before_backup);
    test("slot search: the lowest of each kind", lowest_of_each);
    test("a DIRTY entry with no slot for its backup is written back",
         written_back_for_want_of_a_slot);
    test("a step reaches 3 WRITE", three_writes);
    test("a refused miss keeps its write-backs and leaves its slots invalid",
         refused_miss);
    test("no slot keeps the regular copy's write-back", no_slot_keeps_write);
    test("a refused upgrade leaves the backup NORMAL", refused_upgrade);
    test("an upgrade changes the tentative entry alone", upgrade);
    test("a DIRTY backup taken as a slot is written back", dirty_backup_evicted);
    test("LOAD of an own tentative copy", load_own);
    test("LOAD of an own NORMAL copy", load_own_normal);
    test("STORE to an own tentative copy", store_own);
    test("STORE writes back the own NORMAL copy and the occupant", store_two_writes);
    test("T_READ and T_RFO take a DIRTY regular copy's data", transactional_snoop);
    test("READ spares VALID holders, WRITE and RFO roll back all", others_rolled_back);
    test("TACTIVE and TSTATUS", flags);
}
