/* 'Readings of the paper that go wrong here': what each would get wrong. */
#include "check.h"
#include "scene.h"
#include "suites.h"

static struct machine machine;

static void normal_dirty_answers(void)
{
    bench_make(&machine, 2, 2);
    PLAY(&machine,
         {0, ST, 1, 5, GIVES(DONE, 0, COUNTS(0, 0, 0, 0, 1, 0))},
         {0, COMMIT, 0, 0, GIVES(SUCCESS, 0, NONE)},
         {1, LOAD, 1, 0, GIVES(VALUE, 5, COUNTS(1, 0, 0, 0, 0, 0))});
    expect_entry(&machine, 0, 0, ENTRY(VALID, NORMAL, 1, 5));
    expect_memory(&machine, 1, 5);
    PLAY(&machine,
         {0, ST, 2, 6, GIVES(DONE, 0, COUNTS(0, 0, 0, 0, 1, 0))},
         {0, COMMIT, 0, 0, GIVES(SUCCESS, 0, NONE)},
         {1, LTX, 2, 0, GIVES(VALUE, 6, COUNTS(0, 0, 0, 0, 1, 0))});
    expect_memory(&machine, 2, 6);
    expect_entry(&machine, 0, 1, NO_ENTRY);
}

/* Case G with four entries, its ABORT replaced by a BUSY on word 2. */
static void dirty_backup_survives(void)
{
    bench_make(&machine, 2, 4);
    PLAY(&machine,
         {1, ST, 2, 9, GIVES(DONE, 0, COUNTS(0, 0, 0, 0, 1, 0))},
         {0, ST, 1, 5, GIVES(DONE, 0, COUNTS(0, 0, 0, 0, 1, 0))},
         {0, COMMIT, 0, 0, GIVES(SUCCESS, 0, NONE)},
         {0, ST, 1, 6, GIVES(DONE, 0, NONE)},
         {0, LT, 2, 0, GIVES(ABORTED, 0, COUNTS(0, 0, 0, 1, 0, 1))});
    expect_entry(&machine, 0, 0, NO_ENTRY);
    expect_entry(&machine, 0, 1, ENTRY(DIRTY, NORMAL, 1, 5));
    PLAY(&machine, {1, LT, 1, 0, GIVES(VALUE, 5, COUNTS(0, 0, 0, 1, 0, 0))});
    expect_entry(&machine, 0, 1, ENTRY(VALID, NORMAL, 1, 5));
}

static void backup_filled(void)
{
    bench_make(&machine, 1, 2);
    PLAY(&machine, {0, LT, 1, 0, GIVES(VALUE, 11, COUNTS(0, 0, 0, 1, 0, 0))});
    expect_entry(&machine, 0, 1, ENTRY(VALID, BACKUP, 1, 11));
    PLAY(&machine,
         {0, ABORT, 0, 0, GIVES(DONE, 0, NONE)},
         {0, LT, 1, 0, GIVES(VALUE, 11, NONE)},
         {0, COMMIT, 0, 0, GIVES(SUCCESS, 0, NONE)},
         {0, ST, 2, 7, GIVES(DONE, 0, COUNTS(0, 0, 0, 0, 1, 0))},
         {0, ABORT, 0, 0, GIVES(DONE, 0, NONE)},
         {0, ST, 2, 8, GIVES(DONE, 0, NONE)});
}

static void status_decides(void)
{
    bench_make(&machine, 1, 2);
    PLAY(&machine,
         {0, VALIDATE, 0, 0, GIVES(TRUE, 0, NONE)},
         {0, INTERRUPT, 0, 0, GIVES(DONE, 0, NONE)},
         {0, VALIDATE, 0, 0, GIVES(FALSE, 0, NONE)},
         {0, LT, 0, 0, GIVES(VALUE, 10, COUNTS(0, 0, 0, 1, 0, 0))},
         {0, INTERRUPT, 0, 0, GIVES(DONE, 0, NONE)},
         {0, VALIDATE, 0, 0, GIVES(FALSE, 0, NONE)},
         {0, VALIDATE, 0, 0, GIVES(TRUE, 0, NONE)});
}

static void write_is_heard(void)
{
    bench_make(&machine, 3, 2);
    PLAY(&machine,
         {0, LOAD, 1, 0, GIVES(VALUE, 11, COUNTS(1, 0, 0, 0, 0, 0))},
         {2, LOAD, 1, 0, GIVES(VALUE, 11, COUNTS(1, 0, 0, 0, 0, 0))},
         {1, LT, 1, 0, GIVES(VALUE, 11, COUNTS(0, 0, 0, 1, 0, 0))},
         {0, STORE, 1, 8, GIVES(DONE, 0, COUNTS(0, 0, 1, 0, 0, 0))});
    expect_line(&machine, 2, 1, NO_LINE);
    expect_entry(&machine, 1, 0, NO_ENTRY);
    expect_entry(&machine, 1, 1, NO_ENTRY);
    PLAY(&machine,
         {1, COMMIT, 0, 0, GIVES(FAILURE, 0, NONE)},
         {2, LOAD, 1, 0, GIVES(VALUE, 8, COUNTS(1, 0, 0, 0, 0, 0))});
}

void readings_suite(void)
{
    test("reading: a NORMAL DIRTY entry answers the bus", normal_dirty_answers);
    test("reading: a dirty backup survives a BUSY elsewhere", dirty_backup_survives);
    test("reading: the backup is filled on a miss", backup_filled);
    test("reading: VALIDATE looks at TSTATUS", status_decides);
    test("reading: WRITE is heard by the other caches", write_is_heard);
}
