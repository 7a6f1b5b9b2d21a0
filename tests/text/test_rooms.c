/* Buffers of every size, and texts as long as a job can have. */
#include "compare.h"
#include "damage.h"
#include "logs.h"
#include "suites.h"
#include "write.h"

static const struct dimensions usual = {4, 16, 4, 4};

/* Below LINE_ROOM nothing is written; from there on a piece has a line or more. */
static void every_room(uint64_t seed)
{
    static struct job job;
    struct dice dice = {seed};
    for (uint64_t room = 0; room <= 320; room++) {
        draw_job(&job, &dice, usual);
        draw_log(&job, &dice, 8, SELDOM_ODD);
        job.room = room;
        compare(&job);
    }
}

static void large_rooms(uint64_t seed)
{
    static const uint64_t rooms[] = {72, 73, 100, 1024, 4095, 4096, 4097, 65464, 65535, 65536};
    static struct job job;
    struct dice dice = {seed};
    for (size_t i = 0; i < sizeof rooms / sizeof *rooms; i++)
        for (int log = 0; log < 4; log++) {
            draw_job(&job, &dice, draw_any_dimensions(&dice));
            draw_log(&job, &dice, log == 0 ? 400 : 40, SELDOM_ODD);
            job.room = rooms[i];
            compare(&job);
        }
}

/* 65,536 bytes to the last: what no longer fits of a record is made up by 'x'. */
static void long_texts(uint64_t seed)
{
    static struct job job;
    struct dice dice = {seed};
    for (int i = 0; i < 12; i++) {
        draw_job(&job, &dice, draw_any_dimensions(&dice));
        draw_log(&job, &dice, MOST_BYTES / 10, i % 2 == 0 ? NEVER_ODD : SELDOM_ODD);
        write_run(&job, 'x', MOST_BYTES - job.length);
        for (int left = 20; i % 3 == 0 && left > 0; left--)
            damage(&job, &dice);
        job.room = i % 4 == 0 ? 4096 : MOST_BYTES;
        compare(&job);
    }
}

static void long_lines(uint64_t seed)
{
    static struct job job;
    struct dice dice = {seed};
    for (size_t length = 1; length < MOST_BYTES; length = 3 * length + 1)
        for (int header = 0; header < 2; header++)
            for (size_t at = 0; at < 2; at++) {
                draw_job(&job, &dice, usual);
                write_text(&job, header ? "" : HEADER CRLF);
                write_run(&job, ",1A\r"[roll_below(&dice, 4)], length);
                write_text(&job, at ? CRLF "1,0,COMMIT,0,0" : "");
                compare(&job);
            }
}

void test_rooms(void)
{
    compared_test("buffers of 0 to 320 bytes", 401, every_room);
    compared_test("buffers of up to 65,536 bytes", 402, large_rooms);
    compared_test("texts of 65,536 bytes", 403, long_texts);
    compared_test("lines of up to thousands of bytes", 404, long_lines);
}
