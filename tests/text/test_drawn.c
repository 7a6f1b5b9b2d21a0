/* Random texts: logs good, odd and damaged, and what was never a log. */
#include "compare.h"
#include "damage.h"
#include "logs.h"
#include "odd.h"
#include "suites.h"
#include "write.h"

/* So many texts, each a log of this oddity with up to so many damages. */
static void logs(struct dice *dice, int texts, enum oddity oddity, uint32_t damages)
{
    static struct job job;
    for (int i = 0; i < texts; i++) {
        draw_job(&job, dice, draw_any_dimensions(dice));
        draw_log(&job, dice, roll_below(dice, 16), oddity);
        for (uint32_t left = damages > 0 ? roll_from(dice, 1, damages) : 0; left > 0; left--)
            damage(&job, dice);
        compare(&job);
    }
}

static void good_logs(uint64_t seed)
{
    struct dice dice = {seed};
    logs(&dice, 10000, NEVER_ODD, 0);
}

static void odd_logs(uint64_t seed)
{
    struct dice dice = {seed};
    logs(&dice, 40000, SELDOM_ODD, 0);
    logs(&dice, 20000, OFTEN_ODD, 0);
}

static void damaged_logs(uint64_t seed)
{
    struct dice dice = {seed};
    logs(&dice, 80000, NEVER_ODD, 3);
    logs(&dice, 10000, NEVER_ODD, 30);
}

static void damaged_odd_logs(uint64_t seed)
{
    struct dice dice = {seed};
    logs(&dice, 40000, SELDOM_ODD, 3);
}

static void random_bytes(uint64_t seed)
{
    static struct job job;
    struct dice dice = {seed};
    for (int i = 0; i < 10000; i++) {
        bool any = roll_one_in(&dice, 2);
        draw_job(&job, &dice, draw_any_dimensions(&dice));
        write_text(&job, roll_one_in(&dice, 6) ? "" : HEADER CRLF);
        for (uint32_t left = roll_below(&dice, 200); left > 0; left--)
            write_run(&job, any ? (char)roll(&dice) : draw_byte(&dice), 1);
        compare(&job);
    }
}

static void write_scrap(struct job *job, struct dice *dice)
{
    static const struct odd *const odd[] = {&odd_headers, &odd_numbers, &odd_names,
                                            &odd_ends, &odd_records};
    static const char *const usual[] = {",", CRLF, "0", "1", "2", "LT", "ST", "COMMIT",
                                        "1,0,", ",0,0" CRLF, "LOAD,1,0", HEADER CRLF};
    if (roll_one_in(dice, 3))
        write_odd(job, dice, odd[roll_below(dice, 5)]);
    else
        write_text(job, usual[roll_below(dice, 12)]);
}

static void random_scraps(uint64_t seed)
{
    static struct job job;
    struct dice dice = {seed};
    for (int i = 0; i < 10000; i++) {
        draw_job(&job, &dice, draw_any_dimensions(&dice));
        write_text(&job, roll_one_in(&dice, 6) ? "" : HEADER CRLF);
        for (uint32_t left = roll_below(&dice, 40); left > 0; left--)
            write_scrap(&job, &dice);
        compare(&job);
    }
}

void test_drawn(void)
{
    compared_test("good logs", 201, good_logs);
    compared_test("logs with odd things", 202, odd_logs);
    compared_test("logs with damaged bytes", 203, damaged_logs);
    compared_test("odd logs with damaged bytes", 204, damaged_odd_logs);
    compared_test("random bytes", 205, random_bytes);
    compared_test("random scraps of logs", 206, random_scraps);
}
