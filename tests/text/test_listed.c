/* Everything odd that is listed, each in every place where it can stand. */
#include <string.h>

#include "compare.h"
#include "logs.h"
#include "odd.h"
#include "suites.h"
#include "write.h"

enum { FIELDS = 5 };

static const struct dimensions usual = {4, 16, 4, 4};

static const char good[] = "6,1,ST,3,7" CRLF "8,1,COMMIT,0,0" CRLF;

static void headers(uint64_t seed)
{
    static struct job job;
    struct dice dice = {seed};
    for (size_t i = 0; i <= odd_headers.length; i++)
        for (size_t end = 0; end <= odd_ends.length; end++)
            for (int records = 0; records < 2; records++) {
                draw_job(&job, &dice, usual);
                write_text(&job, i < odd_headers.length ? odd_headers.texts[i] : HEADER);
                write_text(&job, end < odd_ends.length ? odd_ends.texts[end] : CRLF);
                write_text(&job, records ? good : "");
                compare(&job);
            }
}

/* A record whose field `odd` is `text`, with another before and two after. */
static void write_around(struct job *job, size_t odd, const char *text)
{
    static const char *const fields[FIELDS] = {"5", "1", "LTX", "3", "9"};
    write_text(job, HEADER CRLF "4,0,LOAD,3,0" CRLF);
    for (size_t i = 0; i < FIELDS; i++) {
        write_text(job, i == 0 ? "" : ",");
        write_text(job, i == odd ? text : fields[i]);
    }
    write_text(job, CRLF);
    write_text(job, good);
}

static void compare_in_fields(struct dice *dice, const struct odd *odd)
{
    static struct job job;
    for (size_t i = 0; i < odd->length; i++)
        for (size_t field = 0; field < FIELDS; field++) {
            draw_job(&job, dice, usual);
            write_around(&job, field, odd->texts[i]);
            compare(&job);
        }
}

static void fields(uint64_t seed)
{
    struct dice dice = {seed};
    compare_in_fields(&dice, &odd_numbers);
    compare_in_fields(&dice, &odd_names);
    compare_in_fields(&dice, &odd_ends);
    compare_in_fields(&dice, &odd_records);
}

/* In the middle of a text and at its end, whose last CRLF may be missing. */
static void records_and_ends(uint64_t seed)
{
    static struct job job;
    struct dice dice = {seed};
    for (size_t i = 0; i < odd_records.length; i++)
        for (size_t end = 0; end <= odd_ends.length; end++)
            for (int last = 0; last < 2; last++) {
                draw_job(&job, &dice, usual);
                write_text(&job, HEADER CRLF "1,0,LT,3,0" CRLF);
                write_text(&job, odd_records.texts[i]);
                write_text(&job, end < odd_ends.length ? odd_ends.texts[end] : CRLF);
                write_text(&job, last ? "" : good);
                compare(&job);
            }
}

static void record_lengths(uint64_t seed)
{
    static struct job job;
    struct dice dice = {seed};
    for (size_t length = 8; length <= 200; length++)
        for (size_t end = 0; end <= odd_ends.length; end++) {
            draw_job(&job, &dice, usual);
            write_text(&job, HEADER CRLF);
            write_record_of_length(&job, length);
            write_text(&job, end < odd_ends.length ? odd_ends.texts[end] : CRLF);
            write_text(&job, roll_one_in(&dice, 2) ? "" : good);
            compare(&job);
        }
}

/* So that a text ends in the middle of its header, of a field, of a CRLF. */
static void every_beginning(uint64_t seed)
{
    static struct job job;
    struct dice dice = {seed};
    for (int log = 0; log < 4; log++) {
        draw_job(&job, &dice, usual);
        draw_log(&job, &dice, 12, log < 2 ? NEVER_ODD : SELDOM_ODD);
        while (true) {
            compare(&job);
            if (job.length == 0)
                break;
            job.length--;
        }
    }
}

/* The last place is that of the CR behind the record. */
static void every_byte(uint64_t seed)
{
    static const char record[] = "5,1,LTX,3,9";
    static struct job job;
    struct dice dice = {seed};
    for (int byte = 0; byte < 256; byte++)
        for (size_t at = 0; at < sizeof record; at++) {
            draw_job(&job, &dice, usual);
            write_text(&job, HEADER CRLF);
            write_text(&job, record);
            write_text(&job, CRLF);
            job.text[strlen(HEADER CRLF) + at] = (char)byte;
            write_text(&job, good);
            compare(&job);
        }
}

void test_listed(void)
{
    compared_test("headers, right and wrong, with every end", 101, headers);
    compared_test("every odd thing in every field", 102, fields);
    compared_test("odd records with every end", 103, records_and_ends);
    compared_test("records of 8 to 200 bytes", 104, record_lengths);
    compared_test("a text cut short at every byte", 105, every_beginning);
    compared_test("every byte at every place of a record", 106, every_byte);
}
