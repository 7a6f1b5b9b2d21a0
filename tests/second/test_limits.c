/* The two limits of the text: 64 bytes a record and byte 4,194,305. */
#include <stdio.h>
#include <stdlib.h>
#include <string.h>

#include "check.h"
#include "listed.h"
#include "suites.h"
#include "text.h"

enum { SLACK = 256 };

static char input[TEXT_LIMIT + SLACK];

/* A record of so many bytes whose name is too long to be one. */
static void long_record(char *text, size_t length)
{
    memset(text, 'A', length);
    memcpy(text, "1,0,", 4);
    memcpy(text + length - 4, ",0,0", 4);
    text[length] = '\0';
}

static void expect_of_length(size_t length, const char *ending, int refusal)
{
    char record[128];
    char text[256];
    char due[128];
    long_record(record, length);
    snprintf(text, sizeof text, HEAD "%s%s", record, ending);
    snprintf(due, sizeof due, LIST "1,REFUSED,%d,0" E "END,COMMITTED,0,0" E, refusal);
    expect_listed(text, text, strlen(text), due);
}

static void record_length(void)
{
    expect_of_length(63, E, 6);
    expect_of_length(64, E, 6);
    expect_of_length(65, E, 11);
    expect_of_length(64, "", 6);
    expect_of_length(65, "", 11);
    expect_of_length(64, "\r", 11);
    expect_of_length(100, E, 11);
}

static void longest_useful_record(void)
{
    static const char text[] =
        HEAD "4294967295,4294967295,INTERRUPT,4294967295,4294967295" E;
    expect_listed(text, text, strlen(text),
                  LIST "1,REFUSED,7,0" E "END,COMMITTED,0,0" E);
}

/* The header, then empty lines (refused with 11) and at last `record` so that
 * the whole is `length` bytes. The gap is made even by one longer line. */
static size_t padded(size_t length, const char *record)
{
    size_t at = strlen(HEAD);
    size_t gap = length - at - strlen(record);
    size_t records = 0;
    memcpy(input, HEAD, at);
    if (gap % 2 == 1) {
        memcpy(input + at, "x" E, 3);
        at += 3;
        gap -= 3;
        records++;
    }
    for (; gap > 0; gap -= 2, at += 2, records++)
        memcpy(input + at, E, 2);
    memcpy(input + at, record, strlen(record));
    return records;
}

static void expect_at(size_t length, const char *record, const char *listed,
                      const char *end)
{
    char due[256];
    size_t records = padded(length, record);
    snprintf(due, sizeof due, "%zu,REFUSED,11,0" E "%zu,%s" E "END,COMMITTED,%s" E,
             records, records + 1, listed, end);
    expect_listed_end(record, input, length, due);
}

static void last_byte(void)
{
    static const char record[] = "1,0,COMMIT,0,0" E;
    static const char unfinished[] = "1,0,COMMIT,0,0";
    expect_at(TEXT_LIMIT - 1, record, "SUCCESS,0,0", "1,0");
    expect_at(TEXT_LIMIT, record, "SUCCESS,0,0", "1,0");
    expect_at(TEXT_LIMIT + 1, record, "REFUSED,14,0", "0,0");
    expect_at(TEXT_LIMIT + 2, record, "REFUSED,14,0", "0,0");
    expect_at(TEXT_LIMIT + 3, record, "REFUSED,14,0", "0,0");
    expect_at(TEXT_LIMIT, unfinished, "SUCCESS,0,0", "1,0");
    expect_at(TEXT_LIMIT + 1, unfinished, "REFUSED,14,0", "0,0");
}

static void lone_cr_at_the_limit(void)
{
    expect_at(TEXT_LIMIT, "1,0,COMMIT,0,0\r", "REFUSED,11,0", "0,0");
    expect_at(TEXT_LIMIT + 1, "1,0,COMMIT,0,0\r", "REFUSED,14,0", "0,0");
}

static void comes_before_the_rest(void)
{
    expect_at(TEXT_LIMIT + 1, "x", "REFUSED,14,0", "0,0");
    expect_at(TEXT_LIMIT + 2, E, "REFUSED,14,0", "0,0");
    expect_at(TEXT_LIMIT + 1, E, "REFUSED,14,0", "0,0");
    expect_at(TEXT_LIMIT + 1, "1,9,FOO,99,\"", "REFUSED,14,0", "0,0");
    expect_at(TEXT_LIMIT, E, "REFUSED,11,0", "0,0");
}

/* Records of 14 bytes: the third holds the byte, two good ones follow. */
static void reading_ends(void)
{
    static const char records[] = "1,0,LOAD,0,0" E "2,0,LOAD,1,0" E "3,0,LOAD,2,0" E
                                  "4,0,LOAD,3,0" E "5,0,LOAD,4,0" E;
    char due[256];
    size_t length = TEXT_LIMIT + 14 * 2 + 7;
    size_t before = padded(length, records);
    snprintf(due, sizeof due, "%zu,VALUE,0,1" E "%zu,VALUE,0,1" E "%zu,REFUSED,14,0" E
             "END,COMMITTED,0,2" E, before + 1, before + 2, before + 3);
    expect_listed_end("good records beyond the limit", input, length, due);
}

static void long_first_record(void)
{
    size_t head = strlen(HEAD);
    memcpy(input, HEAD, head);
    memset(input + head, 'x', sizeof input - head);
    expect_listed("one byte up to the limit", input, TEXT_LIMIT,
                  LIST "1,REFUSED,11,0" E "END,COMMITTED,0,0" E);
    expect_listed("one byte more", input, TEXT_LIMIT + 1,
                  LIST "1,REFUSED,14,0" E "END,COMMITTED,0,0" E);
    expect_listed("many bytes more", input, sizeof input,
                  LIST "1,REFUSED,14,0" E "END,COMMITTED,0,0" E);
}

static void long_header(void)
{
    static const char due[] = LIST "0,REFUSED,13,0" E "END,COMMITTED,0,0" E;
    memset(input, 'g', sizeof input);
    expect_listed("a header up to the limit", input, TEXT_LIMIT, due);
    expect_listed("a header beyond the limit", input, sizeof input, due);
    memcpy(input + sizeof input - 40, E HEAD, strlen(E HEAD));
    expect_listed("a header beyond the limit that ends", input, sizeof input, due);
}

void limits_suite(void)
{
    test("text: 64 bytes pass, 65 are 11", record_length);
    test("text: the longest record of numbers and a name", longest_useful_record);
    test("text: byte 4,194,304 passes, byte 4,194,305 is 14", last_byte);
    test("text: a lone CR on either side of the limit", lone_cr_at_the_limit);
    test("text: 14 comes before all else", comes_before_the_rest);
    test("text: 14 ends the reading", reading_ends);
    test("text: a long first record", long_first_record);
    test("text: a wrong header of any length is 13", long_header);
}
