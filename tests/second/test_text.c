/* 'The replay program and its text': bytes in, listing bytes out. */
#include <stdio.h>
#include <string.h>

#include "check.h"
#include "listed.h"
#include "suites.h"
#include "text.h"

static void expect_text(const char *input, const char *due)
{
    expect_listed(input, input, strlen(input), due);
}

/* Reading goes on after the record, as the second one shows. No bus cycles. */
static void expect_record(const char *record, const char *listed)
{
    char input[512];
    char due[512];
    int committed = strncmp(listed, "SUCCESS", strlen("SUCCESS")) == 0;
    snprintf(input, sizeof input, HEAD "%s" E "4294967295,0,VALIDATE,0,0" E, record);
    snprintf(due, sizeof due, LIST "1,%s" E "2,TRUE,0,0" E "END,COMMITTED,%d,0" E,
             listed, committed);
    expect_text(input, due);
}

static void worked_example(void)
{
    static const char input[] = HEAD
        "10,0,LTX,5,0" E "11,0,ST,5,7" E "12,1,LT,5,0" E "13,1,COMMIT,0,0" E
        "14,0,COMMIT,0,0" E "15,1,LT,5,0" E "16,1,VALIDATE,0,0" E "17,1,COMMIT,0,0" E;
    static const char due[] = LIST
        "1,VALUE,0,1" E "2,DONE,0,0" E "3,ABORTED,0,2" E "4,FAILURE,0,0" E
        "5,SUCCESS,0,0" E "6,VALUE,7,1" E "7,TRUE,0,0" E "8,SUCCESS,0,0" E
        "END,COMMITTED,2,4" E;
    expect_listed("with its last CRLF", input, strlen(input), due);
    expect_listed("without its last CRLF", input, strlen(input) - 2, due);
}

static void headers(void)
{
    static const char refused[] = LIST "0,REFUSED,13,0" E "END,COMMITTED,0,0" E;
    static const char none[] = LIST "END,COMMITTED,0,0" E;
    expect_text(HEAD, none);
    expect_text("grant,core,op,word,value", none);
    expect_text("", refused);
    expect_text(E, refused);
    expect_text(E HEAD, refused);
    expect_text("grant,core,op,word,valu" E "1,0,COMMIT,0,0" E, refused);
    expect_text("grant,core,op,word,value " E "1,0,COMMIT,0,0" E, refused);
    expect_text("grant,core,op,word,value,x" E, refused);
    expect_text("Grant,core,op,word,value" E, refused);
    expect_text("grant,core,op,word,value\n1,0,COMMIT,0,0" E, refused);
    expect_text("grant,core,op,word,value\n", refused);
    expect_text("grant,core,op,word,value\r", refused);
    expect_text("grant,core,op,word,value\r" E, refused);
    expect_text("\"grant\",core,op,word,value" E, refused);
    expect_text("\xef\xbb\xbf" HEAD, refused);
    expect_text("1,0,COMMIT,0,0" E, refused);
}

static void every_instruction(void)
{
    expect_text(HEAD
        "0,3,LOAD,15,0" E "1,3,STORE,15,9" E "2,2,LT,15,0" E "3,2,LTX,15,0" E
        "4,2,ST,15,4294967295" E "5,2,LT,15,0" E "6,2,VALIDATE,0,0" E
        "7,2,COMMIT,0,0" E "8,2,LOAD,15,0" E "9,2,INTERRUPT,0,0" E
        "10,2,VALIDATE,0,0" E "11,2,ABORT,0,0" E, LIST
        "1,VALUE,0,1" E "2,DONE,0,1" E "3,VALUE,9,1" E "4,VALUE,9,1" E
        "5,DONE,0,0" E "6,VALUE,4294967295,0" E "7,TRUE,0,0" E
        "8,SUCCESS,0,0" E "9,VALUE,4294967295,0" E "10,DONE,0,0" E
        "11,FALSE,0,0" E "12,DONE,0,0" E "END,COMMITTED,1,4" E);
}

static void fields(void)
{
    expect_record("", "REFUSED,11,0");
    expect_record(",,,,", "REFUSED,11,0");
    expect_record("1,0,COMMIT,0", "REFUSED,11,0");
    expect_record("1,0,COMMIT,0,0,", "REFUSED,11,0");
    expect_record("1,0,COMMIT,0,0,0", "REFUSED,11,0");
    expect_record("1,0,COMMIT,,", "REFUSED,11,0");
    expect_record("1,0,COMMIT,,0", "REFUSED,11,0");
    expect_record("1,0,COMMIT,0,", "REFUSED,11,0");
    expect_record(",0,COMMIT,0,0", "REFUSED,11,0");
    expect_record("1,,COMMIT,0,0", "REFUSED,11,0");
    expect_record("1,0,COMMIT,0,0", "SUCCESS,0,0");
    expect_record("1,0,COMMIT,99,4294967295", "SUCCESS,0,0");
    expect_text(HEAD E, LIST "1,REFUSED,11,0" E "END,COMMITTED,0,0" E);
    expect_text(HEAD E E "1,0,COMMIT,0,0", LIST "1,REFUSED,11,0" E "2,REFUSED,11,0" E
                "3,SUCCESS,0,0" E "END,COMMITTED,1,0" E);
}

static void numbers(void)
{
    expect_record("0,0,COMMIT,0,0", "SUCCESS,0,0");
    expect_record("4294967294,0,COMMIT,4294967295,4294967295", "SUCCESS,0,0");
    expect_record("4294967296,0,COMMIT,0,0", "REFUSED,11,0");
    expect_record("1,4294967296,COMMIT,0,0", "REFUSED,11,0");
    expect_record("1,0,COMMIT,4294967296,0", "REFUSED,11,0");
    expect_record("1,0,COMMIT,0,4294967296", "REFUSED,11,0");
    expect_record("1,0,COMMIT,0,18446744073709551616", "REFUSED,11,0");
    expect_record("1,0,COMMIT,0,9999999999", "REFUSED,11,0");
    expect_record("01,0,COMMIT,0,0", "REFUSED,11,0");
    expect_record("1,00,COMMIT,0,0", "REFUSED,11,0");
    expect_record("1,0,COMMIT,00,0", "REFUSED,11,0");
    expect_record("1,0,COMMIT,0,000000000001", "REFUSED,11,0");
    expect_record("-1,0,COMMIT,0,0", "REFUSED,11,0");
    expect_record("+1,0,COMMIT,0,0", "REFUSED,11,0");
    expect_record(" 1,0,COMMIT,0,0", "REFUSED,11,0");
    expect_record("1 ,0,COMMIT,0,0", "REFUSED,11,0");
    expect_record("1,0,COMMIT,0x1,0", "REFUSED,11,0");
    expect_record("1,0,COMMIT,0,1.0", "REFUSED,11,0");
    expect_record("1,0,COMMIT,0,:", "REFUSED,11,0");
    expect_record("1,0,COMMIT,0,/", "REFUSED,11,0");
    static const char nul[] = HEAD "1,0,COMMIT,0,0\0" E;
    expect_listed("a NUL byte", nul, sizeof nul - 1,
                  LIST "1,REFUSED,11,0" E "END,COMMITTED,0,0" E);
}

static void names(void)
{
    expect_record("1,0,,0,0", "REFUSED,6,0");
    expect_record("1,0,commit,0,0", "REFUSED,6,0");
    expect_record("1,0,COMMIT ,0,0", "REFUSED,6,0");
    expect_record("1,0, COMMIT,0,0", "REFUSED,6,0");
    expect_record("1,0,COMMI,0,0", "REFUSED,6,0");
    expect_record("1,0,COMMITS,0,0", "REFUSED,6,0");
    expect_record("1,0,5,0,0", "REFUSED,6,0");
    expect_record("1,0,L,0,0", "REFUSED,6,0");
    expect_record("1,0,READ,0,0", "REFUSED,6,0");
    expect_record("1,0,a\rb,0,0", "REFUSED,6,0");
    expect_record("1,0,a\nb,0,0", "REFUSED,6,0");
    static const char nul[] = HEAD "1,0,COMMIT\0,0,0" E;
    expect_listed("a NUL byte in the name", nul, sizeof nul - 1,
                  LIST "1,REFUSED,6,0" E "END,COMMITTED,0,0" E);
}

static void quotes(void)
{
    expect_record("\"1\",0,COMMIT,0,0", "REFUSED,11,0");
    expect_record("1,0,\"COMMIT\",0,0", "REFUSED,11,0");
    expect_record("1,0,COMM\"IT,0,0", "REFUSED,11,0");
    expect_record("1,0,\",0,0", "REFUSED,11,0");
    expect_record("1,0,COMMIT,0,0\"", "REFUSED,11,0");
    expect_text(HEAD "1,0,\"a" E "b\",0,0" E "2,0,COMMIT,0,0" E,
                LIST "1,REFUSED,11,0" E "2,REFUSED,11,0" E "3,SUCCESS,0,0" E
                "END,COMMITTED,1,0" E);
}

static void lone_breaks(void)
{
    expect_record("1,0,COMMIT,0,0\r", "REFUSED,11,0");
    expect_record("1,0,COMMIT,0,0\n", "REFUSED,11,0");
    expect_record("\n1,0,COMMIT,0,0", "REFUSED,11,0");
    expect_record("1,0,COMMIT,0,0\n2,0,COMMIT,0,0", "REFUSED,11,0");
    expect_record("1,0,COMMIT,0,0\r2,0,COMMIT,0,0", "REFUSED,11,0");
    expect_record("\r", "REFUSED,11,0");
    expect_record("\n", "REFUSED,11,0");
    expect_text(HEAD "1,0,COMMIT,0,0\r",
                LIST "1,REFUSED,11,0" E "END,COMMITTED,0,0" E);
    expect_text(HEAD "1,0,COMMIT,0,0\n",
                LIST "1,REFUSED,11,0" E "END,COMMITTED,0,0" E);
    expect_text(HEAD "\r", LIST "1,REFUSED,11,0" E "END,COMMITTED,0,0" E);
    expect_text(HEAD "1,0,COMMIT,0,0" E "\n",
                LIST "1,SUCCESS,0,0" E "2,REFUSED,11,0" E "END,COMMITTED,1,0" E);
}

static void cores_and_words(void)
{
    expect_record("1,3,COMMIT,0,0", "SUCCESS,0,0");
    expect_record("1,4,COMMIT,0,0", "REFUSED,7,0");
    expect_record("1,4294967295,COMMIT,0,0", "REFUSED,7,0");
    expect_record("1,3,LOAD,16,0", "REFUSED,8,0");
    expect_record("1,3,ST,4294967295,0", "REFUSED,8,0");
    expect_record("1,0,ABORT,16,0", "DONE,0,0");
}

static void order(void)
{
    static const char taken[] = HEAD "5,0,COMMIT,0,0" E;
    char input[256];
    char due[256];
    static const struct { const char *record; int refusal; } rows[] = {
        {"5,9,FOO,99,x", 11}, {"5,9,FOO,99,0", 6},    {"5,9,\"FOO,99,0", 11},
        {"5,9,LOAD,99,0", 12}, {"4,9,LOAD,99,0", 12}, {"6,9,LOAD,99,0", 7},
        {"6,3,LOAD,99,0", 8},
    };
    for (size_t i = 0; i < sizeof rows / sizeof rows[0]; i++) {
        snprintf(input, sizeof input, "%s%s", taken, rows[i].record);
        snprintf(due, sizeof due, LIST "1,SUCCESS,0,0" E "2,REFUSED,%d,0" E
                 "END,COMMITTED,1,0" E, rows[i].refusal);
        expect_text(input, due);
    }
}

static void grants(void)
{
    expect_text(HEAD
        "9,9,COMMIT,0,0" E "8,0,FOO,0,0" E "7,0,LOAD,16,0" E "0,0,COMMIT,0,0" E
        "0,0,COMMIT,0,0" E "1,0,COMMIT,0,0" E "9,4,COMMIT,0,0" E "2,0,COMMIT,0,0" E
        "2,0,COMMIT,0,0" E "1,0,COMMIT,0,0" E "4294967295,0,COMMIT,0,0" E
        "4294967295,0,COMMIT,0,0" E "0,0,COMMIT,0,0" E, LIST
        "1,REFUSED,7,0" E "2,REFUSED,6,0" E "3,REFUSED,8,0" E "4,SUCCESS,0,0" E
        "5,REFUSED,12,0" E "6,SUCCESS,0,0" E "7,REFUSED,7,0" E "8,SUCCESS,0,0" E
        "9,REFUSED,12,0" E "10,REFUSED,12,0" E "11,SUCCESS,0,0" E
        "12,REFUSED,12,0" E "13,REFUSED,12,0" E "END,COMMITTED,4,0" E);
    expect_text(HEAD
        "1,0,INTERRUPT,0,0" E "2,0,LT,0,0" E "2,0,COMMIT,0,0" E "3,0,COMMIT,0,0" E,
        LIST "1,DONE,0,0" E "2,ABORTED,0,0" E "3,REFUSED,12,0" E "4,FAILURE,0,0" E
        "END,COMMITTED,0,0" E);
}

static void machine_refused(void)
{
    struct listing listing = {0};
    static const char due[] = LIST "0,REFUSED,3,0" E "END,COMMITTED,0,0" E;
    text_refuse_machine(REFUSED_LINES, &listing);
    expect(listing.length == strlen(due) && memcmp(listing.bytes, due, strlen(due)) == 0,
           "got %.*s", (int)listing.length, listing.bytes);
    listing_free(&listing);
}

void text_suite(void)
{
    test("text: the worked example", worked_example);
    test("text: headers and refusal 13", headers);
    test("text: every instruction", every_instruction);
    test("text: five fields, none empty, else 11", fields);
    test("text: decimals, else 11", numbers);
    test("text: names, else 6", names);
    test("text: quote marks are 11", quotes);
    test("text: lone CR and LF are bytes of the record", lone_breaks);
    test("text: refusals 7 and 8", cores_and_words);
    test("text: order in a record", order);
    test("text: grants and refusal 12", grants);
    test("text: a refused machine", machine_refused);
}
