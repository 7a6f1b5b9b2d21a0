#include "odd.h"

#include <string.h>

#include "machine.h"
#include "names.h"
#include "write.h"

#define LIST(name, ...)                                     \
    static const char *const name##_texts[] = {__VA_ARGS__}; \
    const struct odd name = {name##_texts, sizeof name##_texts / sizeof *name##_texts}

LIST(odd_headers, "", " ", "g", "grant", "grant,core,op,word", "grant,core,op,word,",
     "grant,core,op,word,valu", "grant,core,op,word,values", "grant,core,op,word,value ",
     " grant,core,op,word,value", "grant, core,op,word,value", "grant,core,op,word,value,",
     "grant,core,op,word,value,x", "Grant,core,op,word,value", "GRANT,CORE,OP,WORD,VALUE",
     "grant,core,op,word,Value", "\"grant\",core,op,word,value",
     "\"grant,core,op,word,value\"", "grant,core,op,word,value\"", "grant;core;op;word;value",
     "core,grant,op,word,value", "grant,core,step,word,value", "grant,core,op,word,value\n",
     "grant,core,op,word,value\r", "\r", "\n", "\n" HEADER, "\r" HEADER, "\n\r", CRLF HEADER,
     "\xef\xbb\xbf" HEADER, "1,0,COMMIT,0,0", "record,answer,value,bus", HEADER HEADER,
     "grant,core,op,word,valuegrant,core,op,word,value", "grant,core,\rop,word,value",
     "grant,core,op" CRLF ",word,value", "grantcoreopwordvalue", ",,,,");

LIST(odd_numbers, "", "0", "00", "01", "000", "007", "9", "10", "99", "255", "256", "257", "65535",
     "65536", "999999999", "1000000000", "2147483647", "2147483648", "4294967285",
     "4294967294", "4294967295", "4294967296", "4294967297", "4294967299", "4294967300",
     "4294967305", "4294967395", "4294968295", "4394967295", "5294967295", "04294967295",
     "9999999999", "10000000000", "42949672950", "42949672960", "18446744073709551615",
     "18446744073709551616", "18446744073709551617", "99999999999999999999",
     "340282366920938463463374607431768211456", "000000000000000000000000000001", "-0", "-1",
     "+0", "+1", " 0", "0 ", " ", "\t1", "1\t", "1 2", "1.0", "1e3", "0x1", "1_0", "x", "a",
     "A", "/", ":", ";", "\"", "\"0\"", "\"1", "1\"", "\"\"", "'1'", "\r", "\n", "1\r", "1\n",
     "\r1", "\n1", "\n\r", "\xff", "1\x80", "\xc2\xb2", "\x7f", "LOAD");

LIST(odd_names, "", " ", "L", "S", "LO", "LOA", "LOADS", "LOAD ", " LOAD", "load", "Load",
     "LOAd", "lOAD", "STOR", "STORES", "STO", "store", "LTXX", "LXT", "TL", "lt", "ltx", "Lt",
     "STT", "st", "T", "X", "COMMI", "COMMITT", "commit", "COMMIT ", " COMMIT", "C0MMIT",
     "ABOR", "ABORTED", "abort", "VALIDAT", "VALIDATED", "validate", "INTERRUP", "INTERRUPTS",
     "interrupt", "0", "1", "5", "8", "9", "255", "READ", "RFO", "WRITE", "T_READ", "BUSY", "VALUE",
     "DONE", "END", "\r", "\n", "\n\r", "LOAD\r", "LOAD\n", "\nLOAD", "\rLOAD", "LO\rAD",
     "LO\nAD", "\"", "\"LOAD\"", "\"LOAD", "LOAD\"", "LO\"AD", "'LOAD'", "\"LO" CRLF "AD\"",
     "LOAD\xff", "\xffLOAD", "\xcc\xcf\xc1\xc4", "LOAD;", "LOAD\t", "LTLT", "LTST", "LT LTX");

LIST(odd_ends, "", "\r", "\n", "\n\r", "\r\r\n", "\r\n\r\n", "\r\n\n", "\r\n\r", "\n\n", "\r\r",
     "\n\r\n", "\r\n \r\n", " \r\n", ",\r\n", "\"\r\n", "\"\r\n\"\r\n", "\r\r\r\n", "\t\r\n");

LIST(odd_records, "", " ", ",", ",,", ",,,", ",,,,", ",,,,,", ",,,,,,,,,", "0", "1,0", "1,0,COMMIT",
     "1,0,COMMIT,0", "1,0,COMMIT,0,", "1,0,COMMIT,,0", "1,,COMMIT,0,0", ",0,COMMIT,0,0",
     "1,0,,0,0", "1,0,COMMIT,0,0,", ",1,0,COMMIT,0,0", "1,0,COMMIT,0,0,0", "1,,0,COMMIT,0,0",
     "1;0;COMMIT;0;0", "1 0 COMMIT 0 0", "1,0,COMMIT;0,0", "\"1,0,COMMIT,0,0\"",
     "\"1\",\"0\",\"COMMIT\",\"0\",\"0\"", "1,0,\"COMMIT,0\",0,0", "1,0,\"COM" CRLF "MIT\",0,0",
     HEADER, "record,answer,value,bus", "END,COMMITTED,0,0", "COMMIT,1,0,0,0", "#", "\x1a");

void write_odd(struct job *job, struct dice *dice, const struct odd *odd)
{
    write_text(job, odd->texts[roll_below(dice, (uint32_t)odd->length)]);
}

void write_digits(struct job *job, struct dice *dice)
{
    for (uint32_t left = roll_from(dice, 1, 24); left > 0; left--)
        write_run(job, (char)('0' + roll_below(dice, 10)), 1);
}

void write_wrong_name(struct job *job, struct dice *dice)
{
    char name[16];
    strcpy(name, instruction_name(roll_below(dice, INSTRUCTIONS)));
    size_t length = strlen(name);
    switch (roll_below(dice, 4)) {
    case 0: name[roll_below(dice, (uint32_t)length)] ^= 'a' ^ 'A'; break;
    case 1: length -= roll_from(dice, 1, (uint32_t)length); break;
    case 2: name[length++] = (char)roll(dice); break;
    default: name[roll_below(dice, (uint32_t)length)] = (char)roll(dice); break;
    }
    write_bytes(job, name, length);
}

void write_record_of_length(struct job *job, size_t length)
{
    static const char before[] = "1,0,", after[] = ",0,0";
    size_t rest = strlen(before) + strlen(after);
    write_text(job, before);
    write_run(job, 'A', length > rest ? length - rest : 0);
    write_text(job, after);
}
