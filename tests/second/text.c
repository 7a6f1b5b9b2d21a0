#include "text.h"

#include <inttypes.h>
#include <stdarg.h>
#include <stdbool.h>
#include <stdio.h>
#include <stdlib.h>
#include <string.h>

#include "decimal.h"
#include "names.h"

enum { RECORD_LIMIT = 64, FIELDS = 5, LISTING_LINE = 64 };

static const char header[] = "grant,core,op,word,value";

struct span {
    const char *bytes;
    size_t length;
};

struct record {
    uint32_t grant;
    uint32_t core;
    uint32_t instruction;
    uint32_t word;
    uint32_t value;
};

struct replay {
    struct machine *machine;
    struct listing *listing;
    bool any_taken;
    uint32_t last_grant;
    uint64_t committed;
    uint64_t cycles;
};

static void reserve(struct listing *listing, size_t more)
{
    if (listing->capacity - listing->length >= more)
        return;
    listing->capacity = 2 * listing->capacity + more;
    listing->bytes = realloc(listing->bytes, listing->capacity);
    if (listing->bytes == NULL)
        abort();
}

__attribute__((format(printf, 2, 3)))
static void put(struct listing *listing, const char *format, ...)
{
    va_list arguments;
    reserve(listing, LISTING_LINE);
    va_start(arguments, format);
    int length = vsnprintf(listing->bytes + listing->length, LISTING_LINE, format,
                           arguments);
    va_end(arguments);
    listing->length += (size_t)length;
}

static void put_header(struct listing *listing)
{
    put(listing, "record,answer,value,bus\r\n");
}

static void put_refusal(struct listing *listing, uint64_t number, enum refusal refusal)
{
    put(listing, "%" PRIu64 ",REFUSED,%d,0\r\n", number, (int)refusal);
}

static void put_end(struct listing *listing, uint64_t committed, uint64_t cycles)
{
    put(listing, "END,COMMITTED,%" PRIu64 ",%" PRIu64 "\r\n", committed, cycles);
}

/* The bytes up to the next CRLF or the end; *next moves past both. */
static struct span take_line(const char *input, size_t length, size_t *next)
{
    size_t start = *next;
    size_t at = start;
    const char *cr;
    while ((cr = memchr(input + at, '\r', length - at)) != NULL) {
        at = (size_t)(cr - input) + 1;
        if (at < length && input[at] == '\n') {
            *next = at + 1;
            return (struct span){input + start, at - 1 - start};
        }
    }
    *next = length;
    return (struct span){input + start, length - start};
}

static bool split(struct span text, struct span fields[FIELDS])
{
    size_t count = 0;
    size_t start = 0;
    for (size_t i = 0; i <= text.length; i++) {
        if (i < text.length && text.bytes[i] != ',')
            continue;
        if (count == FIELDS)
            return false;
        fields[count++] = (struct span){text.bytes + start, i - start};
        start = i + 1;
    }
    return count == FIELDS;
}

static bool number_in(struct span field, uint32_t *number)
{
    return decimal_parse(field.bytes, field.length, number);
}

/* Refusals 11 and 6. */
static enum refusal read_record(struct span text, struct record *record)
{
    struct span fields[FIELDS];
    if (text.length > RECORD_LIMIT || memchr(text.bytes, '"', text.length) != NULL ||
        !split(text, fields))
        return REFUSED_RECORD;
    if (!number_in(fields[0], &record->grant) || !number_in(fields[1], &record->core) ||
        !number_in(fields[3], &record->word) || !number_in(fields[4], &record->value))
        return REFUSED_RECORD;
    record->instruction = instruction_named(fields[2].bytes, fields[2].length);
    return record->instruction == INSTRUCTIONS ? REFUSED_STEP : NOT_REFUSED;
}

static uint32_t sum_of(const struct answer *answer)
{
    uint32_t sum = 0;
    for (int i = 0; i < CYCLES; i++)
        sum += answer->counts[i];
    return sum;
}

static void take_record(struct replay *replay, uint64_t number,
                        const struct record *record)
{
    struct answer answer =
        machine_step(replay->machine, record->instruction, record->core,
                     record->word, record->value);
    if (answer.kind == ANSWER_REFUSED) {
        put_refusal(replay->listing, number, answer.refusal);
        return;
    }
    uint32_t bus = sum_of(&answer);
    replay->any_taken = true;
    replay->last_grant = record->grant;
    replay->committed += answer.kind == ANSWER_SUCCESS;
    replay->cycles += bus;
    put(replay->listing, "%" PRIu64 ",%s,%" PRIu32 ",%" PRIu32 "\r\n", number,
        answer_name(answer.kind), answer.value, bus);
}

static void replay_record(struct replay *replay, uint64_t number, struct span text)
{
    struct record record;
    enum refusal refusal = read_record(text, &record);
    if (refusal == NOT_REFUSED && replay->any_taken &&
        record.grant <= replay->last_grant)
        refusal = REFUSED_GRANT;
    if (refusal != NOT_REFUSED)
        put_refusal(replay->listing, number, refusal);
    else
        take_record(replay, number, &record);
}

static void replay_records(struct replay *replay, const char *input, size_t length,
                           size_t next)
{
    for (uint64_t number = 1; next < length; number++) {
        struct span text = take_line(input, length, &next);
        if (next > TEXT_LIMIT) {
            put_refusal(replay->listing, number, REFUSED_LENGTH);
            return;
        }
        replay_record(replay, number, text);
    }
}

void text_replay(struct machine *machine, const char *input, size_t length,
                 struct listing *listing)
{
    struct replay replay = {.machine = machine, .listing = listing};
    size_t next = 0;
    put_header(listing);
    struct span first = take_line(input, length, &next);
    if (first.length == strlen(header) &&
        memcmp(first.bytes, header, first.length) == 0)
        replay_records(&replay, input, length, next);
    else
        put_refusal(listing, 0, REFUSED_HEADER);
    put_end(listing, replay.committed, replay.cycles);
}

void text_refuse_machine(enum refusal refusal, struct listing *listing)
{
    put_header(listing);
    put_refusal(listing, 0, refusal);
    put_end(listing, 0, 0);
}

void listing_free(struct listing *listing)
{
    free(listing->bytes);
    *listing = (struct listing){0};
}
