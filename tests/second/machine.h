/* The replay machine of document 01: its dimensions, its state, its steps. */
#ifndef MACHINE_H
#define MACHINE_H

#include <stddef.h>
#include <stdint.h>

enum { MAX_PROCESSORS = 8, MAX_WORDS = 256, MAX_LINES = 64, MAX_ENTRIES = 64 };

/* Ascending, as 'Sound states' compares them. */
enum line_state { INVALID, VALID, RESERVED, DIRTY };

/* The document's tags INVALID, NORMAL, COMMIT (a backup), ABORT (tentative). */
enum tag { NO_TAG, NORMAL, BACKUP, TENTATIVE };

enum instruction {
    LOAD, STORE, LT, LTX, ST, COMMIT, ABORT, VALIDATE, INTERRUPT, INSTRUCTIONS
};

enum cycle { READ, RFO, WRITE, T_READ, T_RFO, BUSY, CYCLES };

enum answer_kind {
    ANSWER_VALUE, ANSWER_DONE, ANSWER_SUCCESS, ANSWER_FAILURE,
    ANSWER_TRUE, ANSWER_FALSE, ANSWER_ABORTED, ANSWER_REFUSED, ANSWERS
};

enum refusal {
    NOT_REFUSED = 0,
    REFUSED_PROCESSORS = 1,
    REFUSED_WORDS = 2,
    REFUSED_LINES = 3,
    REFUSED_ENTRIES = 4,
    REFUSED_MEMORY = 5,
    REFUSED_STEP = 6,
    REFUSED_CORE = 7,
    REFUSED_WORD = 8,
    REFUSED_STATE = 9,
    REFUSED_COLUMNS = 10,
    REFUSED_RECORD = 11,
    REFUSED_GRANT = 12,
    REFUSED_HEADER = 13,
    REFUSED_LENGTH = 14
};

struct dimensions {
    uint32_t processors;
    uint32_t words;
    uint32_t lines;
    uint32_t entries;
};

struct line {
    uint32_t data;
    uint16_t word;
    uint16_t state;
};

struct entry {
    uint32_t data;
    uint16_t word;
    uint8_t state;
    uint8_t tag;
};

struct processor {
    struct line lines[MAX_LINES];
    struct entry entries[MAX_ENTRIES];
    uint8_t tactive;
    uint8_t tstatus;
};

/* Every field is wide enough to hold values that are out of range, so that a
 * state handed in can be wrong; machine_sound tells. What lies beyond the
 * dimensions is storage and no part of the state. */
struct machine {
    struct dimensions dimensions;
    uint32_t memory[MAX_WORDS];
    struct processor processors[MAX_PROCESSORS];
};

struct answer {
    uint32_t value;
    uint8_t kind;
    uint8_t refusal;
    uint8_t counts[CYCLES];
};

/* Refusals 1 to 4, or NOT_REFUSED. */
enum refusal dimensions_refusal(const struct dimensions *dimensions);

/* A fresh machine; refusals 1 to 5 leave *machine as it was. */
enum refusal machine_make(struct machine *machine, struct dimensions dimensions,
                          const uint32_t *memory, size_t memory_length);

/* One step on a sound state; refusals 6, 7, 8 leave *machine as it was. */
struct answer machine_step(struct machine *machine, uint32_t instruction,
                           uint32_t core, uint32_t word, uint32_t value);

/* The settled value of a word in range, in a sound state. */
uint32_t machine_settled(const struct machine *machine, uint32_t word);

#endif
