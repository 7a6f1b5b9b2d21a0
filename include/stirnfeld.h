/* The proved replay machine, called from C or C++. Link
 * target/staticlib/libexports.a, which `tests/archive` makes; it is code for
 * x86-64 Linux.
 *
 * The whole machine is one array of 64-bit places, which the caller keeps. A call
 * copies it in, tests it and copies it out, and keeps nothing: calls on other
 * arrays may run at the same time. Later versions may use places that are 0 today;
 * they change neither the array's length nor a signature.
 *
 * Every array and every number has an answer. Only pointers are the caller's
 * affair: none is null, not even that of a column with no places, each has as many
 * places behind it as is said here, and what a call writes overlaps nothing else
 * that it is lent.
 *
 * Each function returns 0 or a refusal's number. It needs STIRNFELD_STACK bytes of
 * stack, takes no memory from the heap, and ends. */
#ifndef STIRNFELD_H
#define STIRNFELD_H

#include <stddef.h>
#include <stdint.h>

#ifdef __cplusplus
extern "C" {
#endif

/* ---- The state */

/* How many places it has, and how many bytes of stack a call on it needs. */
enum {
    STIRNFELD_STATE = 2048,
    STIRNFELD_STACK = 65536
};

/* What stands at which place. Any place that is not named here holds 0, and so
 * does a place of a word, line, entry or processor that the machine does not have:
 * memory past `words`, a line from `lines` on, all that is processor 5's where
 * there are 4.
 *
 * Places 4 to 15, 32 to 255 and 1536 to 2047 are kept for later versions. */
enum {
    STIRNFELD_PROCESSORS = 0,      /* how many: 1 to 8 */
    STIRNFELD_WORDS = 1,           /* 1 to 256 */
    STIRNFELD_LINES = 2,           /* of a processor: 1, 2, 4, 8, 16, 32 or 64 */
    STIRNFELD_ENTRIES = 3,         /* of a processor: 1 to 64 */
    STIRNFELD_TACTIVE = 16,        /* + p: TACTIVE of processor p, 0 or 1 */
    STIRNFELD_TSTATUS = 24,        /* + p: TSTATUS of processor p, 0 or 1 */
    STIRNFELD_MEMORY = 256,        /* + a: word a of memory, below 2^32 */
    STIRNFELD_REGULAR = 512,       /* + 64 p + i: regular line i of processor p */
    STIRNFELD_TRANSACTIONAL = 1024 /* + 64 p + i: transactional entry i of p */
};

/* From a processor's line or entry i to the next processor's. */
enum { STIRNFELD_STRIDE = 64 };

/* A line or an entry holds a copy of a word, or nothing. A copy is its data in bits
 * 0 to 31, its word in 32 to 39, its tag in 40 and 41 and its state in 42 and 43;
 * bits 44 to 63 are 0. The tag of a line is 0. What holds nothing is 0. */
enum {
    STIRNFELD_WORD_BIT = 32,
    STIRNFELD_TAG_BIT = 40,
    STIRNFELD_STATE_BIT = 42
};

/* States of a copy, ascending. */
enum {
    STIRNFELD_INVALID,
    STIRNFELD_VALID,
    STIRNFELD_RESERVED,
    STIRNFELD_DIRTY
};

/* Tags of an entry. BACKUP is the paper's COMMIT, TENTATIVE its ABORT. */
enum {
    STIRNFELD_NORMAL = 1,
    STIRNFELD_BACKUP,
    STIRNFELD_TENTATIVE
};

/* A state is sound where all of this holds. stirnfeld_make writes such a state, and
 * every step leads to another one. Any other array is refused as 9.
 *
 * - Dimensions, flags and memory are in range, and what must be 0 is 0, as above.
 * - A copy is of a word that there is, and line i holds only words a with
 *   a % lines == i.
 * - An entry has both a tag and a state or is 0. A line has a state or is 0.
 * - A processor has a word in at most one of: its line, a NORMAL entry, a tentative
 *   entry. It has at most one backup of a word, and only beside a tentative entry
 *   of that word.
 * - A processor with a tentative entry has TACTIVE 1 and TSTATUS 1.
 * - Where a copy is RESERVED or DIRTY, no other processor has a copy of its word.
 * - The data of a VALID or RESERVED copy are what memory has.
 * - A backup's state is not above its tentative entry's. */

/* ---- Steps, answers, refusals */

/* Steps, as ops holds them. LOAD to ST use a word, STORE and ST also a value. */
enum {
    STIRNFELD_LOAD,
    STIRNFELD_STORE,
    STIRNFELD_LT,
    STIRNFELD_LTX,
    STIRNFELD_ST,
    STIRNFELD_COMMIT,
    STIRNFELD_ABORT,
    STIRNFELD_VALIDATE,
    STIRNFELD_INTERRUPT
};

/* Answers, as numbers holds them. The result of each but VALUE is 0. */
enum {
    STIRNFELD_VALUE,
    STIRNFELD_DONE,
    STIRNFELD_SUCCESS,
    STIRNFELD_FAILURE,
    STIRNFELD_TRUE,
    STIRNFELD_FALSE,
    STIRNFELD_ABORTED
};

/* Refusals, in the order in which they are tried. */
enum {
    STIRNFELD_ACCEPTED = 0,
    STIRNFELD_BAD_PROCESSORS = 1, /* not 1 to 8 */
    STIRNFELD_BAD_WORDS = 2,      /* not 1 to 256 */
    STIRNFELD_BAD_LINES = 3,      /* not 1, 2, 4, 8, 16, 32 or 64 */
    STIRNFELD_BAD_ENTRIES = 4,    /* not 1 to 64 */
    STIRNFELD_BAD_INITIAL = 5,    /* initial is not exactly `words` long */
    STIRNFELD_NOT_SOUND = 9,      /* the array is no sound state */
    STIRNFELD_BAD_COLUMNS = 10,   /* columns differ in length, or exceed 65,536 */
    STIRNFELD_NO_STEP = 6,        /* a step number above 8 */
    STIRNFELD_NO_PROCESSOR = 7,   /* no such processor */
    STIRNFELD_NO_WORD = 8         /* a used word is out of range */
};

/* A step's number and its core are bytes. C makes 0 of a 256 that is stored in a
 * byte, without a word: LOAD, or core 0. Where yours are wider, store what this
 * makes of them: 255 of all that no byte holds, which is no step and no core, and
 * so is refused. */
static inline uint8_t stirnfeld_byte(uint64_t number)
{
    return number < 255 ? (uint8_t)number : 255;
}

/* ---- The functions */

/* Writes a fresh machine's state: caches empty, TACTIVE 0, TSTATUS 1, and the memory
 * `initial`. Returns 0; or 1 to 5, and the array is as before. What it holds before
 * does not matter. */
uint8_t stirnfeld_make(
    size_t processors, size_t words, size_t lines, size_t entries,
    const uint32_t *initial, size_t initial_length,
    uint64_t state[STIRNFELD_STATE]);

/* What a step is answered: the answer's number, the result, then the cycles of the
 * six kinds READ, RFO, WRITE, T_READ, T_RFO and BUSY. */
enum { STIRNFELD_TOLD = 8 };

/* Takes one step; an unused word or value is ignored. Returns 0; or 9, 6, 7 or 8,
 * and the state and `told` are as before. */
uint8_t stirnfeld_step(
    uint64_t state[STIRNFELD_STATE],
    uint8_t op, uint8_t core, uint32_t word, uint32_t value,
    uint32_t told[STIRNFELD_TOLD]);

/* The longest run. */
enum { STIRNFELD_STEPS = 65536 };

/* Takes the steps of the columns ops, cores, used_words and values in turn. What
 * step i is answered goes to place i of the columns numbers to busies, the number of
 * steps taken to *taken. A length is in places. The state is tested once: a run of
 * n steps costs less than n single ones.
 *
 * Returns 0: every step was taken. 9 or 10: none was, *taken is 0, and the rest
 * is as before. 6, 7 or 8: step *taken, counted from 0, was refused; the state is
 * what the steps before it left, and places from it on are as before. */
uint8_t stirnfeld_run(
    uint64_t state[STIRNFELD_STATE],
    const uint8_t *ops, size_t ops_length,
    const uint8_t *cores, size_t cores_length,
    const uint32_t *used_words, size_t used_words_length,
    const uint32_t *values, size_t values_length,
    uint8_t *numbers, size_t numbers_length,
    uint32_t *results, size_t results_length,
    uint32_t *reads, size_t reads_length,
    uint32_t *rfos, size_t rfos_length,
    uint32_t *writes, size_t writes_length,
    uint32_t *t_reads, size_t t_reads_length,
    uint32_t *t_rfos, size_t t_rfos_length,
    uint32_t *busies, size_t busies_length,
    size_t *taken);

/* Returns 0 where the state is sound, else 9. */
uint8_t stirnfeld_sound(const uint64_t state[STIRNFELD_STATE]);

/* A place for every word that a machine can have. */
enum { STIRNFELD_SETTLED = 256 };

/* The settled value of word a goes to settled[a]: the data of its DIRTY regular,
 * NORMAL or backup copy, else memory's. Places from `words` on become 0. Returns 0;
 * or 9, and `settled` is as before. */
uint8_t stirnfeld_settle(
    const uint64_t state[STIRNFELD_STATE],
    uint32_t settled[STIRNFELD_SETTLED]);

/* ---- The same with a type for each column
 *
 * Say once, where a column is made, which one it is. From there on columns that are
 * mixed up do not compile. */

typedef struct { const uint8_t *at; size_t length; } stirnfeld_ops;
typedef struct { const uint8_t *at; size_t length; } stirnfeld_cores;
typedef struct { const uint32_t *at; size_t length; } stirnfeld_used_words;
typedef struct { const uint32_t *at; size_t length; } stirnfeld_values;

typedef struct { uint8_t *at; size_t length; } stirnfeld_numbers;
typedef struct { uint32_t *at; size_t length; } stirnfeld_results;
typedef struct { uint32_t *at; size_t length; } stirnfeld_reads;
typedef struct { uint32_t *at; size_t length; } stirnfeld_rfos;
typedef struct { uint32_t *at; size_t length; } stirnfeld_writes;
typedef struct { uint32_t *at; size_t length; } stirnfeld_t_reads;
typedef struct { uint32_t *at; size_t length; } stirnfeld_t_rfos;
typedef struct { uint32_t *at; size_t length; } stirnfeld_busies;

/* The columns that a run reads. */
typedef struct {
    stirnfeld_ops ops;
    stirnfeld_cores cores;
    stirnfeld_used_words used_words;
    stirnfeld_values values;
} stirnfeld_steps;

/* The columns that it writes. */
typedef struct {
    stirnfeld_numbers numbers;
    stirnfeld_results results;
    stirnfeld_reads reads;
    stirnfeld_rfos rfos;
    stirnfeld_writes writes;
    stirnfeld_t_reads t_reads;
    stirnfeld_t_rfos t_rfos;
    stirnfeld_busies busies;
} stirnfeld_answers;

/* stirnfeld_run. */
static inline uint8_t stirnfeld_run_columns(
    uint64_t state[STIRNFELD_STATE],
    stirnfeld_steps steps, stirnfeld_answers answers, size_t *taken)
{
    return stirnfeld_run(
        state,
        steps.ops.at, steps.ops.length,
        steps.cores.at, steps.cores.length,
        steps.used_words.at, steps.used_words.length,
        steps.values.at, steps.values.length,
        answers.numbers.at, answers.numbers.length,
        answers.results.at, answers.results.length,
        answers.reads.at, answers.reads.length,
        answers.rfos.at, answers.rfos.length,
        answers.writes.at, answers.writes.length,
        answers.t_reads.at, answers.t_reads.length,
        answers.t_rfos.at, answers.t_rfos.length,
        answers.busies.at, answers.busies.length,
        taken);
}

/* One step, by the names of its fields. A number or core that no byte holds is
 * refused, as stirnfeld_byte says. */
typedef struct {
    uint32_t op;
    uint32_t core;
    uint32_t word;
    uint32_t value;
} stirnfeld_one_step;

/* What it is answered. */
typedef struct {
    uint32_t number;
    uint32_t result;
    uint32_t reads;
    uint32_t rfos;
    uint32_t writes;
    uint32_t t_reads;
    uint32_t t_rfos;
    uint32_t busies;
} stirnfeld_answer;

/* stirnfeld_step. */
static inline uint8_t stirnfeld_step_fields(
    uint64_t state[STIRNFELD_STATE],
    stirnfeld_one_step step, stirnfeld_answer *answer)
{
    uint32_t told[STIRNFELD_TOLD];
    uint8_t refusal = stirnfeld_step(
        state, stirnfeld_byte(step.op), stirnfeld_byte(step.core),
        step.word, step.value, told);
    if (refusal != STIRNFELD_ACCEPTED)
        return refusal;
    answer->number = told[0];
    answer->result = told[1];
    answer->reads = told[2];
    answer->rfos = told[3];
    answer->writes = told[4];
    answer->t_reads = told[5];
    answer->t_rfos = told[6];
    answer->busies = told[7];
    return STIRNFELD_ACCEPTED;
}

#ifdef __cplusplus
}
#endif

#endif
