#include "lent.h"
#include "suites.h"

#define LINE(p, i) (STIRNFELD_REGULAR + STIRNFELD_STRIDE * (p) + (i))
#define ENTRY(p, i) (STIRNFELD_TRANSACTIONAL + STIRNFELD_STRIDE * (p) + (i))
#define COPY(state, tag, word, data)                                        \
    ((uint64_t)(state) << STIRNFELD_STATE_BIT |                             \
     (uint64_t)(tag) << STIRNFELD_TAG_BIT |                                 \
     (uint64_t)(word) << STIRNFELD_WORD_BIT | (data))
#define BIT(n) (UINT64_C(1) << (n))

struct wrong {
    const char *what;
    size_t place;
    uint64_t number;
};

static const struct wrong wrongs[] = {
    { "no processors", STIRNFELD_PROCESSORS, 0 },
    { "9 processors", STIRNFELD_PROCESSORS, 9 },
    { "2 processors and 2^32", STIRNFELD_PROCESSORS, BIT(32) + 2 },
    { "257 words", STIRNFELD_WORDS, 257 },
    { "4 words and 2^63", STIRNFELD_WORDS, BIT(63) + 4 },
    { "3 lines", STIRNFELD_LINES, 3 },
    { "no entries", STIRNFELD_ENTRIES, 0 },
    { "the place that is kept beside the dimensions", 4, 1 },
    { "a place past that", 15, 1 },
    { "a flag 2", STIRNFELD_TACTIVE, 2 },
    { "a flag 256, a byte of which is 0", STIRNFELD_TACTIVE + 1, 256 },
    { "a flag 257, a byte of which is 1", STIRNFELD_TSTATUS, 257 },
    { "a flag of a processor that is not there", STIRNFELD_TSTATUS + 2, 1 },
    { "a place past the flags", 32, 1 },
    { "a place below memory", STIRNFELD_MEMORY - 1, 1 },
    { "a word of 2^32", STIRNFELD_MEMORY + 3, BIT(32) },
    { "a word of 2^32 and what it was", STIRNFELD_MEMORY, BIT(32) + 10 },
    { "memory past the words", STIRNFELD_MEMORY + 4, 1 },
    { "memory's last place", STIRNFELD_MEMORY + 255, 1 },
    { "a bit past a line's", LINE(0, 0), BIT(44) },
    { "a bit past an entry's", ENTRY(1, 1), BIT(63) },
    { "a line that holds another's word", LINE(0, 0), COPY(STIRNFELD_DIRTY, 0, 1, 5) },
    { "a line of a word that is not there", LINE(1, 0), COPY(STIRNFELD_DIRTY, 0, 4, 5) },
    { "a line with a tag", LINE(1, 0), COPY(STIRNFELD_DIRTY, STIRNFELD_NORMAL, 0, 5) },
    { "a line that is INVALID and not 0", LINE(1, 0), 5 },
    { "VALID data other than memory's", LINE(1, 0), COPY(STIRNFELD_VALID, 0, 0, 5) },
    { "an entry with no tag", ENTRY(0, 0), COPY(STIRNFELD_DIRTY, 0, 1, 5) },
    { "an entry with no state", ENTRY(0, 0), COPY(0, STIRNFELD_NORMAL, 1, 5) },
    { "a tentative entry with TACTIVE 0", ENTRY(0, 0),
      COPY(STIRNFELD_VALID, STIRNFELD_TENTATIVE, 1, 11) },
    { "a backup alone", ENTRY(0, 0), COPY(STIRNFELD_VALID, STIRNFELD_BACKUP, 1, 11) },
    { "a line past the lines", LINE(0, 4), COPY(STIRNFELD_DIRTY, 0, 0, 5) },
    { "a line of a processor that is not there", LINE(2, 0), COPY(STIRNFELD_DIRTY, 0, 0, 5) },
    { "an entry past the entries", ENTRY(0, 2), COPY(STIRNFELD_DIRTY, STIRNFELD_NORMAL, 0, 5) },
    { "the first place past the entries", 1536, 1 },
    { "the last place kept for holders", 1791, 1 },
    { "the first spare place", 1792, BIT(63) },
    { "the last place", STIRNFELD_STATE - 1, 1 },
};

void for_each_unsound(void (*body)(const char *what))
{
    for (size_t k = 0; k < sizeof wrongs / sizeof *wrongs; k++) {
        uint64_t *place = &lent.state[wrongs[k].place];
        uint64_t right = *place;
        *place = wrongs[k].number;
        body(wrongs[k].what);
        *place = right;
    }
}
