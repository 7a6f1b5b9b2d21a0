#include "names.h"

#include <string.h>

#include "machine.h"

static const char *const instruction_names[INSTRUCTIONS] = {
    [LOAD] = "LOAD",     [STORE] = "STORE", [LT] = "LT",
    [LTX] = "LTX",       [ST] = "ST",       [COMMIT] = "COMMIT",
    [ABORT] = "ABORT",   [VALIDATE] = "VALIDATE",
    [INTERRUPT] = "INTERRUPT",
};

static const char *const answer_names[ANSWERS] = {
    [ANSWER_VALUE] = "VALUE",     [ANSWER_DONE] = "DONE",
    [ANSWER_SUCCESS] = "SUCCESS", [ANSWER_FAILURE] = "FAILURE",
    [ANSWER_TRUE] = "TRUE",       [ANSWER_FALSE] = "FALSE",
    [ANSWER_ABORTED] = "ABORTED", [ANSWER_REFUSED] = "REFUSED",
};

const char *instruction_name(uint32_t instruction)
{
    return instruction < INSTRUCTIONS ? instruction_names[instruction] : "?";
}

uint32_t instruction_named(const char *text, size_t length)
{
    uint32_t i = 0;
    while (i < INSTRUCTIONS && (strlen(instruction_names[i]) != length ||
                                memcmp(instruction_names[i], text, length) != 0))
        i++;
    return i;
}

const char *answer_name(uint32_t kind)
{
    return kind < ANSWERS ? answer_names[kind] : "?";
}
