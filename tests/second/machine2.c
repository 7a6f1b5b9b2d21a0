/* A driver for comparing whole states: commands in, results out, a line each.
 * README.md describes the commands. */
#include <inttypes.h>
#include <stdbool.h>
#include <stdio.h>
#include <stdlib.h>
#include <string.h>

#include "decimal.h"
#include "names.h"
#include "run.h"
#include "sound.h"

/* One more than a run may have, so that the limit can be passed. */
enum { MAX_NUMBERS = RUN_LIMIT + 1, UNTOUCHED = 0xff };

struct numbers {
    size_t length;
    uint32_t items[MAX_NUMBERS];
};

struct driver {
    struct machine machine;
    bool known_sound; /* made or checked, and since then only stepped */
    struct numbers steps;
    struct numbers cores;
    struct numbers words;
    struct numbers values;
    size_t places;
    struct answer answers[MAX_NUMBERS];
    struct numbers arguments;
};

/* False when the numbers given do not suit the command. */
typedef bool command(struct driver *driver);

static bool arguments_are(const struct driver *driver, size_t length)
{
    return driver->arguments.length == length;
}

static void print_refused(enum refusal refusal)
{
    printf("refused %d\n", (int)refusal);
}

static bool is_sound(struct driver *driver)
{
    if (!driver->known_sound)
        driver->known_sound = machine_sound(&driver->machine);
    return driver->known_sound;
}

static struct dimensions dimensions_in(const uint32_t *numbers)
{
    return (struct dimensions){numbers[0], numbers[1], numbers[2], numbers[3]};
}

static bool command_make(struct driver *driver)
{
    const struct numbers *given = &driver->arguments;
    if (given->length < 4)
        return false;
    enum refusal refusal = machine_make(&driver->machine, dimensions_in(given->items),
                                        given->items + 4, given->length - 4);
    if (refusal == NOT_REFUSED) {
        driver->known_sound = true;
        printf("ok\n");
    } else {
        print_refused(refusal);
    }
    return true;
}

static bool command_state(struct driver *driver)
{
    if (!arguments_are(driver, 4))
        return false;
    driver->known_sound = false;
    memset(&driver->machine, 0, sizeof driver->machine);
    driver->machine.dimensions = dimensions_in(driver->arguments.items);
    for (uint32_t p = 0; p < MAX_PROCESSORS; p++)
        driver->machine.processors[p].tstatus = true;
    return true;
}

static bool command_memory(struct driver *driver)
{
    const struct numbers *given = &driver->arguments;
    if (given->length > MAX_WORDS)
        return false;
    driver->known_sound = false;
    memcpy(driver->machine.memory, given->items, given->length * sizeof *given->items);
    return true;
}

/* A number too large for its field is out of range there in any case, and the
 * largest the field can hold is out of range too. */
static uint32_t clamp(uint32_t number, uint32_t most)
{
    return number < most ? number : most;
}

static bool command_flags(struct driver *driver)
{
    const uint32_t *n = driver->arguments.items;
    if (!arguments_are(driver, 3) || n[0] >= MAX_PROCESSORS)
        return false;
    driver->known_sound = false;
    struct processor *processor = &driver->machine.processors[n[0]];
    processor->tactive = clamp(n[1], UINT8_MAX);
    processor->tstatus = clamp(n[2], UINT8_MAX);
    return true;
}

static bool command_line(struct driver *driver)
{
    const uint32_t *n = driver->arguments.items;
    if (!arguments_are(driver, 5) || n[0] >= MAX_PROCESSORS || n[1] >= MAX_LINES)
        return false;
    driver->known_sound = false;
    driver->machine.processors[n[0]].lines[n[1]] = (struct line){
        .state = clamp(n[2], UINT16_MAX),
        .word = clamp(n[3], UINT16_MAX),
        .data = n[4]};
    return true;
}

static bool command_entry(struct driver *driver)
{
    const uint32_t *n = driver->arguments.items;
    if (!arguments_are(driver, 6) || n[0] >= MAX_PROCESSORS || n[1] >= MAX_ENTRIES)
        return false;
    driver->known_sound = false;
    driver->machine.processors[n[0]].entries[n[1]] = (struct entry){
        .state = clamp(n[2], UINT8_MAX),
        .tag = clamp(n[3], UINT8_MAX),
        .word = clamp(n[4], UINT16_MAX),
        .data = n[5]};
    return true;
}

static bool command_end(struct driver *driver)
{
    return arguments_are(driver, 0);
}

static bool command_sound(struct driver *driver)
{
    if (!arguments_are(driver, 0))
        return false;
    if (is_sound(driver))
        printf("sound\n");
    else
        print_refused(REFUSED_STATE);
    return true;
}

static void print_answer(const struct answer *answer)
{
    printf("%s", answer_name(answer->kind));
    if (answer->kind == ANSWER_REFUSED)
        printf(" %d", answer->refusal);
    printf(" %" PRIu32, answer->value);
    for (int i = 0; i < CYCLES; i++)
        printf(" %d", answer->counts[i]);
    printf("\n");
}

static bool command_step(struct driver *driver)
{
    const uint32_t *n = driver->arguments.items;
    if (!arguments_are(driver, 4))
        return false;
    struct answer answer = {.kind = ANSWER_REFUSED, .refusal = REFUSED_STATE};
    if (is_sound(driver))
        answer = machine_step(&driver->machine, n[0], n[1], n[2], n[3]);
    print_answer(&answer);
    return true;
}

static bool command_settled(struct driver *driver)
{
    if (!arguments_are(driver, 1))
        return false;
    uint32_t word = driver->arguments.items[0];
    if (!is_sound(driver))
        print_refused(REFUSED_STATE);
    else if (word >= driver->machine.dimensions.words)
        print_refused(REFUSED_WORD);
    else
        printf("settled %" PRIu32 "\n", machine_settled(&driver->machine, word));
    return true;
}

static bool lend(struct driver *driver, struct numbers *column)
{
    column->length = driver->arguments.length;
    memcpy(column->items, driver->arguments.items,
           column->length * sizeof *column->items);
    return true;
}

static bool command_steps(struct driver *driver) { return lend(driver, &driver->steps); }
static bool command_cores(struct driver *driver) { return lend(driver, &driver->cores); }
static bool command_words(struct driver *driver) { return lend(driver, &driver->words); }
static bool command_values(struct driver *driver) { return lend(driver, &driver->values); }

static bool command_places(struct driver *driver)
{
    if (!arguments_are(driver, 1) || driver->arguments.items[0] > MAX_NUMBERS)
        return false;
    driver->places = driver->arguments.items[0];
    return true;
}

static bool untouched(const struct answer *answer)
{
    const unsigned char *bytes = (const unsigned char *)answer;
    for (size_t i = 0; i < sizeof *answer; i++)
        if (bytes[i] != UNTOUCHED)
            return false;
    return true;
}

static bool command_run(struct driver *driver)
{
    if (!arguments_are(driver, 0))
        return false;
    memset(driver->answers, UNTOUCHED, driver->places * sizeof *driver->answers);
    struct run run = machine_run(&driver->machine, &(struct columns){
        driver->steps.items, driver->cores.items, driver->words.items,
        driver->values.items, driver->answers,
        driver->steps.length, driver->cores.length, driver->words.length,
        driver->values.length, driver->places});
    printf("run %d %zu\n", (int)run.refusal, run.taken);
    size_t written = driver->places;
    while (written > 0 && untouched(&driver->answers[written - 1]))
        written--;
    for (size_t i = 0; i < written; i++)
        print_answer(&driver->answers[i]);
    printf("kept %zu\n", driver->places - written);
    return true;
}

static void dump_processor(const struct machine *machine, uint32_t p)
{
    const struct processor *processor = &machine->processors[p];
    printf("flags %" PRIu32 " %d %d\n", p, processor->tactive, processor->tstatus);
    for (uint32_t i = 0; i < machine->dimensions.lines; i++) {
        const struct line *line = &processor->lines[i];
        if (line->state != 0 || line->word != 0 || line->data != 0)
            printf("line %" PRIu32 " %" PRIu32 " %d %d %" PRIu32 "\n", p, i,
                   line->state, line->word, line->data);
    }
    for (uint32_t i = 0; i < machine->dimensions.entries; i++) {
        const struct entry *entry = &processor->entries[i];
        if (entry->state != 0 || entry->tag != 0 || entry->word != 0 || entry->data != 0)
            printf("entry %" PRIu32 " %" PRIu32 " %d %d %d %" PRIu32 "\n", p, i,
                   entry->state, entry->tag, entry->word, entry->data);
    }
}

static bool command_dump(struct driver *driver)
{
    const struct machine *machine = &driver->machine;
    const struct dimensions *d = &machine->dimensions;
    if (!arguments_are(driver, 0) || d->processors > MAX_PROCESSORS ||
        d->words > MAX_WORDS || d->lines > MAX_LINES || d->entries > MAX_ENTRIES)
        return false;
    printf("state %" PRIu32 " %" PRIu32 " %" PRIu32 " %" PRIu32 "\n", d->processors,
           d->words, d->lines, d->entries);
    printf("memory");
    for (uint32_t w = 0; w < d->words; w++)
        printf(" %" PRIu32, machine->memory[w]);
    printf("\n");
    for (uint32_t p = 0; p < d->processors; p++)
        dump_processor(machine, p);
    printf("end\n");
    return true;
}

static const struct {
    const char *name;
    command *act;
} commands[] = {
    {"step", command_step},     {"dump", command_dump},     {"make", command_make},
    {"state", command_state},   {"memory", command_memory}, {"flags", command_flags},
    {"line", command_line},     {"entry", command_entry},   {"end", command_end},
    {"sound", command_sound},   {"settled", command_settled},
    {"steps", command_steps},   {"cores", command_cores},   {"words", command_words},
    {"values", command_values}, {"places", command_places}, {"run", command_run},
};

static command *command_named(const char *name, size_t length)
{
    for (size_t i = 0; i < sizeof commands / sizeof commands[0]; i++)
        if (strlen(commands[i].name) == length &&
            memcmp(commands[i].name, name, length) == 0)
            return commands[i].act;
    return NULL;
}

static bool read_arguments(struct numbers *arguments, const char *text)
{
    arguments->length = 0;
    for (text += strspn(text, " "); *text != '\0'; text += strspn(text, " ")) {
        size_t length = strcspn(text, " ");
        if (arguments->length == MAX_NUMBERS ||
            !decimal_parse(text, length, &arguments->items[arguments->length]))
            return false;
        arguments->length++;
        text += length;
    }
    return true;
}

static bool obey(struct driver *driver, const char *text)
{
    size_t length = strcspn(text, " ");
    command *act = command_named(text, length);
    return act != NULL && read_arguments(&driver->arguments, text + length) &&
           act(driver);
}

int main(void)
{
    static struct driver driver;
    char *text = NULL;
    size_t capacity = 0;
    ssize_t length;
    int status = EXIT_SUCCESS;
    while ((length = getline(&text, &capacity, stdin)) >= 0) {
        text[strcspn(text, "\r\n")] = '\0';
        if (text[0] == '\0' || text[0] == '#')
            continue;
        if (!obey(&driver, text)) {
            printf("error %s\n", text);
            status = EXIT_FAILURE;
        }
    }
    free(text);
    return status;
}
