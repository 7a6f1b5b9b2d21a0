#include "serial.h"

#include <string.h>

#include "sound.h"

struct access {
    bool write;
    uint32_t word;
    uint32_t value;
};

/* What a processor's transaction has read and written so far, in order. */
struct log {
    size_t length;
    struct access items[TRACE_LIMIT];
};

struct account {
    uint32_t plain[MAX_WORDS];
    struct log logs[MAX_PROCESSORS];
};

static void log_access(struct log *log, bool write, uint32_t word, uint32_t value)
{
    log->items[log->length++] = (struct access){write, word, value};
}

/* What the transaction must read: its own last write, else the plain memory. */
static uint32_t expected_read(const struct account *account, const struct log *log,
                              uint32_t word)
{
    for (size_t i = log->length; i > 0; i--)
        if (log->items[i - 1].write && log->items[i - 1].word == word)
            return log->items[i - 1].value;
    return account->plain[word];
}

static const char *replay_whole(struct account *account, const struct log *log)
{
    for (size_t i = 0; i < log->length; i++) {
        const struct access *access = &log->items[i];
        if (access->write)
            account->plain[access->word] = access->value;
        else if (account->plain[access->word] != access->value)
            return "a committed transaction read what the plain memory does not hold";
    }
    return NULL;
}

static const char *follow_plain(struct account *account, const struct trace_step *step,
                                const struct answer *answer)
{
    if (step->instruction == STORE) {
        account->plain[step->word] = step->value;
        return answer->kind == ANSWER_DONE ? NULL : "STORE not DONE";
    }
    if (answer->kind != ANSWER_VALUE)
        return "LOAD without VALUE";
    return account->plain[step->word] == answer->value ? NULL : "LOAD of another value";
}

static const char *follow_transactional(struct account *account,
                                        const struct trace_step *step,
                                        const struct answer *answer)
{
    struct log *log = &account->logs[step->core];
    bool write = step->instruction == ST;
    if (answer->kind == ANSWER_ABORTED) {
        log->length = 0;
        return NULL;
    }
    if (answer->kind != (write ? ANSWER_DONE : ANSWER_VALUE))
        return "no answer of LT, LTX or ST";
    if (!write && answer->value != expected_read(account, log, step->word))
        return "a transaction read another value, committed or not";
    log_access(log, write, step->word, write ? step->value : answer->value);
    return NULL;
}

static const char *follow_commit(struct account *account, const struct trace_step *step,
                                 const struct answer *answer)
{
    struct log *log = &account->logs[step->core];
    const char *complaint = NULL;
    if (answer->kind == ANSWER_SUCCESS)
        complaint = replay_whole(account, log);
    else if (answer->kind != ANSWER_FAILURE)
        complaint = "no answer of COMMIT";
    log->length = 0;
    return complaint;
}

static const char *follow_validate(struct account *account,
                                   const struct trace_step *step,
                                   const struct answer *answer)
{
    if (answer->kind == ANSWER_TRUE)
        return NULL;
    account->logs[step->core].length = 0;
    return answer->kind == ANSWER_FALSE ? NULL : "no answer of VALIDATE";
}

/* Judges by answers alone. A transaction rolled back by someone's plain access
 * can only go on to ABORTED, FAILURE, FALSE or ABORT, where its log is dropped. */
static const char *follow(struct account *account, const struct trace_step *step,
                          const struct answer *answer)
{
    if (answer->kind != ANSWER_VALUE && answer->value != 0)
        return "a value with an answer that has none";
    switch ((enum instruction)step->instruction) {
    case LOAD:
    case STORE: return follow_plain(account, step, answer);
    case LT:
    case LTX:
    case ST: return follow_transactional(account, step, answer);
    case COMMIT: return follow_commit(account, step, answer);
    case VALIDATE: return follow_validate(account, step, answer);
    case ABORT:
    case INTERRUPT:
        account->logs[step->core].length = 0;
        return answer->kind == ANSWER_DONE ? NULL : "ABORT or INTERRUPT not DONE";
    case INSTRUCTIONS: break;
    }
    return "no such instruction";
}

static const char *check_bound(const struct answer *answer)
{
    const uint8_t *counts = answer->counts;
    if (counts[WRITE] > 3)
        return "more than 3 WRITE";
    if (counts[READ] + counts[RFO] + counts[T_READ] + counts[T_RFO] > 1)
        return "more than one request";
    return counts[BUSY] > 1 ? "more than one BUSY" : NULL;
}

static const char *check_state(const struct machine *machine,
                               const struct account *account, bool soundness)
{
    if (soundness && !machine_sound(machine))
        return "the state is not sound";
    for (uint32_t w = 0; w < machine->dimensions.words; w++)
        if (machine_settled(machine, w) != account->plain[w])
            return "a settled value differs from the plain memory";
    return NULL;
}

static void count(struct tally *tally, const struct trace_step *step,
                  const struct answer *answer, bool tstatus_before)
{
    tally->steps++;
    tally->answers[step->instruction][answer->kind]++;
    tally->writes[answer->counts[WRITE] & 3]++;
    tally->busy += answer->counts[BUSY];
    tally->full += answer->kind == ANSWER_ABORTED && tstatus_before &&
                   answer->counts[BUSY] == 0;
}

static const char *check_step(struct machine *machine, struct account *account,
                              const struct trace_step *at, step_function *step,
                              struct tally *tally)
{
    bool tstatus_before = machine->processors[at->core].tstatus;
    struct answer answer =
        step(machine, at->instruction, at->core, at->word, at->value);
    if (answer.kind >= ANSWER_REFUSED)
        return "a step of the trace was refused";
    count(tally, at, &answer, tstatus_before);
    const char *complaint = check_bound(&answer);
    return complaint != NULL ? complaint : follow(account, at, &answer);
}

static bool begin(struct machine *machine, struct account *account,
                  const struct trace *trace)
{
    memcpy(account->plain, trace->memory, sizeof account->plain);
    for (uint32_t p = 0; p < MAX_PROCESSORS; p++)
        account->logs[p].length = 0;
    return machine_make(machine, trace->dimensions, trace->memory,
                        trace->dimensions.words) == NOT_REFUSED;
}

struct verdict serial_check(const struct trace *trace, const struct scrutiny *scrutiny,
                            struct tally *tally)
{
    static struct machine machine;
    static struct account account;
    if (!begin(&machine, &account, trace))
        return (struct verdict){"the machine of the trace was refused", 0};
    for (size_t i = 0; i < trace->length; i++) {
        const char *complaint =
            check_step(&machine, &account, &trace->steps[i], scrutiny->step, tally);
        bool whole = i % scrutiny->stride == 0 || i + 1 == trace->length;
        if (complaint == NULL && whole)
            complaint = check_state(&machine, &account, scrutiny->soundness);
        if (complaint != NULL)
            return (struct verdict){complaint, i};
    }
    return (struct verdict){NULL, 0};
}

static void leave_out(struct trace *to, const struct trace *from, size_t place)
{
    memcpy(to, from, sizeof *to);
    to->length--;
    memmove(to->steps + place, to->steps + place + 1,
            (to->length - place) * sizeof *to->steps);
}

/* One pass over the steps from the last to the first. */
static bool cut_any(struct trace *trace, const struct scrutiny *scrutiny)
{
    static struct trace shorter;
    struct tally unused = {0};
    bool cut = false;
    for (size_t place = trace->length; place > 0; place--) {
        leave_out(&shorter, trace, place - 1);
        if (serial_check(&shorter, scrutiny, &unused).complaint == NULL)
            continue;
        memcpy(trace, &shorter, sizeof *trace);
        cut = true;
    }
    return cut;
}

struct verdict serial_minimise(struct trace *trace, const struct scrutiny *scrutiny)
{
    struct scrutiny closer = {scrutiny->step, 1, scrutiny->soundness};
    struct tally unused = {0};
    struct verdict verdict = serial_check(trace, &closer, &unused);
    if (verdict.complaint == NULL)
        return verdict;
    trace->length = verdict.step + 1;
    while (cut_any(trace, &closer))
        continue;
    return serial_check(trace, &closer, &unused);
}
