/* The nine instructions of 'Steps', each done whole and in place. */
#include "machine.h"

#include "bus.h"

struct turn {
    struct machine *machine;
    struct processor *own;
    uint32_t word;
    struct answer answer;
};

static void answer_value(struct turn *turn, uint32_t value)
{
    turn->answer.kind = ANSWER_VALUE;
    turn->answer.value = value;
}

/* Only a DIRTY copy is written back, and no other processor has its word, so
 * this WRITE finds nothing to snoop. */
static void write_back(struct turn *turn, uint32_t word, uint32_t data)
{
    turn->machine->memory[word] = data;
    turn->answer.counts[WRITE]++;
}

static void drop_line(struct turn *turn, struct line *line)
{
    if (line->state == DIRTY)
        write_back(turn, line->word, line->data);
    clear_line(line);
}

static void drop_entry(struct turn *turn, struct entry *entry)
{
    if (entry->state == DIRTY)
        write_back(turn, entry->word, entry->data);
    clear_entry(entry);
}

/* A plain cycle: never refused. */
static void issue(struct turn *turn, enum cycle cycle)
{
    bool exclusive = cycle != READ;
    turn->answer.counts[cycle]++;
    if (cycle == WRITE && MUTANT == MUTANT_SILENT_WRITE)
        return;
    roll_back_others(turn->machine, turn->own, turn->word, exclusive);
    snoop(turn->machine, turn->own, turn->word, exclusive);
}

/* A transactional cycle: false when it met BUSY. */
static bool request(struct turn *turn, enum cycle cycle)
{
    bool exclusive = cycle == T_RFO;
    turn->answer.counts[cycle]++;
    if (bus_refuses(turn->machine, turn->own, turn->word, exclusive)) {
        turn->answer.counts[BUSY]++;
        return false;
    }
    snoop(turn->machine, turn->own, turn->word, exclusive);
    return true;
}

static void fill_line(struct turn *turn, struct line *line, enum line_state state,
                      uint32_t data)
{
    line->state = state;
    line->word = turn->word;
    line->data = data;
}

static void load(struct turn *turn)
{
    struct line *line = line_for(turn->machine, turn->own, turn->word);
    if (line_holds(line, turn->word)) {
        answer_value(turn, line->data);
        return;
    }
    struct entry *entry = find_entry(turn->machine, turn->own, turn->word);
    if (entry != NULL && entry->tag == TENTATIVE && entry->state != VALID) {
        rollback(turn->machine, turn->own);
        entry = find_entry(turn->machine, turn->own, turn->word);
    }
    if (entry != NULL) {
        answer_value(turn, entry->data);
        return;
    }
    drop_line(turn, line);
    issue(turn, READ);
    fill_line(turn, line, VALID, turn->machine->memory[turn->word]);
    answer_value(turn, line->data);
}

static void leave_transactional_cache(struct turn *turn)
{
    struct entry *entry = find_entry(turn->machine, turn->own, turn->word);
    if (entry != NULL && entry->tag == TENTATIVE) {
        rollback(turn->machine, turn->own);
        entry = find_entry(turn->machine, turn->own, turn->word);
    }
    if (entry != NULL)
        drop_entry(turn, entry);
}

static void store(struct turn *turn, uint32_t value)
{
    struct line *line = line_for(turn->machine, turn->own, turn->word);
    leave_transactional_cache(turn);
    if (!line_holds(line, turn->word)) {
        drop_line(turn, line);
        issue(turn, RFO);
        fill_line(turn, line, DIRTY, value);
    } else if (line->state == VALID) {
        issue(turn, WRITE);
        turn->machine->memory[turn->word] = value;
        fill_line(turn, line, RESERVED, value);
    } else {
        fill_line(turn, line, DIRTY, value);
    }
    turn->answer.kind = ANSWER_DONE;
}

static struct entry *take_slot(struct turn *turn, enum tag tag)
{
    struct entry *slot = find_slot(turn->machine, turn->own);
    if (slot == NULL)
        return NULL;
    drop_entry(turn, slot);
    slot->tag = tag;
    slot->word = turn->word;
    return slot;
}

static void make_tentative(struct turn *turn, struct entry *entry)
{
    entry->tag = TENTATIVE;
    struct entry *backup = take_slot(turn, BACKUP);
    if (backup != NULL) {
        backup->state = entry->state;
        backup->data = entry->data;
    } else if (entry->state == DIRTY && MUTANT != MUTANT_UNSAVED_TENTATIVE) {
        write_back(turn, entry->word, entry->data);
        entry->state = RESERVED;
    }
}

/* No tentative or NORMAL entry: false when the bus refuses. Until the data
 * comes the slots are invalid in state, and a refusal leaves them so. */
static bool fill_slots(struct turn *turn, struct entry *entry, enum cycle cycle)
{
    struct entry *backup = take_slot(turn, BACKUP);
    if (!request(turn, cycle)) {
        if (backup != NULL)
            clear_entry(backup);
        return false;
    }
    entry->data = turn->machine->memory[turn->word];
    entry->state = cycle == T_READ ? VALID : RESERVED;
    if (backup != NULL) {
        backup->data = entry->data;
        backup->state = entry->state;
    }
    return true;
}

/* Points 2 to 5 of LT, LTX, ST but for the store; NULL when it cannot be had. */
static struct entry *acquire(struct turn *turn, bool exclusive)
{
    struct entry *entry = find_entry(turn->machine, turn->own, turn->word);
    if (entry == NULL) {
        entry = take_slot(turn, TENTATIVE);
        if (entry == NULL || !fill_slots(turn, entry, exclusive ? T_RFO : T_READ))
            return NULL;
        return entry;
    }
    if (entry->tag == NORMAL)
        make_tentative(turn, entry);
    if (exclusive && entry->state == VALID) {
        if (!request(turn, T_RFO))
            return NULL;
        entry->state = RESERVED;
    }
    return entry;
}

static void transactional(struct turn *turn, enum instruction instruction, uint32_t value)
{
    struct processor *own = turn->own;
    own->tactive = true;
    turn->answer.kind = ANSWER_ABORTED;
    if (!own->tstatus)
        return;
    struct line *line = line_for(turn->machine, own, turn->word);
    if (line_holds(line, turn->word))
        drop_line(turn, line);
    struct entry *entry = acquire(turn, instruction != LT);
    if (entry == NULL) {
        rollback(turn->machine, own);
    } else if (instruction == ST) {
        entry->data = value;
        entry->state = DIRTY;
        turn->answer.kind = ANSWER_DONE;
    } else {
        answer_value(turn, entry->data);
    }
}

static void end_transaction(struct processor *own)
{
    own->tactive = false;
    own->tstatus = true;
}

static void commit(struct turn *turn)
{
    struct processor *own = turn->own;
    struct entry *end = own->entries + turn->machine->dimensions.entries;
    turn->answer.kind = own->tstatus ? ANSWER_SUCCESS : ANSWER_FAILURE;
    for (struct entry *entry = own->entries; own->tstatus && entry < end; entry++) {
        if (entry->tag == BACKUP)
            clear_entry(entry);
        else if (entry->tag == TENTATIVE)
            entry->tag = NORMAL;
    }
    end_transaction(own);
}

static void validate(struct turn *turn)
{
    turn->answer.kind = turn->own->tstatus ? ANSWER_TRUE : ANSWER_FALSE;
    if (!turn->own->tstatus)
        end_transaction(turn->own);
}

static enum refusal step_refusal(const struct machine *machine, uint32_t instruction,
                                 uint32_t core, uint32_t word)
{
    if (instruction >= INSTRUCTIONS)
        return REFUSED_STEP;
    if (core >= machine->dimensions.processors)
        return REFUSED_CORE;
    if (instruction <= ST && word >= machine->dimensions.words)
        return REFUSED_WORD;
    return NOT_REFUSED;
}

struct answer machine_step(struct machine *machine, uint32_t instruction,
                           uint32_t core, uint32_t word, uint32_t value)
{
    enum refusal refusal = step_refusal(machine, instruction, core, word);
    if (refusal != NOT_REFUSED)
        return (struct answer){.kind = ANSWER_REFUSED, .refusal = refusal};
    struct turn turn = {
        .machine = machine, .own = &machine->processors[core], .word = word};
    turn.answer.kind = ANSWER_DONE;
    switch ((enum instruction)instruction) {
    case LOAD: load(&turn); break;
    case STORE: store(&turn, value); break;
    case LT:
    case LTX:
    case ST: transactional(&turn, instruction, value); break;
    case COMMIT: commit(&turn); break;
    case ABORT:
        rollback(machine, turn.own);
        end_transaction(turn.own);
        break;
    case VALIDATE: validate(&turn); break;
    case INTERRUPT: rollback(machine, turn.own); break;
    case INSTRUCTIONS: break;
    }
    return turn.answer;
}
