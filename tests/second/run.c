/* A run over lent columns: refusals 9 and 10, then the steps in turn. */
#include "run.h"

#include "sound.h"

static bool columns_fit(const struct columns *columns)
{
    size_t length = columns->steps_length;
    return length <= RUN_LIMIT && columns->cores_length == length &&
           columns->words_length == length && columns->values_length == length &&
           columns->answers_length == length;
}

struct run machine_run(struct machine *machine, const struct columns *columns)
{
    struct run run = {NOT_REFUSED, 0};
    if (!machine_sound(machine))
        run.refusal = REFUSED_STATE;
    else if (!columns_fit(columns))
        run.refusal = REFUSED_COLUMNS;
    while (run.refusal == NOT_REFUSED && run.taken < columns->steps_length) {
        size_t i = run.taken;
        struct answer answer =
            machine_step(machine, columns->steps[i], columns->cores[i],
                         columns->words[i], columns->values[i]);
        if (answer.kind == ANSWER_REFUSED) {
            run.refusal = answer.refusal;
        } else {
            columns->answers[i] = answer;
            run.taken++;
        }
    }
    return run;
}
