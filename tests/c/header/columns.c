/* Hands every column over by its type. With two of them exchanged below the mark it
 * must not compile. */
#include "stirnfeld.h"

uint8_t run_of(uint64_t *state, stirnfeld_ops ops, stirnfeld_cores cores,
               stirnfeld_used_words used_words, stirnfeld_values values,
               stirnfeld_numbers numbers, stirnfeld_results results, stirnfeld_reads reads,
               stirnfeld_rfos rfos, stirnfeld_writes writes, stirnfeld_t_reads t_reads,
               stirnfeld_t_rfos t_rfos, stirnfeld_busies busies, size_t *taken)
{
    /* the mark */
    stirnfeld_steps steps = { ops, cores, used_words, values };
    stirnfeld_answers answers = { numbers, results, reads, rfos,
                                  writes, t_reads, t_rfos, busies };
    return stirnfeld_run_columns(state, steps, answers, taken);
}
