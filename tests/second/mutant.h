/* Three wrong machines on purpose, so that the checks can be seen to catch
 * them. MUTANT is the constant 0 in every ordinary build, where the compiler
 * leaves nothing of them. */
#ifndef MUTANT_H
#define MUTANT_H

#define MUTANT_LOST_BACKUP 1       /* rollback drops backups */
#define MUTANT_SILENT_WRITE 2      /* no other cache hears a STORE's WRITE */
#define MUTANT_UNSAVED_TENTATIVE 3 /* DIRTY becomes tentative with no copy kept */

#ifndef MUTANT
#define MUTANT 0
#endif

#endif
