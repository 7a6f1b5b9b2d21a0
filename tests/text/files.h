/* Damaged texts as files, for the programs that read a whole input. */
#ifndef FILES_H
#define FILES_H

#include <stdbool.h>

/* Logs for document 01's machine, in files of this folder; whether all were
 * written. */
bool write_files(const char *folder);

#endif
