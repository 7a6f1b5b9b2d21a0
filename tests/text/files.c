#include "files.h"

#include <stdio.h>

#include "damage.h"
#include "logs.h"

enum { FILES = 100, SEED = 501 };

static bool write_file(const char *folder, int number, const struct job *job)
{
    char name[4096];
    snprintf(name, sizeof name, "%s/%d", folder, number);
    FILE *file = fopen(name, "wb");
    if (file == NULL)
        return false;
    bool written = fwrite(job->text, 1, job->length, file) == job->length;
    return fclose(file) == 0 && written;
}

bool write_files(const char *folder)
{
    static struct job job;
    struct dice dice = {SEED};
    for (int i = 0; i < FILES; i++) {
        draw_job(&job, &dice, (struct dimensions){4, 16, 4, 4});
        draw_log(&job, &dice, roll_below(&dice, 200), SELDOM_ODD);
        for (uint32_t left = roll_below(&dice, 10); left > 0; left--)
            damage(&job, &dice);
        if (!write_file(folder, i, &job))
            return false;
    }
    return true;
}
