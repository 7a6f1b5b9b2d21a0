#include "driver.h"

#include <signal.h>
#include <stdio.h>
#include <stdlib.h>
#include <sys/wait.h>
#include <unistd.h>

static pid_t process;
static int jobs;
static int replies;

static _Noreturn void give_up(const char *what)
{
    printf("  the driver: %s\n", what);
    printf("FAILED the driver answers every job\n");
    exit(EXIT_FAILURE);
}

static _Noreturn void become(char *const command[], int in, int out)
{
    if (dup2(in, STDIN_FILENO) >= 0 && dup2(out, STDOUT_FILENO) >= 0)
        execv(command[0], command);
    perror(command[0]);
    _exit(127);
}

void driver_start(char *const command[])
{
    int to[2], from[2];
    signal(SIGPIPE, SIG_IGN);
    if (pipe(to) != 0 || pipe(from) != 0)
        give_up("no pipe can be made");
    process = fork();
    if (process < 0)
        give_up("no process can be made");
    if (process == 0) {
        close(to[1]);
        close(from[0]);
        become(command, to[0], from[1]);
    }
    close(to[0]);
    close(from[1]);
    jobs = to[1];
    replies = from[0];
}

void driver_send(const void *bytes, size_t length)
{
    const char *next = bytes;
    while (length > 0) {
        ssize_t sent = write(jobs, next, length);
        if (sent <= 0)
            give_up("it takes no more jobs");
        next += sent;
        length -= (size_t)sent;
    }
}

void driver_receive(void *place, size_t length)
{
    char *next = place;
    while (length > 0) {
        ssize_t got = read(replies, next, length);
        if (got <= 0)
            give_up("a reply is cut short");
        next += got;
        length -= (size_t)got;
    }
}

bool driver_end(void)
{
    char more;
    int status;
    close(jobs);
    bool silent = read(replies, &more, 1) == 0;
    close(replies);
    return waitpid(process, &status, 0) == process && status == 0 && silent;
}
