// Runs a program on a log that a read error cuts short. Its standard input is a pipe that holds the text that this one reads, and that
// neither ends, since its other end stays open, nor waits.
#include <fcntl.h>
#include <stdio.h>
#include <unistd.h>

int main(int argc, char **argv) {
    char text[4096];
    int ends[2];
    ssize_t length = read(STDIN_FILENO, text, sizeof text);
    if (argc < 2 || length < 0 || pipe(ends) != 0 || write(ends[1], text, (size_t)length) != length ||
        fcntl(ends[0], F_SETFL, O_NONBLOCK) != 0 || dup2(ends[0], STDIN_FILENO) < 0) {
        perror("cut");
        return 2;
    }
    execv(argv[1], argv + 1);
    perror(argv[1]);
    return 2;
}
