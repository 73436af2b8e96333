/* spent FILE COMMAND..: runs a command, and writes to FILE its seconds, the most memory that it held, in kilobytes, and its exit status.
 *
 * Linux counts what a process held before it called exec as its own, so the memory of a command that Python starts is at least Python's. This program is small. */
#include <stdio.h>
#include <sys/resource.h>
#include <sys/wait.h>
#include <time.h>
#include <unistd.h>

static double now(void) {
    struct timespec at;
    clock_gettime(CLOCK_MONOTONIC, &at);
    return (double)at.tv_sec + (double)at.tv_nsec / 1e9;
}

int main(int count, char **words) {
    if (count < 3) return 125;
    double began = now();
    pid_t child = fork();
    if (child == 0) {
        execvp(words[2], words + 2);
        _exit(127);
    }
    int status = 0;
    struct rusage usage;
    if (child < 0 || wait4(child, &status, 0, &usage) != child) return 126;
    double seconds = now() - began;
    FILE *file = fopen(words[1], "w");
    if (file == NULL) return 126;
    int code = WIFEXITED(status) ? WEXITSTATUS(status) : 128 + WTERMSIG(status);
    fprintf(file, "%.9f %ld %d\n", seconds, usage.ru_maxrss, code);
    return fclose(file) == 0 ? 0 : 126;
}
