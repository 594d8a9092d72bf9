/* A small parent for what is measured: parent FILE PROGRAM WORD.. runs the program, writes into the file its exit status, its seconds of
 * processor and its peak memory in KiB, and ends with 0. The peak of a process begins with that of the process that started it, so that a
 * parent in Python would stand in each figure. */
#define _DEFAULT_SOURCE
#include <stdio.h>
#include <sys/resource.h>
#include <sys/wait.h>
#include <unistd.h>

static double seconds(struct timeval time) { return (double)time.tv_sec + 1e-6 * (double)time.tv_usec; }

int main(int count, char **words) {
    if (count < 3) return 2;
    pid_t child = fork();
    if (child == 0) {
        execv(words[2], words + 2);
        _exit(127);
    }
    int status;
    struct rusage used;
    if (child < 0 || wait4(child, &status, 0, &used) != child) return 1;
    FILE *told = fopen(words[1], "w");
    if (!told) return 1;
    int ended = WIFEXITED(status) ? WEXITSTATUS(status) : -WTERMSIG(status);
    fprintf(told, "%d %.6f %ld\n", ended, seconds(used.ru_utime) + seconds(used.ru_stime), used.ru_maxrss);
    return fclose(told) != 0;
}
