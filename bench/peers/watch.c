/* Runs a program with its input from a file and its output thrown away, and prints the seconds that it took, its greatest
   memory in kilobytes and its exit status. A small program starts it, since the greatest memory of a process counts that
   of the one that it was forked from. Usage: watch INPUT PROGRAM WORD.. */
#include <fcntl.h>
#include <stdio.h>
#include <sys/resource.h>
#include <sys/wait.h>
#include <time.h>
#include <unistd.h>

int main(int argc, char **argv) {
    if (argc < 3) return 2;
    struct timespec begun, done;
    clock_gettime(CLOCK_MONOTONIC, &begun);
    pid_t child = fork();
    if (child < 0) return 71;
    if (child == 0) {
        int from = open(argv[1], O_RDONLY), to = open("/dev/null", O_WRONLY);
        if (from < 0 || to < 0 || dup2(from, 0) < 0 || dup2(to, 1) < 0 || dup2(to, 2) < 0) _exit(126);
        execv(argv[2], argv + 2);
        _exit(127);
    }
    int status;
    struct rusage used;
    if (wait4(child, &status, 0, &used) < 0) return 71;
    clock_gettime(CLOCK_MONOTONIC, &done);
    printf("%.6f %ld %d\n", (done.tv_sec - begun.tv_sec) + (done.tv_nsec - begun.tv_nsec) / 1e9, used.ru_maxrss,
           WIFEXITED(status) ? WEXITSTATUS(status) : -1);
    return 0;
}
