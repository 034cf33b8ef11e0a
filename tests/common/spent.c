/* Runs a program, and prints what that took. A process that Python starts has had Python's own memory before it became
   the program, and the system counts that as its most; this one has next to none.

     spent PROGRAM ARGUMENT..

   Prints the wall-clock seconds, the seconds of CPU time, and the most memory in KiB. What the program writes to
   standard output goes nowhere; its exit status is this one's. tests/bench/spent.py builds and runs it. */
#define _GNU_SOURCE
#include <fcntl.h>
#include <stdio.h>
#include <sys/resource.h>
#include <sys/wait.h>
#include <time.h>
#include <unistd.h>

static double between(struct timespec begun, struct timespec ended) {
    return ended.tv_sec - begun.tv_sec + (ended.tv_nsec - begun.tv_nsec) / 1e9;
}

static double seconds(struct timeval time) {
    return time.tv_sec + time.tv_usec / 1e6;
}

int main(int count, char **arguments) {
    struct timespec begun, ended;
    struct rusage used;
    int status;
    if (count < 2) return 2;
    clock_gettime(CLOCK_MONOTONIC, &begun);
    pid_t child = fork();
    if (child == 0) {
        int nowhere = open("/dev/null", O_WRONLY);
        if (nowhere < 0 || dup2(nowhere, STDOUT_FILENO) < 0) _exit(126);
        execv(arguments[1], arguments + 1);
        _exit(127);
    }
    if (child < 0 || wait4(child, &status, 0, &used) != child) return 1;
    clock_gettime(CLOCK_MONOTONIC, &ended);
    if (!WIFEXITED(status)) return 1;
    double processors = seconds(used.ru_utime) + seconds(used.ru_stime);
    printf("%.6f %.6f %ld\n", between(begun, ended), processors, used.ru_maxrss);
    return WEXITSTATUS(status);
}
