/* Seconds of wall time and peak resident KiB of a command, the best of three: a parent that is itself small, since a
   child's peak counts what it was before it became the command. usage: measure COMMAND WORDS.. */
#include <fcntl.h>
#include <stdio.h>
#include <sys/resource.h>
#include <sys/wait.h>
#include <time.h>
#include <unistd.h>

int main(int argc, char **argv) {
    if (argc < 2) return 2;
    double best = -1;
    long peak = 0;
    for (int k = 0; k < 3; k++) {
        struct timespec from, to;
        struct rusage usage;
        int status;
        clock_gettime(CLOCK_MONOTONIC, &from);
        pid_t child = fork();
        if (child == 0) {
            int null = open("/dev/null", O_WRONLY);
            dup2(null, 1);
            execv(argv[1], argv + 1);
            _exit(127);
        }
        wait4(child, &status, 0, &usage);
        clock_gettime(CLOCK_MONOTONIC, &to);
        double took = (double)(to.tv_sec - from.tv_sec) + (double)(to.tv_nsec - from.tv_nsec) / 1e9;
        if (best < 0 || took < best) best = took;
        if (usage.ru_maxrss > peak) peak = usage.ru_maxrss;
    }
    printf("%.4f %ld\n", best, peak);
    return 0;
}
