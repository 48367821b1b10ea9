// measure FILE SECONDS COMMAND..: runs a command for at most so many seconds, and writes to FILE its
// status (or 1000 and the signal that ended it), the milliseconds that passed and those of the
// processor, and the most memory that it held, in KB.
#define _GNU_SOURCE
#include <signal.h>
#include <stdio.h>
#include <stdlib.h>
#include <sys/resource.h>
#include <sys/wait.h>
#include <time.h>
#include <unistd.h>

static long milliseconds(long seconds, long nanoseconds) { return seconds * 1000 + nanoseconds / 1000000; }

int main(int count, char **words) {
    struct timespec start, end;
    struct rusage used;
    int status = 0;
    if (count < 4)
        return 2;
    clock_gettime(CLOCK_MONOTONIC, &start);
    pid_t child = fork();
    if (child == 0) {
        alarm((unsigned)atoi(words[2]));
        if (getenv("PRELOAD"))
            setenv("LD_PRELOAD", getenv("PRELOAD"), 1);
        execv(words[3], words + 3);
        _exit(127);
    }
    if (child < 0 || wait4(child, &status, 0, &used) < 0)
        return 2;
    clock_gettime(CLOCK_MONOTONIC, &end);
    long passed = milliseconds(end.tv_sec, end.tv_nsec) - milliseconds(start.tv_sec, start.tv_nsec);
    long worked = milliseconds(used.ru_utime.tv_sec + used.ru_stime.tv_sec,
                               (used.ru_utime.tv_usec + used.ru_stime.tv_usec) * 1000L);
    FILE *told = fopen(words[1], "w");
    if (!told)
        return 2;
    fprintf(told, "%d %ld %ld %ld\n", WIFEXITED(status) ? WEXITSTATUS(status) : 1000 + WTERMSIG(status),
            passed, worked, used.ru_maxrss);
    return fclose(told) ? 2 : 0;
}
