/* Starts a program, waits for it, and writes what it cost to a descriptor.
   Usage: starter DESCRIPTOR PROGRAM [WORD ..]
   Writes the nanoseconds that it took, its exit status or the negative number of the signal that ended it, its processor
   time in microseconds, its page faults, and its peak memory in KiB. That peak is never below the peak of the process
   that starts the program: so this one is small. Ends with 77 where the program does not start. */
#include <errno.h>
#include <inttypes.h>
#include <spawn.h>
#include <stdio.h>
#include <stdlib.h>
#include <string.h>
#include <sys/resource.h>
#include <sys/wait.h>
#include <time.h>

extern char **environ;

static int64_t now(void)
{
    struct timespec time;
    clock_gettime(CLOCK_MONOTONIC, &time);
    return time.tv_sec * INT64_C(1000000000) + time.tv_nsec;
}

static int64_t microseconds(struct timeval time)
{
    return time.tv_sec * INT64_C(1000000) + time.tv_usec;
}

int main(int count, char **words)
{
    if (count < 3)
        return 2;
    pid_t child;
    int status;
    struct rusage usage;
    int64_t begin = now();
    int fault = posix_spawnp(&child, words[2], NULL, NULL, words + 2, environ);
    if (fault) {
        fprintf(stderr, "%s\n", strerror(fault));
        return 77;
    }
    while (wait4(child, &status, 0, &usage) < 0)
        if (errno != EINTR)
            return 2;
    int64_t took = now() - begin, processor = microseconds(usage.ru_utime) + microseconds(usage.ru_stime);
    int ended = WIFEXITED(status) ? WEXITSTATUS(status) : -WTERMSIG(status);
    dprintf(atoi(words[1]), "%" PRId64 " %d %" PRId64 " %ld %ld\n", took, ended, processor,
            usage.ru_minflt + usage.ru_majflt, usage.ru_maxrss);
    return 0;
}
