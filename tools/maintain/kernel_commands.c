/* Makes commands of perf_event_open(2) on the running kernel, and prints how long they took.
   Usage: kernel_commands ROUNDS
   A round opens task-clock for this thread, enables it, reads it and closes it: 4 commands.
   Prints the nanoseconds of all rounds; ends with 77 where the kernel does not open the event. */
#include <errno.h>
#include <linux/perf_event.h>
#include <stdint.h>
#include <stdio.h>
#include <stdlib.h>
#include <string.h>
#include <sys/ioctl.h>
#include <sys/syscall.h>
#include <time.h>
#include <unistd.h>

enum { NOT_HERE = 77 };

static int fail(const char *what)
{
    fprintf(stderr, "%s: %s\n", what, strerror(errno));
    return NOT_HERE;
}

static int64_t now(void)
{
    struct timespec time;
    clock_gettime(CLOCK_MONOTONIC, &time);
    return time.tv_sec * INT64_C(1000000000) + time.tv_nsec;
}

int main(int count, char **words)
{
    if (count != 2)
        return 2;
    struct perf_event_attr attr = {
        .type = PERF_TYPE_SOFTWARE,
        .size = sizeof attr,
        .config = PERF_COUNT_SW_TASK_CLOCK,
        .read_format = PERF_FORMAT_TOTAL_TIME_ENABLED | PERF_FORMAT_TOTAL_TIME_RUNNING,
        .disabled = 1,
        .exclude_kernel = 1,
    };
    long rounds = atol(words[1]);
    int64_t began = now();
    for (long round = 0; round < rounds; round++) {
        uint64_t numbers[3];
        int event = (int)syscall(SYS_perf_event_open, &attr, 0, -1, -1, 0);
        if (event < 0)
            return fail("perf_event_open");
        if (ioctl(event, PERF_EVENT_IOC_ENABLE, 0) != 0)
            return fail("ioctl");
        if (read(event, numbers, sizeof numbers) != sizeof numbers)
            return fail("read");
        close(event);
    }
    printf("%lld\n", (long long)(now() - began));
    return 0;
}
