// Makes calls of read(2) and write(2) on standard input, output and error small, and lets chosen ones fail.
//
// A call takes or gives at most PRELOADED_PIECE bytes. The calls on each descriptor D of 0, 1 and 2 are numbered from 0;
// the one of number PRELOADED_FAIL_D, where that is set, fails with EIO and does nothing. Then the digit D is written to
// the descriptor PRELOADED_TELL.

#define _GNU_SOURCE
#include <errno.h>
#include <stdatomic.h>
#include <stdlib.h>
#include <sys/syscall.h>
#include <sys/uio.h>
#include <unistd.h>

#define STREAMS 3

static size_t piece;
static int tell;
static long failing_number[STREAMS];
static atomic_long next_number[STREAMS];

static long number_in(const char *name) {
    const char *word = getenv(name);
    return word == NULL ? -1 : atol(word);
}

__attribute__((constructor)) static void begin(void) {
    const char *names[STREAMS] = {"PRELOADED_FAIL_0", "PRELOADED_FAIL_1", "PRELOADED_FAIL_2"};
    for (int stream = 0; stream < STREAMS; stream++)
        failing_number[stream] = number_in(names[stream]);
    tell = (int)number_in("PRELOADED_TELL");
    piece = (size_t)number_in("PRELOADED_PIECE");
}

static int is_stream(int file) {
    return piece > 0 && 0 <= file && file < STREAMS;
}

static int fails(int stream) {
    char digit = (char)('0' + stream);
    if (atomic_fetch_add(&next_number[stream], 1) != failing_number[stream])
        return 0;
    syscall(SYS_write, tell, &digit, 1);
    errno = EIO;
    return 1;
}

static ssize_t small_call(long call, int file, void *bytes, size_t count) {
    if (!is_stream(file))
        return syscall(call, file, bytes, count);
    if (fails(file))
        return -1;
    return syscall(call, file, bytes, count < piece ? count : piece);
}

ssize_t read(int file, void *bytes, size_t count) {
    return small_call(SYS_read, file, bytes, count);
}

ssize_t write(int file, const void *bytes, size_t count) {
    return small_call(SYS_write, file, (void *)bytes, count);
}

// Of several parts the first that is not empty is taken.
static ssize_t small_call_of_parts(long call, long single, int file, const struct iovec *parts, int count) {
    if (!is_stream(file))
        return syscall(call, file, parts, count);
    for (int i = 0; i < count; i++)
        if (parts[i].iov_len > 0)
            return small_call(single, file, parts[i].iov_base, parts[i].iov_len);
    return 0;
}

ssize_t readv(int file, const struct iovec *parts, int count) {
    return small_call_of_parts(SYS_readv, SYS_read, file, parts, count);
}

ssize_t writev(int file, const struct iovec *parts, int count) {
    return small_call_of_parts(SYS_writev, SYS_write, file, parts, count);
}
