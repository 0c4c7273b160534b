/* The functions of the C library that the double's library takes over. Each makes its system call by preload.c. */
#define _GNU_SOURCE
#include "preload.h"
#include <dlfcn.h>
#include <errno.h>
#include <poll.h>
#include <pthread.h>
#include <sched.h>
#include <signal.h>
#include <spawn.h>
#include <stdarg.h>
#include <stddef.h>
#include <stdio.h>
#include <stdlib.h>
#include <string.h>
#include <sys/epoll.h>
#include <sys/select.h>
#include <sys/socket.h>
#include <sys/syscall.h>
#include <sys/types.h>
#include <sys/uio.h>
#include <time.h>
#include <unistd.h>

#define CALL(number, a, b, c, d, e, f) \
	double_call(number, (long)(a), (long)(b), (long)(c), (long)(d), (long)(e), (long)(f))

extern char **environ;

#define SIMPLE(type, name, number, formals, ...) \
	type name formals { return (type)CALL(number, __VA_ARGS__); }

SIMPLE(ssize_t, read, SYS_read, (int fd, void *to, size_t size), fd, to, size, 0, 0, 0)
SIMPLE(ssize_t, __read_chk, SYS_read, (int fd, void *to, size_t size, size_t room), fd, to, size, 0 * room, 0, 0)
SIMPLE(ssize_t, pread, SYS_pread64, (int fd, void *to, size_t size, off_t at), fd, to, size, at, 0, 0)
SIMPLE(ssize_t, pread64, SYS_pread64, (int fd, void *to, size_t size, off_t at), fd, to, size, at, 0, 0)
SIMPLE(ssize_t, readv, SYS_readv, (int fd, const struct iovec *parts, int count), fd, parts, count, 0, 0, 0)
SIMPLE(ssize_t, preadv, SYS_preadv, (int fd, const struct iovec *parts, int count, off_t at), fd, parts, count, at, 0, 0)
SIMPLE(ssize_t, write, SYS_write, (int fd, const void *from, size_t size), fd, from, size, 0, 0, 0)
SIMPLE(ssize_t, pwrite, SYS_pwrite64, (int fd, const void *from, size_t size, off_t at), fd, from, size, at, 0, 0)
SIMPLE(ssize_t, pwrite64, SYS_pwrite64, (int fd, const void *from, size_t size, off_t at), fd, from, size, at, 0, 0)
SIMPLE(ssize_t, writev, SYS_writev, (int fd, const struct iovec *parts, int count), fd, parts, count, 0, 0, 0)
SIMPLE(off_t, lseek, SYS_lseek, (int fd, off_t at, int from), fd, at, from, 0, 0, 0)
SIMPLE(off_t, lseek64, SYS_lseek, (int fd, off_t at, int from), fd, at, from, 0, 0, 0)
SIMPLE(int, ftruncate, SYS_ftruncate, (int fd, off_t size), fd, size, 0, 0, 0, 0)
SIMPLE(int, ftruncate64, SYS_ftruncate, (int fd, off_t size), fd, size, 0, 0, 0, 0)
SIMPLE(ssize_t, sendfile, SYS_sendfile, (int to, int fd, off_t *at, size_t size), to, fd, at, size, 0, 0)
SIMPLE(int, close, SYS_close, (int fd), fd, 0, 0, 0, 0, 0)
SIMPLE(int, close_range, SYS_close_range, (unsigned a, unsigned b, int flags), a, b, flags, 0, 0, 0)
SIMPLE(int, dup, SYS_dup, (int fd), fd, 0, 0, 0, 0, 0)
SIMPLE(int, dup2, SYS_dup2, (int fd, int to), fd, to, 0, 0, 0, 0)
SIMPLE(int, dup3, SYS_dup3, (int fd, int to, int flags), fd, to, flags, 0, 0, 0)
SIMPLE(int, unshare, SYS_unshare, (int flags), flags, 0, 0, 0, 0, 0)
SIMPLE(int, epoll_ctl, SYS_epoll_ctl, (int to, int what, int fd, struct epoll_event *how), to, what, fd, how, 0, 0)
SIMPLE(ssize_t, sendmsg, SYS_sendmsg, (int fd, const struct msghdr *message, int flags), fd, message, flags, 0, 0, 0)
SIMPLE(int, sendmmsg, SYS_sendmmsg, (int fd, struct mmsghdr *all, unsigned count, int flags), fd, all, count, flags, 0, 0)
SIMPLE(int, poll, SYS_poll, (struct pollfd *all, nfds_t count, int ms), all, count, ms, 0, 0, 0)
SIMPLE(int, __poll_chk, SYS_poll, (struct pollfd *all, nfds_t count, int ms, size_t room), all, count, ms, 0 * room, 0, 0)
SIMPLE(int, nanosleep, SYS_nanosleep, (const struct timespec *length, struct timespec *rest), length, rest, 0, 0, 0, 0)
SIMPLE(void *, mmap, SYS_mmap, (void *at, size_t size, int prot, int flags, int fd, off_t from), at, size, prot, flags, fd, from)
SIMPLE(void *, mmap64, SYS_mmap, (void *at, size_t size, int prot, int flags, int fd, off_t from), at, size, prot, flags, fd, from)

void closefrom(int first)
{
	close_range(first, ~0U, 0);
}

long syscall(long number, ...)
{
	va_list list;
	long n[6];

	va_start(list, number);
	for (int i = 0; i < 6; i++)
		n[i] = va_arg(list, long);
	va_end(list);
	return double_call(number, n[0], n[1], n[2], n[3], n[4], n[5]);
}

static long argument(va_list list)
{
	return va_arg(list, long);
}

int ioctl(int fd, unsigned long request, ...)
{
	va_list list;
	long given;

	va_start(list, request);
	given = argument(list);
	va_end(list);
	return CALL(SYS_ioctl, fd, request, given, 0, 0, 0);
}

int fcntl(int fd, int command, ...)
{
	va_list list;
	long given;

	va_start(list, command);
	given = argument(list);
	va_end(list);
	return CALL(SYS_fcntl, fd, command, given, 0, 0, 0);
}

int fcntl64(int, int, ...) __attribute__((alias("fcntl")));

int prctl(int option, ...)
{
	va_list list;
	long n[4];

	va_start(list, option);
	for (int i = 0; i < 4; i++)
		n[i] = va_arg(list, long);
	va_end(list);
	return CALL(SYS_prctl, option, n[0], n[1], n[2], n[3], 0);
}

int ppoll(struct pollfd *all, nfds_t count, const struct timespec *time, const sigset_t *mask)
{
	struct timespec own = { 0, 0 };

	if (time)
		own = *time;
	return CALL(SYS_ppoll, all, count, time ? &own : NULL, mask, 8, 0);
}

int select(int count, fd_set *in, fd_set *out, fd_set *except, struct timeval *time)
{
	return CALL(SYS_select, count, in, out, except, time, 0);
}

int pselect(int count, fd_set *in, fd_set *out, fd_set *except, const struct timespec *time, const sigset_t *mask)
{
	struct timespec own = { 0, 0 };
	struct {
		const sigset_t *mask;
		size_t size;
	} set = { mask, 8 };

	if (time)
		own = *time;
	return CALL(SYS_pselect6, count, in, out, except, time ? &own : NULL, &set);
}

int clock_nanosleep(clockid_t clock, int flags, const struct timespec *length, struct timespec *rest)
{
	return -double_act(SYS_clock_nanosleep, clock, flags, (long)length, (long)rest, 0, 0);
}

unsigned sleep(unsigned seconds)
{
	struct timespec length = { seconds, 0 }, rest = { 0, 0 };

	return nanosleep(&length, &rest) ? rest.tv_sec : 0;
}

int usleep(useconds_t microseconds)
{
	struct timespec length = { microseconds / 1000000, microseconds % 1000000 * 1000L };

	return nanosleep(&length, NULL);
}

/* Forks and threads. */

static int denied(long got)
{
	errno = -got;
	return got < 0 ? -1 : 0;
}

pid_t fork(void)
{
	pid_t (*real)(void) = (pid_t(*)(void))dlsym(RTLD_NEXT, "fork");
	pid_t made;

	if (denied(double_say(SYS_fork, 0, 0, 0, 0, 0)))
		return -1;
	made = real();
	if (made == 0)
		double_is_child();
	return made;
}

pid_t vfork(void)
{
	return fork();
}

struct begun {
	void *(*start)(void *);
	void *given;
};

static void *begin_thread(void *own)
{
	struct begun begun = *(struct begun *)own;
	void *got;

	free(own);
	got = begun.start(begun.given);
	double_leave(SYS_exit);
	return got;
}

int pthread_create(pthread_t *thread, const pthread_attr_t *how, void *(*start)(void *), void *given)
{
	int (*real)(pthread_t *, const pthread_attr_t *, void *(*)(void *), void *) =
		(int (*)(pthread_t *, const pthread_attr_t *, void *(*)(void *), void *))dlsym(RTLD_NEXT, "pthread_create");
	struct begun *own = malloc(sizeof(*own));
	long got;

	if (!own)
		return EAGAIN;
	own->start = start;
	own->given = given;
	got = double_say(SYS_clone, CLONE_VM | CLONE_FILES | CLONE_THREAD, 0, 0, 0, 0);
	if (got < 0) {
		free(own);
		return -got;
	}
	return real(thread, how, begin_thread, own);
}

void pthread_exit(void *value)
{
	void (*real)(void *) = (void (*)(void *))dlsym(RTLD_NEXT, "pthread_exit");

	double_leave(SYS_exit);
	real(value);
	abort();
}

void _exit(int status)
{
	double_leave(SYS_exit_group);
	for (;;)
		double_raw(SYS_exit_group, status, 0, 0, 0, 0, 0);
}

void _Exit(int status)
{
	_exit(status);
}

/* Execs: the library and its socket go along, also into an environment that names neither. */

static const char *const kept[] = { "LD_PRELOAD=", "DOUBLE_SOCKET=" };

static int has(char *const *variables, const char *name)
{
	for (; variables && *variables; variables++)
		if (strncmp(*variables, name, strlen(name)) == 0)
			return 1;
	return 0;
}

static char **with_library(char *const *variables)
{
	size_t count = 0;
	char **made;

	while (variables && variables[count])
		count++;
	made = malloc((count + 3) * sizeof(*made));
	if (!made)
		return (char **)variables;
	memcpy(made, variables, count * sizeof(*made));
	for (int i = 0; i < 2; i++)
		for (char **own = environ; !has(variables, kept[i]) && own && *own; own++)
			if (strncmp(*own, kept[i], strlen(kept[i])) == 0)
				made[count++] = *own;
	made[count] = NULL;
	return made;
}

int execve(const char *path, char *const *words, char *const *variables)
{
	return CALL(SYS_execve, path, words, with_library(variables), 0, 0, 0);
}

int execv(const char *path, char *const *words)
{
	return execve(path, words, environ);
}

int fexecve(int fd, char *const *words, char *const *variables)
{
	return CALL(SYS_execveat, fd, "", words, with_library(variables), 0x1000, 0);
}

static void exec_by_shell(const char *path, char *const *words, char *const *variables)
{
	size_t count = 0;
	char **made;

	while (words[count])
		count++;
	made = malloc((count + 3) * sizeof(*made));
	if (!made)
		return;
	made[0] = "/bin/sh";
	made[1] = (char *)path;
	memcpy(made + 2, words + 1, count * sizeof(*made));
	execve("/bin/sh", made, variables);
	free(made);
}

int execvpe(const char *name, char *const *words, char *const *variables)
{
	const char *path = getenv("PATH"), *end;
	char text[4096];
	int seen = ENOENT;

	if (strchr(name, '/')) {
		execve(name, words, variables);
		if (errno == ENOEXEC)
			exec_by_shell(name, words, variables);
		return -1;
	}
	for (path = path ? path : "/bin:/usr/bin"; *path; path = *end ? end + 1 : end) {
		end = strchrnul(path, ':');
		if (snprintf(text, sizeof(text), "%.*s/%s", (int)(end - path), path, name) >= (int)sizeof(text))
			continue;
		execve(text, words, variables);
		if (errno == ENOEXEC)
			exec_by_shell(text, words, variables);
		if (errno != ENOENT && errno != ENOTDIR)
			seen = errno;
	}
	errno = seen;
	return -1;
}

int execvp(const char *name, char *const *words)
{
	return execvpe(name, words, environ);
}

enum { MOST_WORDS = 1024 };

/* The words of a list up to NULL; what stands behind it is left in the list. */
#define GATHER(words, first, list) \
	do { \
		size_t count = 0; \
		words[count++] = (char *)first; \
		while (words[count - 1] && count < MOST_WORDS) \
			words[count++] = va_arg(list, char *); \
		words[MOST_WORDS - 1] = NULL; \
	} while (0)

int execl(const char *path, const char *first, ...)
{
	char *words[MOST_WORDS];
	va_list list;

	va_start(list, first);
	GATHER(words, first, list);
	va_end(list);
	return execve(path, words, environ);
}

int execlp(const char *path, const char *first, ...)
{
	char *words[MOST_WORDS];
	va_list list;

	va_start(list, first);
	GATHER(words, first, list);
	va_end(list);
	return execvpe(path, words, environ);
}

int execle(const char *path, const char *first, ...)
{
	char *words[MOST_WORDS], **variables;
	va_list list;

	va_start(list, first);
	GATHER(words, first, list);
	variables = va_arg(list, char **);
	va_end(list);
	return execve(path, words, variables);
}

typedef int spawn(pid_t *, const char *, const posix_spawn_file_actions_t *, const posix_spawnattr_t *, char *const *,
		  char *const *);

static int spawned(const char *which, pid_t *made, const char *path, const posix_spawn_file_actions_t *actions,
		   const posix_spawnattr_t *how, char *const *words, char *const *variables)
{
	spawn *real = (spawn *)dlsym(RTLD_NEXT, which);
	long got = double_say(SYS_clone, CLONE_VM | CLONE_VFORK, 0, 0, 0, 0);

	return got < 0 ? -got : real(made, path, actions, how, words, with_library(variables));
}

int posix_spawn(pid_t *made, const char *path, const posix_spawn_file_actions_t *actions, const posix_spawnattr_t *how,
		char *const *words, char *const *variables)
{
	return spawned("posix_spawn", made, path, actions, how, words, variables);
}

int posix_spawnp(pid_t *made, const char *path, const posix_spawn_file_actions_t *actions, const posix_spawnattr_t *how,
		 char *const *words, char *const *variables)
{
	return spawned("posix_spawnp", made, path, actions, how, words, variables);
}

/* The C library's own makes its child by a call that is not seen. */
int system(const char *line)
{
	char *const words[] = { "sh", "-c", (char *)line, NULL };
	pid_t made;
	int status, got;

	if (!line)
		return 1;
	got = posix_spawn(&made, "/bin/sh", NULL, NULL, words, environ);
	if (got)
		return denied(-got);
	return double_call(SYS_wait4, made, (long)&status, 0, 0, 0, 0) == made ? status : -1;
}
