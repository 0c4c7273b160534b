/*
 * The double's library: loaded into a command before the C library (LD_PRELOAD), it sends the calls that the filter of
 * launch.c would catch to the broker by a socket, and does what the broker answers. Programs that make system calls of
 * their own are not seen by it; for those perf_event_open is ENOSYS, by the filter.
 *
 * DOUBLE_SOCKET names the socket. Each thread has a connection of its own, which is not inherited.
 */
#define _GNU_SOURCE
#include "preload.h"
#include <dlfcn.h>
#include <errno.h>
#include <fcntl.h>
#include <linux/futex.h>
#include <poll.h>
#include <pthread.h>
#include <sched.h>
#include <signal.h>
#include <stdarg.h>
#include <stdint.h>
#include <stdlib.h>
#include <string.h>
#include <sys/prctl.h>
#include <sys/resource.h>
#include <sys/socket.h>
#include <sys/syscall.h>
#include <sys/uio.h>
#include <sys/un.h>
#include <time.h>

enum { LOW = 700, HIGH = 955, CONNECTIONS = 960, MARK = 0x6a676d6b, HELLO = 100000, CANCEL = 100001 };
enum { DOES_ITSELF = 1, HAS_DESCRIPTOR = 2 };

struct request {
	int32_t pid, tid;
	int64_t number;
	uint64_t args[6];
};

struct reply {
	int64_t value;
	int32_t error;
	uint32_t flags;
	int32_t number, close_on_exec;
};

static char address[108];
static __thread int connection = -1, owner, busy, has_left;

long double_raw(long number, long a, long b, long c, long d, long e, long f)
{
	long got;
	register long r10 __asm__("r10") = d, r8 __asm__("r8") = e, r9 __asm__("r9") = f;

	__asm__ volatile("syscall" : "=a"(got) : "a"(number), "D"(a), "S"(b), "d"(c), "r"(r10), "r"(r8), "r"(r9)
			 : "rcx", "r11", "memory");
	return got;
}

#define raw double_raw

/* A connection whose number is above those of events, where the limit allows it. */
static int connected(void)
{
	struct sockaddr_un to = { .sun_family = AF_UNIX };
	int made = raw(SYS_socket, AF_UNIX, SOCK_SEQPACKET | SOCK_CLOEXEC, 0, 0, 0, 0), above;

	if (made < 0)
		return -1;
	memcpy(to.sun_path, address, sizeof(to.sun_path));
	if (raw(SYS_connect, made, (long)&to, sizeof(to), 0, 0, 0) < 0) {
		raw(SYS_close, made, 0, 0, 0, 0, 0);
		return -1;
	}
	above = raw(SYS_fcntl, made, F_DUPFD_CLOEXEC, CONNECTIONS, 0, 0, 0);
	if (above < 0)
		return made;
	raw(SYS_close, made, 0, 0, 0, 0, 0);
	return above;
}

static int sent(int to, const struct request *request)
{
	return raw(SYS_sendto, to, (long)request, sizeof(*request), MSG_NOSIGNAL, 0, 0) == sizeof(*request);
}

/* The connection of this thread: after a fork, or where the program closed it, a new one. */
static int connection_for(const struct request *request)
{
	if (connection >= 0 && owner != request->pid) {
		raw(SYS_close, connection, 0, 0, 0, 0, 0);
		connection = -1;
	}
	if (connection >= 0 && sent(connection, request))
		return connection;
	connection = connected();
	owner = request->pid;
	return connection >= 0 && sent(connection, request) ? connection : -1;
}

/* Waits for the answer. A signal that its handler takes ends a wait, as it would in the kernel. */
static int received(int from, struct reply *reply, const struct request *request, const sigset_t *mask)
{
	char room[CMSG_SPACE(sizeof(int))] __attribute__((aligned(8)));
	struct iovec data = { reply, sizeof(*reply) };
	struct msghdr message = { .msg_iov = &data, .msg_iovlen = 1, .msg_control = room, .msg_controllen = sizeof(room) };
	struct pollfd one = { from, POLLIN, 0 };
	struct cmsghdr *head;
	int descriptor = -1;

	if (mask && raw(SYS_ppoll, (long)&one, 1, 0, (long)mask, 8, 0) == -EINTR) {
		struct request cancel = *request;

		cancel.number = CANCEL;
		sent(from, &cancel);
	}
	if (raw(SYS_recvmsg, from, (long)&message, MSG_CMSG_CLOEXEC, 0, 0, 0) != sizeof(*reply)) {
		reply->error = ENOSYS;
		reply->flags = 0;
		return -1;
	}
	head = message.msg_controllen >= sizeof(struct cmsghdr) ? CMSG_FIRSTHDR(&message) : NULL;
	if (head && head->cmsg_type == SCM_RIGHTS)
		memcpy(&descriptor, CMSG_DATA(head), sizeof(descriptor));
	return descriptor;
}

static long ask(long number, const long *args);

/* Puts a descriptor that came under its number, also above the soft limit. */
static long placed(int descriptor, const struct reply *reply)
{
	struct rlimit now, more;
	long got;

	raw(SYS_prlimit64, 0, RLIMIT_NOFILE, 0, (long)&now, 0, 0);
	more = now;
	if (now.rlim_cur <= (rlim_t)reply->number) {
		more.rlim_cur = reply->number + 1;
		if (more.rlim_max < more.rlim_cur)
			more.rlim_max = more.rlim_cur;
		raw(SYS_prlimit64, 0, RLIMIT_NOFILE, (long)&more, 0, 0, 0);
	}
	got = raw(SYS_dup3, descriptor, reply->number, reply->close_on_exec ? O_CLOEXEC : 0, 0, 0, 0);
	raw(SYS_prlimit64, 0, RLIMIT_NOFILE, (long)&now, 0, 0, 0);
	raw(SYS_close, descriptor, 0, 0, 0, 0, 0);
	if (got < 0) {
		const long args[6] = { reply->number };

		ask(SYS_close, args);
		return -EMFILE;
	}
	return got;
}

static int may_wait(long number)
{
	return number == SYS_poll || number == SYS_ppoll || number == SYS_select || number == SYS_pselect6 ||
	       number == SYS_nanosleep || number == SYS_clock_nanosleep;
}

/* Asks the broker: the value, a negative errno, or that the kernel does the call (DOES_ITSELF in *flags). */
static long asked(long number, const long *args, unsigned *flags)
{
	struct request request = { raw(SYS_getpid, 0, 0, 0, 0, 0, 0), raw(SYS_gettid, 0, 0, 0, 0, 0, 0), number, { 0 } };
	struct reply reply = { 0, ENOSYS, 0, 0, 0 };
	sigset_t all, before;
	int nested = busy, kept = connection, at, descriptor;
	long value;

	memcpy(request.args, args, sizeof(request.args));
	memset(&all, 0xff, sizeof(all));
	raw(SYS_rt_sigprocmask, SIG_SETMASK, (long)&all, (long)&before, 8, 0, 0);
	if (nested)
		connection = -1;
	busy = 1;
	at = connection_for(&request);
	descriptor = at < 0 ? -1 : received(at, &reply, &request, may_wait(number) ? &before : NULL);
	value = reply.error ? -reply.error : reply.value;
	if (reply.flags & HAS_DESCRIPTOR && descriptor >= 0)
		value = placed(descriptor, &reply);
	*flags = reply.flags;
	if (nested) {
		raw(SYS_close, connection, 0, 0, 0, 0, 0);
		connection = kept;
	}
	busy = nested;
	raw(SYS_rt_sigprocmask, SIG_SETMASK, (long)&before, 0, 8, 0, 0);
	return value;
}

static long ask(long number, const long *args)
{
	unsigned flags;

	return asked(number, args, &flags);
}

/* Says something, and gives whether the kernel may do it: 0, or a negative errno. */
long double_say(long number, long a, long b, long c, long d, long e)
{
	const long args[6] = { a, b, c, d, e, 0 };
	unsigned flags;
	long got = address[0] ? asked(number, args, &flags) : 0;

	return address[0] && !(flags & DOES_ITSELF) ? got : 0;
}

static int in_range(long number)
{
	return (int)number >= LOW && (int)number <= HIGH;
}

static int is_caught(long number, const long *args)
{
	switch (number) {
	case SYS_read: case SYS_ioctl: case SYS_close: case SYS_fcntl: case SYS_dup: case SYS_pread64: case SYS_readv:
	case SYS_preadv: case SYS_preadv2: case SYS_write: case SYS_pwrite64: case SYS_writev: case SYS_pwritev:
	case SYS_pwritev2: case SYS_lseek: case SYS_ftruncate: case SYS_fallocate: case SYS_splice:
	case SYS_copy_file_range:
		return in_range(args[0]);
	case SYS_mmap:
		return in_range(args[4]);
	case SYS_dup2: case SYS_dup3:
		return in_range(args[0]) || in_range(args[1]);
	case SYS_sendfile: case SYS_pidfd_getfd:
		return in_range(args[1]);
	case SYS_epoll_ctl:
		return in_range(args[2]);
	case SYS_close_range:
		return (unsigned)args[1] >= LOW;
	case SYS_prctl:
		return (int)args[0] == PR_TASK_PERF_EVENTS_DISABLE || (int)args[0] == PR_TASK_PERF_EVENTS_ENABLE ||
		       (int)args[0] == MARK;
	case SYS_unshare:
		return args[0] & CLONE_FILES;
	case SYS_perf_event_open: case SYS_poll: case SYS_ppoll: case SYS_select: case SYS_pselect6: case SYS_nanosleep:
	case SYS_clock_nanosleep: case SYS_execve: case SYS_execveat: case SYS_exit: case SYS_exit_group:
	case SYS_sendmsg: case SYS_sendmmsg: case SYS_fork: case SYS_clone: case SYS_clone3:
		return 1;
	}
	return 0;
}

/* Does a call, by the broker where it is caught: a value or a negative errno. */
long double_act(long number, long a, long b, long c, long d, long e, long f)
{
	const long args[6] = { a, b, c, d, e, f };
	unsigned flags;
	long got;

	if (number == SYS_vfork)
		number = SYS_fork;
	if (!address[0] || !is_caught(number, args))
		return number == SYS_perf_event_open ? -ENOSYS : raw(number, a, b, c, d, e, f);
	got = asked(number, args, &flags);
	return flags & DOES_ITSELF ? raw(number, a, b, c, d, e, f) : got;
}

/* The same, as the C library gives it: -1 and errno. */
long double_call(long number, long a, long b, long c, long d, long e, long f)
{
	long got = double_act(number, a, b, c, d, e, f);

	if (got < 0 && got > -4096) {
		errno = -got;
		return -1;
	}
	return got;
}

__attribute__((constructor)) static void begin(void)
{
	const char *given = getenv("DOUBLE_SOCKET");

	if (!given || strlen(given) >= sizeof(address))
		return;
	strcpy(address, given);
	double_say(HELLO, 0, 0, 0, 0, 0);
}

/* A thread or the process says once that it goes. */
void double_leave(long number)
{
	if (has_left)
		return;
	has_left = 1;
	double_say(number, 0, 0, 0, 0, 0);
	if (number == SYS_exit && connection >= 0) {
		raw(SYS_close, connection, 0, 0, 0, 0, 0);
		connection = -1;
	}
}

__attribute__((destructor)) static void end(void)
{
	double_leave(SYS_exit_group);
}

/* A child of a fork speaks for itself. */
void double_is_child(void)
{
	has_left = 0;
}
