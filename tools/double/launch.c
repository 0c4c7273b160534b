/*
 * Starts a command whose calls of perf_event_open(2), and of what acts on its descriptors, are answered by the double.
 *
 * usage: launch WAY LOW HIGH TELL GO COMMAND..
 *     WAY   notify: each such call waits for the holder of the filter's listener (seccomp user notification);
 *           preload: perf_event_open is ENOSYS in the kernel, since a loaded library answers it
 *     LOW HIGH   the descriptors of events
 *     TELL  the descriptor to which the number of the listener is written as one int, or a negative errno
 *     GO    the descriptor from which one byte is read before the command starts
 *
 * Calls by the i386 and the x32 way are ENOSYS, so is io_uring, which would read descriptors without a call.
 */
#define _GNU_SOURCE
#include <errno.h>
#include <fcntl.h>
#include <linux/audit.h>
#include <linux/filter.h>
#include <linux/seccomp.h>
#include <stddef.h>
#include <stdio.h>
#include <stdlib.h>
#include <string.h>
#include <sys/prctl.h>
#include <sys/syscall.h>
#include <unistd.h>

enum { MOST = 700, X32 = 0x40000000, MARK = 0x6a676d6b };
enum way { ALWAYS, RANGE, RANGE_OF_TWO, FILE_MAPPING, UP_TO, ANY_BIT, OPTIONS };

/* A call that is caught: always, or by its arguments. The number is of an argument, or the bits looked for. */
static const struct rule {
	int call;
	enum way way;
	unsigned number;
} rules[] = {
	{ SYS_read, RANGE, 0 },
	{ SYS_ioctl, RANGE, 0 },
	{ SYS_close, RANGE, 0 },
	{ SYS_mmap, FILE_MAPPING, 4 },
	{ SYS_poll, ALWAYS, 0 },
	{ SYS_ppoll, ALWAYS, 0 },
	{ SYS_select, ALWAYS, 0 },
	{ SYS_pselect6, ALWAYS, 0 },
	{ SYS_perf_event_open, ALWAYS, 0 },
	{ SYS_nanosleep, ALWAYS, 0 },
	{ SYS_clock_nanosleep, ALWAYS, 0 },
	{ SYS_clone, ALWAYS, 0 },
	{ SYS_clone3, ALWAYS, 0 },
	{ SYS_fork, ALWAYS, 0 },
	{ SYS_vfork, ALWAYS, 0 },
	{ SYS_execve, ALWAYS, 0 },
	{ SYS_execveat, ALWAYS, 0 },
	{ SYS_exit, ALWAYS, 0 },
	{ SYS_exit_group, ALWAYS, 0 },
	{ SYS_prctl, OPTIONS, 0 },
	{ SYS_fcntl, RANGE, 0 },
	{ SYS_dup, RANGE, 0 },
	{ SYS_dup2, RANGE_OF_TWO, 0 },
	{ SYS_dup3, RANGE_OF_TWO, 0 },
	{ SYS_close_range, UP_TO, 1 },
	{ SYS_unshare, ANY_BIT, 0x400 },
	{ SYS_pread64, RANGE, 0 },
	{ SYS_readv, RANGE, 0 },
	{ SYS_preadv, RANGE, 0 },
	{ SYS_preadv2, RANGE, 0 },
	{ SYS_write, RANGE, 0 },
	{ SYS_pwrite64, RANGE, 0 },
	{ SYS_writev, RANGE, 0 },
	{ SYS_pwritev, RANGE, 0 },
	{ SYS_pwritev2, RANGE, 0 },
	{ SYS_lseek, RANGE, 0 },
	{ SYS_ftruncate, RANGE, 0 },
	{ SYS_fallocate, RANGE, 0 },
	{ SYS_sendfile, RANGE, 1 },
	{ SYS_splice, RANGE, 0 },
	{ SYS_copy_file_range, RANGE, 0 },
	{ SYS_epoll_ctl, RANGE, 2 },
	{ SYS_sendmsg, ALWAYS, 0 },
	{ SYS_sendmmsg, ALWAYS, 0 },
	{ SYS_pidfd_getfd, RANGE, 1 },
};

static struct sock_filter program[MOST];
static unsigned short size;
static unsigned low, high;

static void emit(unsigned short code, unsigned value, unsigned char if_true, unsigned char if_false)
{
	struct sock_filter step = { code, if_true, if_false, value };

	if (size == MOST)
		abort();
	program[size++] = step;
}

static void give(unsigned what)
{
	emit(BPF_RET | BPF_K, what, 0, 0);
}

/* Only the low half of an argument is looked at: descriptors and options are of 32 bits. */
static void load(unsigned argument)
{
	emit(BPF_LD | BPF_W | BPF_ABS, offsetof(struct seccomp_data, args) + 8 * argument, 0, 0);
}

static void notify_in_range(unsigned argument)
{
	load(argument);
	emit(BPF_JMP | BPF_JGE | BPF_K, low, 0, 2);
	emit(BPF_JMP | BPF_JGT | BPF_K, high, 1, 0);
	give(SECCOMP_RET_USER_NOTIF);
}

static void notify_as(const struct rule *rule)
{
	switch (rule->way) {
	case ALWAYS:
		give(SECCOMP_RET_USER_NOTIF);
		break;
	case RANGE_OF_TWO:
		notify_in_range(0);
		notify_in_range(1);
		break;
	case FILE_MAPPING:
	case RANGE:
		notify_in_range(rule->number);
		break;
	case UP_TO:
		load(rule->number);
		emit(BPF_JMP | BPF_JGE | BPF_K, low, 0, 1);
		give(SECCOMP_RET_USER_NOTIF);
		break;
	case ANY_BIT:
		load(0);
		emit(BPF_JMP | BPF_JSET | BPF_K, rule->number, 0, 1);
		give(SECCOMP_RET_USER_NOTIF);
		break;
	case OPTIONS:
		load(0);
		emit(BPF_JMP | BPF_JEQ | BPF_K, PR_TASK_PERF_EVENTS_DISABLE, 2, 0);
		emit(BPF_JMP | BPF_JEQ | BPF_K, PR_TASK_PERF_EVENTS_ENABLE, 1, 0);
		emit(BPF_JMP | BPF_JEQ | BPF_K, MARK, 0, 1);
		give(SECCOMP_RET_USER_NOTIF);
	}
	give(SECCOMP_RET_ALLOW);
}

static void answer_call(int call, unsigned what)
{
	emit(BPF_JMP | BPF_JEQ | BPF_K, call, 0, 1);
	give(what);
}

static void make_filter(int with_notification)
{
	const unsigned absent = SECCOMP_RET_ERRNO | ENOSYS;

	emit(BPF_LD | BPF_W | BPF_ABS, offsetof(struct seccomp_data, arch), 0, 0);
	emit(BPF_JMP | BPF_JEQ | BPF_K, AUDIT_ARCH_X86_64, 1, 0);
	give(absent);
	emit(BPF_LD | BPF_W | BPF_ABS, offsetof(struct seccomp_data, nr), 0, 0);
	emit(BPF_JMP | BPF_JGE | BPF_K, X32, 0, 1);
	give(absent);
	answer_call(SYS_io_uring_setup, absent);
	answer_call(SYS_io_setup, absent);
	if (!with_notification)
		answer_call(SYS_perf_event_open, absent);
	for (size_t i = 0; with_notification && i < sizeof(rules) / sizeof(rules[0]); i++) {
		unsigned short place = size;

		emit(BPF_JMP | BPF_JEQ | BPF_K, rules[i].call, 0, 0);
		notify_as(&rules[i]);
		program[place].jf = size - place - 1;
	}
	give(SECCOMP_RET_ALLOW);
}

static int install(int with_notification)
{
	struct sock_fprog filter;
	unsigned flags = with_notification ? SECCOMP_FILTER_FLAG_NEW_LISTENER : 0;
	int got;

	make_filter(with_notification);
	filter.len = size;
	filter.filter = program;
	if (prctl(PR_SET_NO_NEW_PRIVS, 1, 0, 0, 0))
		return -errno;
	got = syscall(SYS_seccomp, SECCOMP_SET_MODE_FILTER, flags, &filter);
	return got < 0 ? -errno : got;
}

/* The library goes into the command, and not into this program. */
static void load_library(void)
{
	const char *library = getenv("DOUBLE_LIBRARY"), *others = getenv("LD_PRELOAD");
	char text[4096];

	if (!library)
		return;
	snprintf(text, sizeof(text), "%s%s%s", library, others ? " " : "", others ? others : "");
	setenv("LD_PRELOAD", text, 1);
	unsetenv("DOUBLE_LIBRARY");
}

int main(int count, char **words)
{
	int tell, go, listener;
	char byte;

	if (count < 7)
		return 70;
	low = atoi(words[2]);
	high = atoi(words[3]);
	tell = atoi(words[4]);
	go = atoi(words[5]);
	fcntl(tell, F_SETFD, FD_CLOEXEC);
	fcntl(go, F_SETFD, FD_CLOEXEC);
	listener = install(strcmp(words[1], "notify") == 0);
	if (write(tell, &listener, sizeof(listener)) != sizeof(listener))
		return 70;
	if (read(go, &byte, 1) != 1)
		return 70;
	load_library();
	execvp(words[6], words + 6);
	fprintf(stderr, "double: %s: %s\n", words[6], strerror(errno));
	return errno == ENOENT ? 127 : 126;
}
