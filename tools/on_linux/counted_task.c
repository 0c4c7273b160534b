/*
 * The counted task: does what the tool asks for, line by line, and takes no page fault that a line does not ask for.
 *
 * usage: counted_task COMMANDS REPLIES
 *     COMMANDS  the descriptor from which it reads lines
 *     REPLIES   the descriptor to which it writes one line for each line that it has done
 *
 *     u N        touches N pages in user mode; replies "ok"
 *     k N        has the kernel touch N pages; replies "ok"
 *     h          replies "ok", and then waits for the next line without sleeping: it stays on its processor
 *     f C R      makes a task that reads its lines from descriptor C and replies on R; replies with its process number
 *     x          exits; nothing is replied
 *
 * A task that it makes shares its memory, so no page is copied for it. The stacks and the text are touched before the
 * first reply. Pages are taken from one area, without huge pages, and given back at the end of each line.
 */
#define _GNU_SOURCE
#include <errno.h>
#include <fcntl.h>
#include <sched.h>
#include <signal.h>
#include <stdlib.h>
#include <string.h>
#include <sys/mman.h>
#include <sys/prctl.h>
#include <sys/syscall.h>
#include <sys/types.h>
#include <sys/wait.h>
#include <time.h>
#include <unistd.h>

enum { PAGES = 32768, TASKS = 64, STACK = 32768, LINE = 64 };

static char stacks[TASKS][STACK] __attribute__((aligned(64)));
static int stacks_used;
static char *area;
static size_t page;

struct ends {
	int commands, replies;
};

static struct ends ends_of[TASKS];

static int serve(void *ends);

static void fail(const char *why)
{
	ssize_t ignored = write(2, why, strlen(why));
	(void)ignored;
	_exit(70);
}

static void reply(int to, const char *text)
{
	size_t size = strlen(text);

	if (write(to, text, size) != (ssize_t)size)
		_exit(0);
}

static void reply_number(int to, long number)
{
	char text[24];
	int place = sizeof(text);

	text[--place] = 0;
	text[--place] = '\n';
	do {
		text[--place] = (char)('0' + number % 10);
		number /= 10;
	} while (number);
	reply(to, text + place);
}

/* Reads one line, byte by byte: 0 at the end. With held set it looks again and again and does not sleep. */
static int read_line(int from, char *line, int held)
{
	int size = 0;

	if (held)
		fcntl(from, F_SETFL, O_NONBLOCK);
	while (size < LINE - 1) {
		ssize_t got = read(from, line + size, 1);

		if (got < 0 && (errno == EAGAIN || errno == EINTR))
			continue;
		if (got <= 0)
			return 0;
		if (line[size] == '\n')
			break;
		size++;
	}
	line[size] = 0;
	if (held)
		fcntl(from, F_SETFL, 0);
	return 1;
}

static void touch(char mode, long pages)
{
	for (long i = 0; i < pages; i++) {
		char *place = area + page * (size_t)i;

		if (mode == 'u')
			*(volatile char *)place = 1;
		else if (syscall(SYS_clock_gettime, CLOCK_MONOTONIC, place))
			fail("clock_gettime failed\n");
	}
	if (pages && madvise(area, page * (size_t)pages, MADV_DONTNEED))
		fail("madvise failed\n");
}

static void start_task(const char *words, int replies)
{
	char *rest;
	struct ends *ends;
	int child;

	if (stacks_used == TASKS)
		fail("too many tasks\n");
	ends = &ends_of[stacks_used];
	ends->commands = (int)strtol(words, &rest, 10);
	ends->replies = (int)strtol(rest, NULL, 10);
	child = clone(serve, stacks[stacks_used] + STACK, CLONE_VM | SIGCHLD, ends);
	if (child < 0)
		fail("clone failed\n");
	stacks_used++;
	reply_number(replies, child);
}

static int serve(void *of)
{
	struct ends *ends = of;
	char line[LINE];
	int held = 0;

	while (read_line(ends->commands, line, held)) {
		long number;

		held = 0;
		number = line[0] == 'u' || line[0] == 'k' ? strtol(line + 1, NULL, 10) : 0;
		if (number < 0 || number > PAGES)
			fail("too many pages\n");
		if (line[0] == 'x')
			_exit(0);
		if (line[0] == 'f') {
			start_task(line + 1, ends->replies);
			continue;
		}
		if (line[0] == 'h')
			held = 1;
		else
			touch(line[0], number);
		reply(ends->replies, "ok\n");
	}
	_exit(0);
}

static int leave(void *nothing)
{
	(void)nothing;
	_exit(0);
}

/* Touches all that lines will need: the text and the data by doing each kind of work, the stacks by writing them. */
static void warm_up(void)
{
	memset(stacks, 1, sizeof(stacks));
	memset(ends_of, 0, sizeof(ends_of));
	mlockall(MCL_CURRENT);
	page = (size_t)sysconf(_SC_PAGESIZE);
	area = mmap(NULL, page * PAGES, PROT_READ | PROT_WRITE, MAP_PRIVATE | MAP_ANONYMOUS | MAP_NORESERVE, -1, 0);
	if (area == MAP_FAILED)
		fail("mmap failed\n");
	madvise(area, page * PAGES, MADV_NOHUGEPAGE);
	touch('u', 8);
	touch('k', 8);
	if (clone(leave, stacks[0] + STACK, CLONE_VM | SIGCHLD, NULL) < 0)
		fail("clone failed\n");
	while (wait(NULL) > 0)
		;
}

int main(int count, char **words)
{
	struct ends ends;

	if (count != 3)
		fail("usage: counted_task COMMANDS REPLIES\n");
	prctl(PR_SET_PDEATHSIG, SIGKILL);
	signal(SIGCHLD, SIG_IGN);
	signal(SIGPIPE, SIG_IGN);
	ends.commands = atoi(words[1]);
	ends.replies = atoi(words[2]);
	warm_up();
	reply(ends.replies, "ready\n");
	return serve(&ends);
}
