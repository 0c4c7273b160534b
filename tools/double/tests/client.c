/*
 * A client for tests: does the operations of a file, one a line, and writes a line for each: its number, the value
 * returned or "fd", the errno, and what else there is to say.
 *
 * usage: client FILE [FIRST]
 *
 *     o V TYPE CONFIG PERIOD SAMPLE FORMAT FLAGS PID CPU GROUP FDFLAGS SIZE WAKEUP   perf_event_open into variable V;
 *         GROUP is a variable or -1, or a number of 1000 and above for the descriptor that is 1000 less
 *     r V SIZE        read          R V SIZE   read into memory that is not there    v V A B    readv of two buffers
 *     P V SIZE        pread         w V        write         l V       lseek         T V        ftruncate
 *     i V REQUEST ARG ioctl         p V N      ioctl of a period that stands in memory
 *     d V             PERF_EVENT_IOC_ID; its value is not written, since ids differ between machines
 *     O V W           SET_OUTPUT to variable W, or to -1
 *     m V PAGES PROT FLAGS          mmap       M V        the records in the ring: their types and sizes; the tail moves
 *     c V             close         u V W      dup of V into W         U V N      dup2 to descriptor N
 *     F V W           fcntl F_DUPFD into W     C N N      close_range of descriptors
 *     q V MS          poll          y V MS     ppoll         Q V US    select        Y V US     pselect
 *     e V             epoll_ctl     a V        sendmsg passes V on
 *     A SIZE          perf_event_open of an attribute at an address that is not there, or of this size
 *     s NS            nanosleep     k NAME     a mark        L N       the soft limit of descriptors
 *     f N             fork: the child does the next N operations and exits, and the parent waits for it
 *     t N             a thread does the next N operations, and is waited for
 *     x               exec of this program for the rest of the operations; variables are kept
 *     S               the calls of another architecture: openat and perf_event_open by int 0x80
 */
#define _GNU_SOURCE
#include <errno.h>
#include <fcntl.h>
#include <linux/perf_event.h>
#include <poll.h>
#include <pthread.h>
#include <stdint.h>
#include <stdio.h>
#include <stdlib.h>
#include <string.h>
#include <sys/epoll.h>
#include <sys/ioctl.h>
#include <sys/mman.h>
#include <sys/prctl.h>
#include <sys/resource.h>
#include <sys/select.h>
#include <sys/socket.h>
#include <sys/syscall.h>
#include <sys/uio.h>
#include <sys/wait.h>
#include <time.h>
#include <unistd.h>

enum { VARIABLES = 300, LINES = 4000, MARK = 0x6a676d6b };

static int fds[VARIABLES];
static char *maps[VARIABLES];
static char *lines[LINES];
static int count;
static char *self, *source;

static void say(int place, long value, int error, const char *rest)
{
	char text[4096];
	int size = snprintf(text, sizeof(text), "%d %ld %d%s\n", place, value, value < 0 ? error : 0, rest);

	if (write(1, text, size) != size)
		_exit(70);
}

static void say_words(int place, long got, int error, const uint64_t *words)
{
	char text[3500] = "";

	for (long i = 0; i < got / 8 && i < 150; i++)
		sprintf(text + strlen(text), " %llu", (unsigned long long)words[i]);
	say(place, got, error, text);
}

static void say_descriptor(int place, int number, int error)
{
	say(place, number < 0 ? -1 : 0, error, number < 0 ? "" : " fd");
}

static int descriptor(long long variable)
{
	return variable >= 1000 ? variable - 1000 : variable < 0 ? -1 : fds[variable];
}

static void open_one(int place, const long long *n)
{
	/* longer than any attribute */
	char room[512] __attribute__((aligned(8))) = { 0 };
	struct perf_event_attr *attr = (void *)room;
	uint64_t flags = n[6];

	attr->type = n[1];
	attr->config = n[2];
	attr->sample_period = n[3];
	attr->sample_type = n[4];
	attr->read_format = n[5];
	memcpy(room + 40, &flags, 8);
	attr->size = n[11];
	attr->wakeup_events = n[12];
	fds[n[0]] = syscall(SYS_perf_event_open, attr, n[7] == 1 ? getppid() : (pid_t)n[7], (int)n[8], descriptor(n[9]), n[10]);
	say_descriptor(place, fds[n[0]], errno);
}

static void open_wrongly(int place, const long long *n)
{
	struct perf_event_attr attr;
	long got;

	memset(&attr, 0, sizeof(attr));
	attr.type = 1;
	attr.config = 9;
	attr.size = n[0];
	got = syscall(SYS_perf_event_open, n[0] ? &attr : (void *)8, 0, -1, -1, 0);
	say(place, got < 0 ? -1 : 0, errno, "");
	if (got >= 0)
		close(got);
}

static void read_two(int place, const long long *n)
{
	uint64_t words[200];
	struct iovec two[2] = { { words, n[1] }, { (char *)words + n[1], n[2] } };
	long got = readv(fds[n[0]], two, 2);

	say_words(place, got, errno, words);
}

static void map_one(int place, const long long *n)
{
	void *got = mmap(NULL, (1 + n[1]) * 4096, n[2], n[3], fds[n[0]], 0);

	maps[n[0]] = got == MAP_FAILED ? NULL : got;
	say(place, got == MAP_FAILED ? -1 : 0, errno, "");
}

static void walk_ring(int place, const long long *n)
{
	struct perf_event_mmap_page *page = (void *)maps[n[0]];
	char text[3500] = "";
	uint64_t tail, head;

	if (!page) {
		say(place, -1, ENODEV, "");
		return;
	}
	head = __atomic_load_n(&page->data_head, __ATOMIC_ACQUIRE);
	for (tail = page->data_tail; tail < head;) {
		char *data = (char *)page + page->data_offset;
		struct perf_event_header *header = (void *)(data + tail % page->data_size);

		if (strlen(text) < 3000)
			sprintf(text + strlen(text), " %u:%u:%u", header->type, header->misc, header->size);
		tail += header->size;
	}
	__atomic_store_n(&page->data_tail, tail, __ATOMIC_RELEASE);
	say(place, 0, 0, text);
}

static void poll_one(int place, const long long *n, char what)
{
	struct pollfd one = { fds[n[0]], POLLIN, 0 };
	struct timespec time = { n[1] / 1000, n[1] % 1000 * 1000000 };
	int got = what == 'q' ? poll(&one, 1, n[1]) : ppoll(&one, 1, &time, NULL), error = errno;
	char text[32];

	snprintf(text, sizeof(text), " %d", got > 0 ? one.revents : 0);
	say(place, got, error, text);
}

static void select_one(int place, const long long *n, char what)
{
	struct timeval time = { 0, n[1] };
	struct timespec length = { 0, n[1] * 1000 };
	fd_set set;
	int got;

	FD_ZERO(&set);
	FD_SET(fds[n[0]], &set);
	if (what == 'Q')
		got = syscall(SYS_select, fds[n[0]] + 1, &set, NULL, NULL, &time);
	else
		got = pselect(fds[n[0]] + 1, &set, NULL, NULL, &length, NULL);
	say(place, got, errno, "");
}

static void watch_one(int place, const long long *n)
{
	struct epoll_event event = { EPOLLIN, { 0 } };
	int watch = epoll_create1(0), got = epoll_ctl(watch, EPOLL_CTL_ADD, fds[n[0]], &event), error = errno;

	close(watch);
	say(place, got, error, "");
}

static void pass_on(int place, const long long *n)
{
	char room[CMSG_SPACE(sizeof(int))] = { 0 }, byte = 0;
	struct iovec data = { &byte, 1 };
	struct msghdr message = { .msg_iov = &data, .msg_iovlen = 1, .msg_control = room, .msg_controllen = sizeof(room) };
	struct cmsghdr *head = CMSG_FIRSTHDR(&message);
	int pair[2], got, error;

	socketpair(AF_UNIX, SOCK_STREAM, 0, pair);
	head->cmsg_level = SOL_SOCKET;
	head->cmsg_type = SCM_RIGHTS;
	head->cmsg_len = CMSG_LEN(sizeof(int));
	memcpy(CMSG_DATA(head), &fds[n[0]], sizeof(int));
	got = sendmsg(pair[0], &message, 0);
	error = errno;
	close(pair[0]);
	close(pair[1]);
	say(place, got, error, "");
}

static void control(int place, const long long *n, char what)
{
	uint64_t word = n[1];
	long got;

	if (what == 'i')
		got = ioctl(fds[n[0]], n[1], n[2]);
	else if (what == 'p')
		got = ioctl(fds[n[0]], PERF_EVENT_IOC_PERIOD, &word);
	else if (what == 'd')
		got = ioctl(fds[n[0]], PERF_EVENT_IOC_ID, &word);
	else
		got = ioctl(fds[n[0]], PERF_EVENT_IOC_SET_OUTPUT, descriptor(n[1]));
	say(place, got, errno, "");
}

static void duplicate(int place, const long long *n, char what)
{
	int got = what == 'u' ? dup(fds[n[0]]) : what == 'F' ? fcntl(fds[n[0]], F_DUPFD, 0) : dup2(fds[n[0]], n[1]);
	int error = errno;

	if (what != 'U')
		fds[n[1]] = got;
	say_descriptor(place, got, error);
}

static void limit(int place, const long long *n)
{
	struct rlimit now;

	getrlimit(RLIMIT_NOFILE, &now);
	now.rlim_cur = n[0];
	say(place, setrlimit(RLIMIT_NOFILE, &now), errno, "");
}

static void by_interrupt(int place)
{
#ifdef __x86_64__
	long got;

	__asm__ volatile("int $0x80" : "=a"(got) : "a"(336), "b"(0), "c"(0), "d"(-1), "S"(-1), "D"(0) : "memory", "r8", "r9", "r10", "r11");
	say(place, got < 0 ? -1 : got, -got, "");
	got = syscall(0x40000000 + SYS_perf_event_open, NULL, 0, -1, -1, 0);
	say(place, got, errno, "");
#else
	say(place, -1, ENOSYS, "");
#endif
}

static int run(int first, int end);

struct part {
	int first, end;
};

static void *run_part(void *given)
{
	struct part *part = given;

	run(part->first, part->end);
	return NULL;
}

/* Others do the next operations: gives the place behind them. */
static int by_others(int place, const long long *n, char what)
{
	struct part part = { place + 1, place + 1 + n[0] };
	pthread_t thread;
	pid_t child;
	int status = 0;

	if (what == 't') {
		pthread_create(&thread, NULL, run_part, &part);
		pthread_join(thread, NULL);
		return part.end;
	}
	child = fork();
	if (child == 0) {
		run(part.first, part.end);
		_exit(0);
	}
	if (child > 0)
		waitpid(child, &status, 0);
	say(place, child < 0 ? -1 : status, errno, "");
	return part.end;
}

static void replace(int place)
{
	char text[VARIABLES * 8] = "", next[16];

	for (int i = 0; i < 40; i++)
		sprintf(text + strlen(text), "%d ", fds[i]);
	setenv("CLIENT_VARIABLES", text, 1);
	snprintf(next, sizeof(next), "%d", place + 1);
	execl(self, self, source, next, (char *)NULL);
	say(place, -1, errno, "");
}

static void do_one(int place, const char *name, const long long *n)
{
	uint64_t words[512] = { 0 };
	struct timespec time = { n[0] / 1000000000, n[0] % 1000000000 };
	long got;

	switch (lines[place][0]) {
	case 'o': open_one(place, n); return;
	case 'A': open_wrongly(place, n); return;
	case 'v': read_two(place, n); return;
	case 'm': map_one(place, n); return;
	case 'M': walk_ring(place, n); return;
	case 'q': case 'y': poll_one(place, n, lines[place][0]); return;
	case 'Q': case 'Y': select_one(place, n, lines[place][0]); return;
	case 'e': watch_one(place, n); return;
	case 'a': pass_on(place, n); return;
	case 'L': limit(place, n); return;
	case 'S': by_interrupt(place); return;
	case 'x': replace(place); return;
	case 'i': case 'p': case 'd': case 'O': control(place, n, lines[place][0]); return;
	case 'u': case 'U': case 'F': duplicate(place, n, lines[place][0]); return;
	case 'r':
		got = read(fds[n[0]], words, n[1]);
		say_words(place, got, errno, words);
		return;
	case 'R': got = read(fds[n[0]], (void *)8, n[1]); break;
	case 'P': got = pread(fds[n[0]], words, n[1], 0); break;
	case 'w': got = write(fds[n[0]], words, 8); break;
	case 'l': got = lseek(fds[n[0]], 0, SEEK_SET); break;
	case 'T': got = ftruncate(fds[n[0]], 0); break;
	case 'c': got = close(fds[n[0]]); break;
	case 'C': got = close_range(n[0], n[1], 0); break;
	case 's': got = nanosleep(&time, NULL); break;
	case 'k': got = prctl(MARK, name, 0, 0, 0); break;
	default: errno = ENOTSUP; got = -1;
	}
	say(place, got, errno, "");
}

static int run(int first, int end)
{
	for (int place = first; place < end && place < count;) {
		char name[64] = "", *rest = lines[place] + 1;
		long long n[13] = { 0 };

		sscanf(rest, " %63s", name);
		for (int i = 0; i < 13; i++)
			n[i] = strtoll(rest, &rest, 0);
		if (lines[place][0] == 'f' || lines[place][0] == 't') {
			place = by_others(place, n, lines[place][0]);
			continue;
		}
		do_one(place, name, n);
		place++;
	}
	return 0;
}

int main(int words, char **given)
{
	static char text[1 << 18];
	char *kept = getenv("CLIENT_VARIABLES");
	int file = open(given[1], O_RDONLY);
	ssize_t size = read(file, text, sizeof(text) - 1);

	close(file);
	self = "/proc/self/exe";
	source = given[1];
	for (int i = 0; i < VARIABLES; i++)
		fds[i] = -1;
	for (int i = 0; kept && i < 40; i++)
		fds[i] = strtol(kept, &kept, 10);
	for (char *line = strtok(size > 0 ? text : "", "\n"); line && count < LINES; line = strtok(NULL, "\n"))
		lines[count++] = line;
	return run(words > 2 ? atoi(given[2]) : 0, count);
}
