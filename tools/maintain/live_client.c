/*
 * Asks perf_live line by line, and prints how long that took.
 *
 * Usage: live_client PROGRAM HEAD LINES
 *
 * HEAD is a file with the head of a session, LINES one with its lines. A line is sent when the one before it has been
 * answered. Prints the number of lines, how many were answered `ok`, and the nanoseconds from the first line to the
 * last answer. A line `?` goes ahead of the others and is not timed: once it is answered, the head has been read.
 */
#include <errno.h>
#include <signal.h>
#include <stdio.h>
#include <stdlib.h>
#include <string.h>
#include <sys/wait.h>
#include <time.h>
#include <unistd.h>

enum { ANSWER = 65536 };

static void fail(const char *what)
{
	fprintf(stderr, "%s: %s\n", what, errno ? strerror(errno) : "its input or output ended");
	exit(2);
}

/* The bytes of a file, with a byte 0 after them. */
static char *content(const char *path, size_t *size)
{
	FILE *file = fopen(path, "rb");
	char *bytes;
	long length;

	if (!file || fseek(file, 0, SEEK_END) || (length = ftell(file)) < 0 || fseek(file, 0, SEEK_SET))
		fail(path);
	bytes = malloc(length + 1);
	if (!bytes || fread(bytes, 1, length, file) != (size_t)length)
		fail(path);
	bytes[length] = 0;
	fclose(file);
	*size = length;
	return bytes;
}

static void send_all(int to, const char *bytes, size_t size)
{
	while (size) {
		ssize_t done = write(to, bytes, size);

		if (done <= 0)
			fail("the program");
		bytes += done;
		size -= done;
	}
}

/* Whether the answer, which is read to its line feed, begins with `ok`. */
static int is_ok(int from)
{
	static char answer[ANSWER];
	size_t size = 0;

	do {
		ssize_t got = read(from, answer + size, sizeof(answer) - size);

		if (got <= 0)
			fail("the program");
		size += got;
	} while (answer[size - 1] != '\n');
	return size >= 2 && memcmp(answer, "ok", 2) == 0;
}

static long long now(void)
{
	struct timespec at;

	clock_gettime(CLOCK_MONOTONIC, &at);
	return at.tv_sec * 1000000000LL + at.tv_nsec;
}

static void start(const char *program, int *to, int *from)
{
	int given[2], answers[2];
	pid_t made;

	if (pipe(given) || pipe(answers) || (made = fork()) < 0)
		fail("start");
	if (made == 0) {
		if (dup2(given[0], 0) < 0 || dup2(answers[1], 1) < 0)
			fail("dup2");
		close(given[1]);
		close(answers[0]);
		execl(program, program, (char *)NULL);
		fail(program);
	}
	close(given[0]);
	close(answers[1]);
	*to = given[1];
	*from = answers[0];
}

int main(int count, char **words)
{
	size_t head_size, size;
	char *head, *lines, *line;
	long done = 0, ok = 0;
	long long began;
	int to, from, status;

	if (count != 4) {
		fprintf(stderr, "usage: live_client PROGRAM HEAD LINES\n");
		return 2;
	}
	head = content(words[2], &head_size);
	lines = content(words[3], &size);
	signal(SIGPIPE, SIG_IGN);
	start(words[1], &to, &from);
	send_all(to, head, head_size);
	send_all(to, "?\n", 2);
	is_ok(from);
	began = now();
	for (line = lines; *line; done++) {
		char *end = strchr(line, '\n');

		if (!end)
			break;
		send_all(to, line, end + 1 - line);
		ok += is_ok(from);
		line = end + 1;
	}
	printf("%ld %ld %lld\n", done, ok, now() - began);
	close(to);
	if (wait(&status) < 0 || status)
		fail("the program's end");
	free(head);
	free(lines);
	return 0;
}
