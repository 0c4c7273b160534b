/*
 * A library for perf, which reads /sys/devices/system/cpu/online by this very path, also where SYSFS_PATH names another
 * folder than /sys: with it perf finds the processors of that folder.
 */
#define _GNU_SOURCE
#include <dlfcn.h>
#include <stdio.h>
#include <stdlib.h>
#include <string.h>

static const char online[] = "/sys/devices/system/cpu/online";

static FILE *opened(const char *call, const char *path, const char *mode)
{
	FILE *(*next)(const char *, const char *) = (FILE *(*)(const char *, const char *))dlsym(RTLD_NEXT, call);
	const char *folder = getenv("SYSFS_PATH");
	char other[4096];

	if (folder && !strcmp(path, online)) {
		snprintf(other, sizeof(other), "%s%s", folder, online + strlen("/sys"));
		path = other;
	}
	return next(path, mode);
}

FILE *fopen(const char *path, const char *mode)
{
	return opened("fopen", path, mode);
}

FILE *fopen64(const char *path, const char *mode)
{
	return opened("fopen64", path, mode);
}
