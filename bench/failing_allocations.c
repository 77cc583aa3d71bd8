/* A library that is loaded before others, and lets one call of malloc or realloc fail: that of the number in FAILING_CALL, from 1. How
   many calls a process made is written to the file in FAILING_COUNT. */
#define _GNU_SOURCE
#include <dlfcn.h>
#include <stdio.h>
#include <stdlib.h>

static long calls;

static int fails(void)
{
	const char *failing = getenv("FAILING_CALL");

	calls++;
	return failing && calls == atol(failing);
}

void *malloc(size_t size)
{
	static void *(*real)(size_t);

	if (!real)
		real = dlsym(RTLD_NEXT, "malloc");
	return fails() ? NULL : real(size);
}

void *realloc(void *old, size_t size)
{
	static void *(*real)(void *, size_t);

	if (!real)
		real = dlsym(RTLD_NEXT, "realloc");
	return fails() ? NULL : real(old, size);
}

__attribute__((destructor)) static void tell(void)
{
	const char *path = getenv("FAILING_COUNT");
	FILE *file = path ? fopen(path, "w") : NULL;

	if (!file)
		return;
	fprintf(file, "%ld\n", calls);
	fclose(file);
}
