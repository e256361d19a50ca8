// Loaded before the C library by tests/memory.py, or linked: fails the request for memory whose number is in FAIL_AT, counted from
// 1, and those after it too where FAIL_ALL is set. How many requests there were is told in the file that FAIL_TOLD names. What
// the programs are built with asks by malloc and realloc alone.
#define _GNU_SOURCE
#include <dlfcn.h>
#include <errno.h>
#include <stddef.h>
#include <stdio.h>
#include <stdlib.h>

static long requests, at = -1;
static int all;

// Counts from 1 again, and has another request fail, none if `number` is 0. Answers how many there were.
long fail_at(long number, int those_after_it) {
    long were = requests;
    requests = 0;
    at = number;
    all = those_after_it;
    return were;
}

static int fails(void) {
    if (at < 0) {
        const char *text = getenv("FAIL_AT");
        at = text ? atol(text) : 0;
        all = getenv("FAIL_ALL") != NULL;
    }
    requests++;
    int failed = at > 0 && (requests == at || (all && requests > at));
    if (failed) errno = ENOMEM;
    return failed;
}

void *malloc(size_t size) {
    static void *(*real)(size_t);
    if (!real) real = dlsym(RTLD_NEXT, "malloc");
    return fails() ? NULL : real(size);
}

void *realloc(void *old, size_t size) {
    static void *(*real)(void *, size_t);
    if (!real) real = dlsym(RTLD_NEXT, "realloc");
    return fails() ? NULL : real(old, size);
}

__attribute__((destructor)) static void tell(void) {
    const char *path = getenv("FAIL_TOLD");
    long counted = requests;
    FILE *told = path ? fopen(path, "w") : NULL;
    if (told) {
        fprintf(told, "%ld\n", counted);
        fclose(told);
    }
}
