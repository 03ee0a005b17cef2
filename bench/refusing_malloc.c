/* Refuses one growth of memory: the call of malloc or realloc with the number REFUSED, from 1. Loaded in front of the C
   library. At the end it writes into the file REFUSALS how many calls there were. */
#define _GNU_SOURCE
#include <dlfcn.h>
#include <fcntl.h>
#include <stdio.h>
#include <stdlib.h>
#include <string.h>
#include <unistd.h>

static unsigned long calls, refused;
static void *(*real_malloc)(size_t);
static void *(*real_realloc)(void *, size_t);

__attribute__((constructor)) static void find(void) {
    real_malloc = dlsym(RTLD_NEXT, "malloc");
    real_realloc = dlsym(RTLD_NEXT, "realloc");
    const char *number = getenv("REFUSED");
    refused = number ? strtoul(number, NULL, 10) : 0;
    calls = 0;
}

__attribute__((destructor)) static void tell(void) {
    const char *file = getenv("REFUSALS");
    int to = file ? open(file, O_WRONLY | O_CREAT | O_TRUNC, 0600) : -1;
    char line[32];
    if (to < 0) return;
    if (write(to, line, (size_t)snprintf(line, sizeof line, "%lu\n", calls)) < 0) _exit(99);
    close(to);
}

void *malloc(size_t size) {
    if (!real_malloc) real_malloc = dlsym(RTLD_NEXT, "malloc");
    return ++calls == refused ? NULL : real_malloc(size);
}

void *realloc(void *at, size_t size) {
    if (!real_realloc) real_realloc = dlsym(RTLD_NEXT, "realloc");
    return ++calls == refused ? NULL : real_realloc(at, size);
}
