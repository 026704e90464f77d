/* Stands before libc's malloc and realloc (LD_PRELOAD): refuses the request whose number, from 1, is
   in REFUSE_NTH, and writes at the end to file descriptor 3 how many requests there were. */
#define _GNU_SOURCE
#include <dlfcn.h>
#include <stdio.h>
#include <stdlib.h>

static unsigned long requests, refused;

__attribute__((constructor)) static void begin(void)
{
    const char *nth = getenv("REFUSE_NTH");
    refused = nth ? strtoul(nth, NULL, 10) : 0;
    requests = 0;
}

__attribute__((destructor)) static void end(void)
{
    dprintf(3, "%lu\n", requests);
}

void *malloc(size_t size)
{
    static void *(*next)(size_t);
    if (!next)
        next = (void *(*)(size_t))dlsym(RTLD_NEXT, "malloc");
    return ++requests == refused ? NULL : next(size);
}

void *realloc(void *old, size_t size)
{
    static void *(*next)(void *, size_t);
    if (!next)
        next = (void *(*)(void *, size_t))dlsym(RTLD_NEXT, "realloc");
    return ++requests == refused ? NULL : next(old, size);
}
