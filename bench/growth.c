// growth.c: a library that refuses one growth of a program that it is preloaded into (LD_PRELOAD).
//
// GROWTH=N refuses the Nth call of malloc, calloc or realloc, counted from 1; 0 or none refuses nothing.
// GROWTHS=FILE gets, as the program ends, how many such calls there were.
#define _GNU_SOURCE
#include <dlfcn.h>
#include <errno.h>
#include <fcntl.h>
#include <stddef.h>
#include <stdio.h>
#include <stdlib.h>
#include <unistd.h>

extern void *__libc_malloc(size_t);
extern void *__libc_calloc(size_t, size_t);
extern void *__libc_realloc(void *, size_t);

static unsigned long calls;
static unsigned long refused;

__attribute__((constructor)) static void begin(void) {
    const char *text = getenv("GROWTH");
    calls = 0;
    refused = text ? strtoul(text, NULL, 10) : 0;
}

__attribute__((destructor)) static void end(void) {
    const char *name = getenv("GROWTHS");
    char text[32];
    unsigned long all = calls;
    if (!name)
        return;
    int file = open(name, O_WRONLY | O_CREAT | O_TRUNC, 0600);
    int length = snprintf(text, sizeof text, "%lu\n", all);
    if (file >= 0 && write(file, text, (size_t)length) == length)
        close(file);
}

static int is_refused(void) {
    if (++calls != refused)
        return 0;
    errno = ENOMEM;
    return 1;
}

void *malloc(size_t size) { return is_refused() ? NULL : __libc_malloc(size); }
void *calloc(size_t count, size_t size) { return is_refused() ? NULL : __libc_calloc(count, size); }
void *realloc(void *old, size_t size) { return is_refused() ? NULL : __libc_realloc(old, size); }
