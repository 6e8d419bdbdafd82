// moments.c: a library that stops a program before one of its calls of the file system (LD_PRELOAD).
//
// MOMENT=N stops it (SIGSTOP) before the Nth call, counted from 1; 0 or none stops nothing.
// MOMENTS=FILE gets, as the program ends, a line for each call: its name, and the path that it was given.
// NO_LOCK=1 refuses each lock.
#define _GNU_SOURCE
#include <dlfcn.h>
#include <errno.h>
#include <fcntl.h>
#include <signal.h>
#include <stdarg.h>
#include <stdio.h>
#include <stdlib.h>
#include <sys/stat.h>
#include <unistd.h>

static unsigned long calls;
static unsigned long stopped;
static FILE *listed;

__attribute__((constructor)) static void begin(void) {
    const char *text = getenv("MOMENT");
    const char *name = getenv("MOMENTS");
    stopped = text ? strtoul(text, NULL, 10) : 0;
    if (name)
        listed = fopen(name, "w");
    calls = 0;
}

__attribute__((destructor)) static void end(void) {
    if (listed)
        fclose(listed);
}

static void note(const char *name, const char *path) {
    if (listed)
        fprintf(listed, "%s %s\n", name, path);
    if (++calls == stopped)
        raise(SIGSTOP);
}

#define CALL(type, name, path, parameters, arguments) \
    type name parameters { \
        type(*real) parameters = (type(*) parameters)dlsym(RTLD_NEXT, #name); \
        note(#name, path); \
        return real arguments; \
    }

CALL(ssize_t, read, "", (int file, void *bytes, size_t length), (file, bytes, length))
CALL(ssize_t, write, "", (int file, const void *bytes, size_t length), (file, bytes, length))
CALL(off_t, lseek, "", (int file, off_t at, int from), (file, at, from))
CALL(int, close, "", (int file), (file))
CALL(ssize_t, getdents64, "", (int file, void *names, size_t length), (file, names, length))
CALL(int, mkdir, path, (const char *path, mode_t mode), (path, mode))
CALL(int, rmdir, path, (const char *path), (path))
CALL(int, unlink, path, (const char *path), (path))
CALL(int, rename, path, (const char *path, const char *to), (path, to))
CALL(int, statx, path, (int folder, const char *path, int flags, unsigned mask, struct statx *found),
     (folder, path, flags, mask, found))

int open(const char *path, int flags, ...) {
    int (*real)(const char *, int, ...) = (int (*)(const char *, int, ...))dlsym(RTLD_NEXT, "open");
    mode_t mode = 0;
    if (flags & O_CREAT) {
        va_list rest;
        va_start(rest, flags);
        mode = va_arg(rest, mode_t);
        va_end(rest);
    }
    note("open", path);
    return real(path, flags, mode);
}

int openat(int folder, const char *path, int flags, ...) {
    int (*real)(int, const char *, int, ...);
    real = (int (*)(int, const char *, int, ...))dlsym(RTLD_NEXT, "openat");
    mode_t mode = 0;
    if (flags & O_CREAT) {
        va_list rest;
        va_start(rest, flags);
        mode = va_arg(rest, mode_t);
        va_end(rest);
    }
    note("openat", path);
    return real(folder, path, flags, mode);
}

int flock(int file, int how) {
    int (*real)(int, int) = (int (*)(int, int))dlsym(RTLD_NEXT, "flock");
    note("flock", "");
    if (getenv("NO_LOCK")) {
        errno = ENOLCK;
        return -1;
    }
    return real(file, how);
}
