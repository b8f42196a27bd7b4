// A stand-in of the calls that change a file, to be loaded before the program: of files named omni.*, the program is killed at the
// call whose number KILL_AT tells, counted from 1: before it or, with KILL_INSIDE, behind it, and behind half of what it writes.
#define _GNU_SOURCE
#include <dlfcn.h>
#include <signal.h>
#include <stdio.h>
#include <stdlib.h>
#include <string.h>
#include <unistd.h>

static long calls;

static int is_last(int fd) {
    char link[64], path[4096];
    const char *wanted = getenv("KILL_AT"), *name;
    ssize_t length;
    snprintf(link, sizeof link, "/proc/self/fd/%d", fd);
    if (!wanted || (length = readlink(link, path, sizeof path - 1)) < 0) return 0;
    path[length] = 0;
    name = strrchr(path, '/');
    return name && !strncmp(name, "/omni.", 6) && ++calls == atol(wanted);
}

static void *next_of(const char *name) {
    return dlsym(RTLD_NEXT, name);
}

static int is_inside(void) {
    return getenv("KILL_INSIDE") != 0;
}

static void end(void) {
    kill(getpid(), SIGKILL);
    for (;;) pause();
}

ssize_t write(int fd, const void *bytes, size_t count) {
    ssize_t (*next)(int, const void *, size_t) = next_of("write");
    if (is_last(fd)) {
        if (is_inside() && next(fd, bytes, count / 2) < 0) abort();
        end();
    }
    return next(fd, bytes, count);
}

static ssize_t write_at(const char *name, int fd, const void *bytes, size_t count, off_t at) {
    ssize_t (*next)(int, const void *, size_t, off_t) = next_of(name);
    if (is_last(fd)) {
        if (is_inside() && next(fd, bytes, count / 2, at) < 0) abort();
        end();
    }
    return next(fd, bytes, count, at);
}

ssize_t pwrite(int fd, const void *bytes, size_t count, off_t at) {
    return write_at("pwrite", fd, bytes, count, at);
}

ssize_t pwrite64(int fd, const void *bytes, size_t count, off64_t at) {
    return write_at("pwrite64", fd, bytes, count, at);
}

static int cut(const char *name, int fd, off_t length) {
    int (*next)(int, off_t) = next_of(name);
    if (is_last(fd)) {
        if (is_inside() && next(fd, length) < 0) abort();
        end();
    }
    return next(fd, length);
}

int ftruncate(int fd, off_t length) {
    return cut("ftruncate", fd, length);
}

int ftruncate64(int fd, off64_t length) {
    return cut("ftruncate64", fd, length);
}

static int sync_file(const char *name, int fd) {
    int (*next)(int) = next_of(name);
    if (is_last(fd)) {
        if (is_inside() && next(fd) < 0) abort();
        end();
    }
    return next(fd);
}

int fsync(int fd) {
    return sync_file("fsync", fd);
}

int fdatasync(int fd) {
    return sync_file("fdatasync", fd);
}
