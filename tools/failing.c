/* Lets one call of a program on the files below a folder fail: the system then reports a fault of the device.
   FAILING names the folder, and FAILING_AT says which call fails, counted from 1; none does for 0. How many there were stands in the
   file that FAILING_COUNT names, however the program ends. Beside opening, making, reading, writing, cutting, syncing, naming, listing
   and locking, what is asked of a file's kind and length counts too. With FAILING_HOW=kill the program is killed in place of that: only
   calls that change what stands there count then, removing too. With FAILING_HOW=part only writes count, and it is killed after half
   of the bytes of one. Calls on the file of the folder that FAILING_BUT names do not count: those on `times` come as the clock has it. */
#define _GNU_SOURCE
#include <dlfcn.h>
#include <errno.h>
#include <fcntl.h>
#include <limits.h>
#include <signal.h>
#include <stdarg.h>
#include <stdatomic.h>
#include <stdio.h>
#include <stdlib.h>
#include <string.h>
#include <sys/mman.h>
#include <sys/stat.h>
#include <unistd.h>

#include "cells.h"
#include "shim.h"

static char folder[PATH_MAX];
static char but[NAME_MAX + 1];
static long wanted;
static int kills, parts;
static atomic_long unseen;
static atomic_long *made = &unseen;

__attribute__((constructor)) static void begin(void)
{
    const char *below = getenv("FAILING");
    const char *which = getenv("FAILING_AT");
    made = cells_in(getenv("FAILING_COUNT"), sizeof *made, &unseen);
    *made = 0;
    wanted = which ? atol(which) : 0;
    const char *how = getenv("FAILING_HOW");
    kills = how && strcmp(how, "kill") == 0;
    parts = how && strcmp(how, "part") == 0;
    if (!below || !realpath(below, folder))
        folder[0] = 0;
    const char *name = getenv("FAILING_BUT");
    if (name)
        snprintf(but, sizeof but, "%s", name);
}

static int is_below(const char *path)
{
    size_t length = strlen(folder);
    if (length == 0 || strncmp(path, folder, length) != 0)
        return 0;
    return path[length] == 0 || (path[length] == '/' && (but[0] == 0 || strcmp(path + length + 1, but) != 0));
}

static int is_open_below(int file)
{
    char link[64], room[PATH_MAX];
    snprintf(link, sizeof link, "/proc/self/fd/%d", file);
    ssize_t told = readlink(link, room, sizeof room - 1);
    if (told < 0)
        return 0;
    room[told] = 0;
    return is_below(room);
}

/* Whether this call, which changes what stands there, is the one that fails. */
static int fails(int counts)
{
    if (parts || !counts || ++*made != wanted)
        return 0;
    if (kills)
        raise(SIGKILL);
    errno = EIO;
    return 1;
}

/* Whether a call is to fail that only looks, or waits. */
static int fails_to_look(int counts)
{
    return kills ? 0 : fails(counts);
}

/* Whether this write is the one that is done in part. */
static int is_cut(int counts)
{
    return parts && counts && ++*made == wanted;
}

int open(const char *path, int flags, ...)
{
    REAL(int, "open", const char *, int, ...);
    MODE(mode, flags);
    return (flags & O_CREAT ? fails : fails_to_look)(is_below(path)) ? -1 : real(path, flags, mode);
}

int openat(int at, const char *path, int flags, ...)
{
    REAL(int, "openat", int, const char *, int, ...);
    MODE(mode, flags);
    int counts = path[0] == '/' ? is_below(path) : is_open_below(at);
    return (flags & O_CREAT ? fails : fails_to_look)(counts) ? -1 : real(at, path, flags, mode);
}

int mkdir(const char *path, mode_t mode)
{
    REAL(int, "mkdir", const char *, mode_t);
    return fails(is_below(path)) ? -1 : real(path, mode);
}

int rename(const char *from, const char *to)
{
    REAL(int, "rename", const char *, const char *);
    return fails(is_below(from)) ? -1 : real(from, to);
}

int unlink(const char *path)
{
    REAL(int, "unlink", const char *);
    return fails(kills && is_below(path)) ? -1 : real(path);
}

int rmdir(const char *path)
{
    REAL(int, "rmdir", const char *);
    return fails(kills && is_below(path)) ? -1 : real(path);
}

ssize_t read(int file, void *bytes, size_t count)
{
    REAL(ssize_t, "read", int, void *, size_t);
    return fails_to_look(is_open_below(file)) ? -1 : real(file, bytes, count);
}

ssize_t pread(int file, void *bytes, size_t count, off_t at)
{
    REAL(ssize_t, "pread", int, void *, size_t, off_t);
    return fails_to_look(is_open_below(file)) ? -1 : real(file, bytes, count, at);
}

ssize_t write(int file, const void *bytes, size_t count)
{
    REAL(ssize_t, "write", int, const void *, size_t);
    if (is_cut(is_open_below(file))) {
        real(file, bytes, count / 2);
        raise(SIGKILL);
    }
    return fails(is_open_below(file)) ? -1 : real(file, bytes, count);
}

ssize_t pwrite(int file, const void *bytes, size_t count, off_t at)
{
    REAL(ssize_t, "pwrite", int, const void *, size_t, off_t);
    if (is_cut(is_open_below(file))) {
        real(file, bytes, count / 2, at);
        raise(SIGKILL);
    }
    return fails(is_open_below(file)) ? -1 : real(file, bytes, count, at);
}

int ftruncate(int file, off_t length)
{
    REAL(int, "ftruncate", int, off_t);
    return fails(is_open_below(file)) ? -1 : real(file, length);
}

int fsync(int file)
{
    REAL(int, "fsync", int);
    return fails_to_look(is_open_below(file)) ? -1 : real(file);
}

int fdatasync(int file)
{
    REAL(int, "fdatasync", int);
    return fails_to_look(is_open_below(file)) ? -1 : real(file);
}

int flock(int file, int how)
{
    REAL(int, "flock", int, int);
    return fails_to_look(is_open_below(file)) ? -1 : real(file, how);
}

int fchmod(int file, mode_t mode)
{
    REAL(int, "fchmod", int, mode_t);
    return fails(is_open_below(file)) ? -1 : real(file, mode);
}

ssize_t getdents64(int file, void *bytes, size_t count)
{
    REAL(ssize_t, "getdents64", int, void *, size_t);
    return fails_to_look(is_open_below(file)) ? -1 : real(file, bytes, count);
}

int statx(int at, const char *restrict path, int flags, unsigned mask, struct statx *restrict told)
{
    REAL(int, "statx", int, const char *, int, unsigned, struct statx *);
    int counts = path[0] == '/' ? is_below(path) : is_open_below(at);
    return fails_to_look(counts) ? -1 : real(at, path, flags, mask, told);
}
