/* Notes what a program asks of the files below one folder, in the order in which it asks.
   WATCH names the folder and WATCH_LOG the file of notes. A note is a letter, then two numbers of eight bytes, then a name with its length in
   four bytes, then the bytes that are written: `o` a file is there, `w` bytes at an offset, `t` a length that is cut to, `s` the file is
   synced, `f` the folder is, `r` something got this name, which had another. A call that failed is not noted. WATCH_CUT says which cut of such a file fails, from 1 on, and with it each later
   one: the system then reports a fault of the device. */
#define _GNU_SOURCE
#include <dlfcn.h>
#include <errno.h>
#include <fcntl.h>
#include <limits.h>
#include <pthread.h>
#include <stdarg.h>
#include <stdint.h>
#include <stdio.h>
#include <stdlib.h>
#include <string.h>
#include <sys/stat.h>
#include <unistd.h>

#include "shim.h"

static pthread_mutex_t one_by_one = PTHREAD_MUTEX_INITIALIZER;
static char folder[PATH_MAX];
static int notes = -1;
static long cuts, fails_from;

__attribute__((constructor)) static void begin(void)
{
    const char *watched = getenv("WATCH");
    const char *log = getenv("WATCH_LOG");
    const char *from = getenv("WATCH_CUT");
    fails_from = from ? atol(from) : 0;
    if (watched && log && realpath(watched, folder))
        notes = open(log, O_WRONLY | O_CREAT | O_APPEND, 0600);
}

/* What a path has below the folder: nothing of the folder itself; none of any other. */
static const char *below(const char *path)
{
    size_t length = strlen(folder);
    if (notes < 0 || strncmp(path, folder, length) != 0)
        return NULL;
    if (path[length] == 0)
        return path + length;
    return path[length] == '/' ? path + length + 1 : NULL;
}

/* The name of an open file below the folder, the empty name of the folder itself, or none. */
static const char *name_of(int file, char *room)
{
    char link[64];
    snprintf(link, sizeof link, "/proc/self/fd/%d", file);
    ssize_t told = readlink(link, room, PATH_MAX - 1);
    if (told < 0)
        return NULL;
    room[told] = 0;
    return below(room);
}

static ssize_t put(const void *bytes, size_t length)
{
    static ssize_t (*real)(int, const void *, size_t);
    if (!real)
        real = (ssize_t (*)(int, const void *, size_t))dlsym(RTLD_NEXT, "write");
    return real(notes, bytes, length);
}

static void note_of(char letter, const char *name, uint64_t at, uint64_t length, const void *bytes, size_t count)
{
    if (!name)
        return;
    uint32_t letters = (uint32_t)strlen(name);
    pthread_mutex_lock(&one_by_one);
    if (put(&letter, 1) < 0 || put(&at, 8) < 0 || put(&length, 8) < 0 || put(&letters, 4) < 0 || put(name, letters) < 0 || put(bytes, count) < 0)
        abort();
    pthread_mutex_unlock(&one_by_one);
}

static void note(char letter, int file, uint64_t at, uint64_t length, const void *bytes, size_t count)
{
    char room[PATH_MAX];
    note_of(letter, name_of(file, room), at, length, bytes, count);
}

static int opened(int file, int flags)
{
    if (file >= 0 && (flags & O_CREAT))
        note('o', file, 0, 0, "", 0);
    return file;
}

int open(const char *path, int flags, ...)
{
    REAL(int, "open", const char *, int, ...);
    MODE(mode, flags);
    return opened(real(path, flags, mode), flags);
}

int open64(const char *path, int flags, ...)
{
    REAL(int, "open64", const char *, int, ...);
    MODE(mode, flags);
    return opened(real(path, flags, mode), flags);
}

int openat(int at, const char *path, int flags, ...)
{
    REAL(int, "openat", int, const char *, int, ...);
    MODE(mode, flags);
    return opened(real(at, path, flags, mode), flags);
}

static ssize_t wrote(ssize_t written, int file, const void *bytes, uint64_t at)
{
    if (written > 0)
        note('w', file, at, (uint64_t)written, bytes, (size_t)written);
    return written;
}

ssize_t pwrite(int file, const void *bytes, size_t count, off_t at)
{
    REAL(ssize_t, "pwrite", int, const void *, size_t, off_t);
    return wrote(real(file, bytes, count, at), file, bytes, (uint64_t)at);
}

ssize_t pwrite64(int file, const void *bytes, size_t count, off64_t at)
{
    REAL(ssize_t, "pwrite64", int, const void *, size_t, off64_t);
    return wrote(real(file, bytes, count, at), file, bytes, (uint64_t)at);
}

/* What is written without an offset goes to the end of a file below the folder. */
ssize_t write(int file, const void *bytes, size_t count)
{
    REAL(ssize_t, "write", int, const void *, size_t);
    char room[PATH_MAX];
    struct stat about;
    if (!name_of(file, room) || fstat(file, &about) != 0)
        return real(file, bytes, count);
    return wrote(real(file, bytes, count), file, bytes, (uint64_t)about.st_size);
}

/* Whether this cut is to fail. */
static int cut_fails(int file)
{
    char room[PATH_MAX];
    if (!fails_from || !name_of(file, room))
        return 0;
    pthread_mutex_lock(&one_by_one);
    int fails = ++cuts >= fails_from;
    pthread_mutex_unlock(&one_by_one);
    errno = EIO;
    return fails;
}

static int cut(int answer, int file, uint64_t length)
{
    if (answer == 0)
        note('t', file, 0, length, "", 0);
    return answer;
}

int ftruncate(int file, off_t length)
{
    REAL(int, "ftruncate", int, off_t);
    return cut_fails(file) ? -1 : cut(real(file, length), file, (uint64_t)length);
}

int ftruncate64(int file, off64_t length)
{
    REAL(int, "ftruncate64", int, off64_t);
    return cut_fails(file) ? -1 : cut(real(file, length), file, (uint64_t)length);
}

static int synced(int answer, int file)
{
    struct stat about;
    if (answer == 0)
        note(fstat(file, &about) == 0 && S_ISDIR(about.st_mode) ? 'f' : 's', file, 0, 0, "", 0);
    return answer;
}

int fsync(int file)
{
    REAL(int, "fsync", int);
    return synced(real(file), file);
}

int fdatasync(int file)
{
    REAL(int, "fdatasync", int);
    return synced(real(file), file);
}

int rename(const char *from, const char *to)
{
    REAL(int, "rename", const char *, const char *);
    int answer = real(from, to);
    if (answer == 0)
        note_of('r', below(to), 0, 0, "", 0);
    return answer;
}
