/* Refuses allocations of a program. REFUSE says which one, counted from 1; all others are granted.

   A test says more by marks (crates/test_kit/src/marks.rt): allocations of lengths that no other call asks for. From the first mark on only what is
   asked within a window counts. The counts stand in the file that REFUSE_COUNT names, so that they are there however the program ends. */
#define _GNU_SOURCE
#include <stdatomic.h>
#include <stdlib.h>
#include <unistd.h>

#include "cells.h"

extern void *__libc_malloc(size_t size);
extern void *__libc_realloc(void *old, size_t size);

/* How the lengths of marks are read: as crates/test_kit/src/marks.rt says them. */
#define FAR ((size_t)1 << 60)
#define BEGIN ((size_t)1 << 61)
#define WITHOUT (BEGIN + 1)
#define END ((size_t)1000003)

/* How many allocations counted, how many were refused, and how many windows there were, with those in which each one is. */
struct counts {
    atomic_long made, refused, windows, without;
};

static struct counts unseen;
static struct counts *counts = &unseen;
static atomic_long number, refused_here;
static long wanted;
/* Whether what is asked now counts, and whether each is refused. */
static atomic_int is_open = 1, is_without;

__attribute__((constructor)) static void begin(void)
{
    const char *which = getenv("REFUSE");
    counts = cells_in(getenv("REFUSE_COUNT"), sizeof *counts, &unseen);
    counts->made = counts->refused = counts->windows = counts->without = 0;
    number = 0;
    wanted = which ? atol(which) : 0;
}

/* Whether a length is a mark, which is then obeyed. */
static int is_mark(size_t size)
{
    if (size == BEGIN || size == WITHOUT) {
        refused_here = 0;
        is_without = size == WITHOUT;
        is_open = 1;
        counts->windows++;
        counts->without += is_without;
    } else if (size >= FAR && size < BEGIN) {
        number = 0;
        wanted = (long)(size - FAR);
        is_open = 0;
    } else {
        return 0;
    }
    return 1;
}

static int is_refused(size_t size)
{
    if (is_mark(size))
        return 1;
    if (size == END && counts->windows > 0) {
        is_open = is_without = 0;
        return refused_here != 0;
    }
    if (!is_open)
        return 0;
    counts->made++;
    if (!is_without && ++number != wanted)
        return 0;
    counts->refused++;
    refused_here++;
    return 1;
}

void *malloc(size_t size)
{
    return is_refused(size) ? NULL : __libc_malloc(size);
}

void *realloc(void *old, size_t size)
{
    return is_refused(size) ? NULL : __libc_realloc(old, size);
}
