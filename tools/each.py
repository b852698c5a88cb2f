#!/usr/bin/env python3
"""What a key costs by the clients in C and Python if many are asked at once, in processor time of the client and of the child together.

    each.py PROGRAM [CHECKOUT ..]

Of each checkout (none: this one) its clients are taken, over the one program, in turn, in five rounds: 100,000 pairs are put at once, of keys of
12 bytes and values of 100, and looked up at once in another order. Medians are printed, in microseconds a key: all of it, and the client's part.
In C that is once done by one call of 100,000, and once by calls of one."""

import os
import statistics
import subprocess
import sys
import tempfile

TOP = os.path.join(os.path.dirname(os.path.abspath(__file__)), "..")
COUNT, ALONE, ROUNDS = 100000, 20000, 5
IN_C = r"""
#define _GNU_SOURCE
#include <hechdoram.h>
#include <stdio.h>
#include <stdlib.h>
#include <sys/resource.h>
enum { COUNT = %d };
static char names[COUNT][16], bytes[128];
static hechdoram_change changes[COUNT];
static hechdoram_key keys[COUNT];
static hechdoram_value values[COUNT];
static void tell(const char *what, unsigned count) {
    struct rusage own;
    char line[256] = "";
    FILE *file = popen("cat /proc/$(cat /proc/$PPID/task/$PPID/children | cut -d' ' -f1)/schedstat", "r");
    if (!fgets(line, sizeof line, file)) exit(3);
    pclose(file);
    getrusage(RUSAGE_SELF, &own);
    printf("%%s %%u %%.9f %%.9f\n", what, count, own.ru_utime.tv_sec + own.ru_stime.tv_sec + 1e-6 * (own.ru_utime.tv_usec + own.ru_stime.tv_usec), strtod(line, NULL) / 1e9);
}
#define DO(what) do { if ((what) != HECHDORAM_OK) { fprintf(stderr, "%%s: %%s\n", #what, hechdoram_said(store)); return 1; } } while (0)
int main(int count, char **words) {
    hechdoram_options options = {words[1], 0, 0, 0, 0, 0, 0};
    hechdoram *store;
    size_t len;
    memset(bytes, 'v', 100);
    for (unsigned i = 0; i < COUNT; i++) {
        snprintf(names[i], 16, "key%%09u", (unsigned)(i * 7919ull %% COUNT));
        changes[i] = (hechdoram_change){names[i], 12, bytes, 100};
    }
    for (unsigned i = 0; i < COUNT; i++) keys[i] = (hechdoram_key){names[i * 31ull %% COUNT], 12};
    DO(hechdoram_open(words[2], &options, &store));
    tell("begin", 0);
    DO(hechdoram_change_many(store, changes, COUNT));
    tell("put", COUNT);
    DO(hechdoram_get_many(store, keys, COUNT, values));
    tell("get", COUNT);
    for (unsigned i = 0; i < COUNT; i++) if (!values[i].is_found || values[i].len != 100) return 4;
    for (unsigned i = 0; i < %d; i++) DO(hechdoram_put(store, names[i], 12, bytes, 100));
    tell("put, one a call", %d);
    for (unsigned i = 0; i < %d; i++) DO(hechdoram_get(store, names[i], 12, values[0].bytes, 512, &len));
    tell("get, one a call", %d);
    hechdoram_abandon(&store);
    return count != 3;
}
""" % (COUNT, ALONE, ALONE, ALONE, ALONE)
IN_PYTHON = r"""
import hechdoram, os, resource, sys
COUNT = %d
names = [b"key%%09d" %% (i * 7919 %% COUNT) for i in range(COUNT)]
pairs, keys, value = [(name, b"v" * 100) for name in names], [names[i * 31 %% COUNT] for i in range(COUNT)], b"v" * 100
store = hechdoram.open(sys.argv[2], sys.argv[1])
child = store._child._process.pid
def tell(what, count):
    own = resource.getrusage(resource.RUSAGE_SELF)
    with open("/proc/%%d/schedstat" %% child) as numbers:
        print(what, count, own.ru_utime + own.ru_stime, int(numbers.read().split()[0]) / 1e9)
tell("begin", 0)
store.put_many(pairs)
tell("put", COUNT)
values = store.get_many(keys)
tell("get", COUNT)
assert values == [value] * COUNT
store.abandon()
""" % COUNT


def program_of(room, checkout, number):
    """The words that run the client in C of a checkout."""
    source, path = os.path.join(room, "each.c"), os.path.join(room, "each%d" % number)
    with open(source, "w", encoding="ascii") as file:
        file.write(IN_C)
    parts = [os.path.join(checkout, "clients", "c", name) for name in ("hechdoram.c", "hechdoram_scan.c", "hechdoram_tables.c")]
    subprocess.run(["cc", "-O2", "-I" + os.path.join(checkout, "include"), source, *parts, "-o", path], check=True)
    return [path]


def took(words, env):
    """What each step of a run took, of both processes and of the client, in microseconds a key."""
    with tempfile.TemporaryDirectory(dir="/dev/shm") as room:
        told = subprocess.run([*words, os.path.join(room, "store")], stdout=subprocess.PIPE, text=True, check=True, env=env).stdout
    rows = [line.rsplit(" ", 3) for line in told.splitlines()]
    times = [(float(own), float(child)) for _, _, own, child in rows]
    for (what, count, _, _), before, after in zip(rows[1:], times, times[1:]):
        own, child = ((it - was) * 1e6 / int(count) for it, was in zip(after, before))
        yield what, own + child, own


def main():
    program, checkouts = os.path.abspath(sys.argv[1]), sys.argv[2:] or [TOP]
    found = {}
    with tempfile.TemporaryDirectory() as room:
        python = os.path.join(room, "each.py")
        with open(python, "w", encoding="ascii") as file:
            file.write(IN_PYTHON)
        in_c = [program_of(room, checkout, number) for number, checkout in enumerate(checkouts)]
        for _ in range(ROUNDS):
            for checkout, words in zip(checkouts, in_c):
                env = {**os.environ, "PYTHONPATH": os.path.join(checkout, "clients", "python"), "PYTHONDONTWRITEBYTECODE": "1"}
                for language, run in (("C", words), ("Python", [sys.executable, python])):
                    for what, both, own in took([*run, program], env):
                        found.setdefault((language, what, checkout), []).append((both, own))
    for (language, what, checkout), times in sorted(found.items()):
        both, own = (statistics.median(it[at] for it in times) for at in (0, 1))
        print("%-6s %-16s %6.2f us, of the client %6.2f  %s" % (language, what, both, own, checkout))


if __name__ == "__main__":
    main()
