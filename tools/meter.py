"""Processor seconds of the checks that a command runs, by crate, read from /proc while it runs."""

import os
import re
import threading

TICK = os.sysconf("SC_CLK_TCK")
CRATE = re.compile(rb"\0--crate-name\0(\w+)\0")


def parents():
    """The parent of each process, and how many processor seconds it has taken with its children that ended."""
    found = {}
    for name in os.listdir("/proc"):
        if name.isdigit():
            try:
                with open("/proc/%s/stat" % name, "rb") as file:
                    fields = file.read().rpartition(b")")[2].split()
            except OSError:
                continue
            found[int(name)] = int(fields[1]), sum(map(int, fields[11:15])) / TICK, int(fields[19])
    return found


def crate_of(pid):
    """What a process checks: a crate, its tests, or wrong bodies of it; `None` if it checks nothing."""
    try:
        with open("/proc/%d/cmdline" % pid, "rb") as file:
            words = file.read()
    except OSError:
        return None
    named = CRATE.search(words)
    if not named:
        return None
    name = named[1].decode()
    if b"_tests.o\0" in words and not name.endswith("_tests") or name.endswith("_tests") and b"_tests_tests.o\0" in words:
        return name + " tests"
    # A gate keeps the work of only those checks over which wrong bodies are tried.
    return name + " wrong bodies" if b"\0--incremental\0" in words else name


def is_below(pid, top, known):
    """Whether a process was begun by this one, or by one that it began."""
    while pid in known and pid != top:
        pid = known[pid][0]
    return pid == top


class Meter(threading.Thread):
    """Looks every second at the processes that a process began. What a check takes in its last second is not seen."""

    def __init__(self, top):
        super().__init__(daemon=True)
        self.top, self.seen, self.is_over = top, {}, threading.Event()

    def look(self):
        known = parents()
        for pid, (_, seconds, begun) in known.items():
            crate = is_below(pid, self.top, known) and crate_of(pid)
            if crate:
                self.seen[pid, begun] = crate, seconds

    def run(self):
        while not self.is_over.wait(1):
            self.look()

    def seconds(self):
        """The seconds of each crate, with those of its tests and its wrong bodies under names of their own."""
        whole = {}
        for name, seconds in list(self.seen.values()):
            whole[name] = whole.get(name, 0) + seconds
        return whole
