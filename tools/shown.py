#!/usr/bin/env python3
"""Runs a command that proves crates, prints what it prints, and says on a terminal how far it is.

    shown.py COMMAND [WORD..]

Its lines are those of `rt ci`, and go to standard output as they come. Where standard error is a terminal, one line that is written
over says after them how many crates are proved of how many, and how long the rest takes by the times of the last run, which stand in
out/test-times.json. The processor time of each crate stands in out/cpu-times.json then (tools/times.py makes a table of it). Nothing is said if it is no terminal, and the exit status is the command's."""

import json
import os
import re
import subprocess
import sys
import threading
import time

from meter import Meter

HERE = os.path.dirname(os.path.abspath(__file__))
TOP = os.path.join(HERE, "..")
# A crate that is done, one whose tests are, and one that an earlier run proved.
DONE = re.compile(r"rt: (\w+) (proved|NOT PROVED|is kept)")


def crates():
    """The crates of the repository, with those that each stands on."""
    lines = open(os.path.join(TOP, "crates.txt"), encoding="utf-8").read().splitlines()
    rows = [line.split(":") for line in lines if line.strip() and not line.startswith("#")]
    named = {name.split()[0]: deps.split() for name, deps in rows}
    return {name: [dep for dep in deps if dep in named] for name, deps in named.items()}


def file_of(kind):
    """The file of the times of `run` or `test`."""
    return os.path.join(TOP, "out", kind + "-times.json")


def known_times(kind):
    """How many seconds each crate took when it was done last."""
    try:
        with open(file_of(kind), encoding="ascii") as file:
            return {name: float(seconds) for name, seconds in json.load(file).items()}
    except (OSError, ValueError, AttributeError):
        return {}


def keep_times(kind, times):
    """Keeps the times of crates that were done, beside those of others."""
    if not times:
        return
    file, whole = file_of(kind), {**known_times(kind), **{name: round(seconds, 1) for name, seconds in times.items()}}
    os.makedirs(os.path.dirname(file), exist_ok=True)
    beside = "%s.%d" % (file, os.getpid())
    with open(beside, "w", encoding="ascii") as text:
        json.dump(whole, text, indent=0, sort_keys=True)
    os.replace(beside, file)


def left(waiting, named, known, lanes):
    """How many seconds are left for these crates: those of all of them over so many lanes, but no fewer than those of one that stands on
    another, and so on. A crate of which nothing is known takes as long as the others do in the mean. `None` if nothing is known."""
    if not known:
        return None
    mean = sum(known.values()) / len(known)
    cost = {name: known.get(name, mean) for name in waiting}
    chain = {}

    def longest(name):
        if name not in chain:
            chain[name] = cost.get(name, 0) + max((longest(dep) for dep in named[name]), default=0)
        return chain[name]

    return max(sum(cost.values()) / max(1, lanes), max((longest(name) for name in waiting), default=0))


def span(seconds):
    return "%d s" % seconds if seconds < 120 else "%d min" % (seconds / 60)


class Line:
    """One line on a terminal that is written over; none if there is no terminal."""

    def __init__(self, kind, all_of, named, lanes):
        self.is_seen = sys.stderr.isatty()
        self.all_of, self.named, self.lanes = all_of, named, lanes
        self.known = known_times(kind)
        self.begun = time.time()
        self.lock = threading.Lock()
        self.is_standing = False

    def show(self, done, what=""):
        if not self.is_seen:
            return
        rest = left([name for name in self.all_of if name not in done], self.named, self.known, self.lanes)
        text = "crate %d of %d%s, %s so far" % (len(done), len(self.all_of), what, span(time.time() - self.begun))
        text += "" if rest is None else ", about %s left" % span(rest)
        with self.lock:
            sys.stderr.write("\r" + text[:78] + "\x1b[K")
            sys.stderr.flush()
            self.is_standing = True

    def rest(self):
        with self.lock:
            if self.is_standing:
                sys.stderr.write("\r\x1b[K")
                sys.stderr.flush()
                self.is_standing = False


def tick(line, done, ended):
    """Shows every second how long it has gone on."""
    while not ended.wait(1):
        line.show(dict(done))


def passed_on(ran, line, named, done):
    """Prints the command's lines, and shows after each how many crates are done. `rt ci` does not say when it begins one, so a crate's time
    is that from the moment on at which the last of those that it stands on was done."""
    begun, took = time.time(), {}
    for text in ran.stdout:
        line.rest()
        sys.stdout.write(text)
        sys.stdout.flush()
        found = DONE.match(text)
        if found and found[1] in named:
            name, now = found[1], time.time()
            if found[2] == "proved":
                took[name] = now - max((done[dep] for dep in named[name] if dep in done), default=begun)
            done[name] = now
        line.show(done)
    return took


def main():
    named = crates()
    jobs = int(os.environ.get("RT_JOBS", "0") or 0) or os.cpu_count() or 1
    line = Line("test", list(named), named, jobs)
    done, ended = {}, threading.Event()
    ticker = threading.Thread(target=tick, args=(line, done, ended), daemon=True)
    if line.is_seen:
        ticker.start()
    # A command in Python, as rt is, writes its lines at once then.
    how = {"stdout": subprocess.PIPE, "text": True, "errors": "replace", "env": {**os.environ, "PYTHONUNBUFFERED": "1"}}
    with subprocess.Popen(sys.argv[1:], **how) as ran:
        meter = Meter(ran.pid)
        meter.start()
        took = passed_on(ran, line, named, done)
    meter.is_over.set()
    meter.join()
    keep_times("cpu", meter.seconds())
    ended.set()
    if line.is_seen:
        ticker.join()
    line.rest()
    keep_times("test", took)
    return ran.returncode if ran.returncode >= 0 else 128 - ran.returncode


if __name__ == "__main__":
    sys.exit(main())
