#!/usr/bin/env python3
"""What the built program says to an operator: `serve --log` and `serve --every` on standard error, the numbers of `stats`, and the warning
of a log that is nearly full.

Each line has the one form of docs/USING.md, with the time of its run; the events come in the order of what was asked, with the numbers that
the answers give. Numbers are printed only after a request, and only once their time has come. A program that is refused ten thousand times has
a line a second. What is not asked for is not printed.

    events.py [PROGRAM]
"""

import datetime
import os
import re
import subprocess
import sys
import tempfile
import threading
import time

from checks import BUILT, FAST, Wrong, ask, expect

PROGRAM = os.path.abspath(sys.argv[1]) if sys.argv[1:] else BUILT
SECONDS = 60
LINE = re.compile(r"(\d{4}-\d\d-\d\dT\d\d:\d\d:\d\dZ) ([a-z]+)((?: [a-z]+=\d+)*)")
# What `stats` says, in its order (docs/USING.md).
FIRST = ["history", "durable", "segments", "spares", "pages"]
MORE = ["most", "bytes", "capacity", "requests", "refused", "accepted", "kept", "frames", "written", "cleanings", "evictions", "reads"]
VALUE = "v" * 400


class Run:
    """A served store, whose answers are read as they come."""

    def __init__(self, *words):
        self.began = int(time.time())
        self.child = subprocess.Popen([PROGRAM, "serve", *words], stdin=subprocess.PIPE, stdout=subprocess.PIPE, stderr=subprocess.PIPE)
        self.timer = threading.Timer(SECONDS, self.child.kill)
        self.timer.start()
        self.ready = self.answer()

    def answer(self):
        return self.child.stdout.readline().decode().rstrip("\n")

    def one(self, line):
        return self.many([line])[0]

    def many(self, lines):
        self.child.stdin.write("".join(line + "\n" for line in lines).encode())
        self.child.stdin.flush()
        return [self.answer() for _ in lines]

    def end(self, status=0):
        """Ends the run, and gives what stands on standard error."""
        _, told = self.child.communicate()
        self.timer.cancel()
        expect(self.child.returncode, status, "the status of serve")
        return told.decode()

    def events(self, status=0):
        """The events of a run that ends, as names and numbers. Each has a time within the run."""
        told = self.end(status)
        ended = int(time.time())
        ask(told.endswith("\n") or not told, "no end of the last line:", repr(told))
        found = []
        for line in told.splitlines():
            parts = LINE.fullmatch(line)
            ask(parts, "no event:", repr(line))
            second = int(datetime.datetime.strptime(parts[1], "%Y-%m-%dT%H:%M:%SZ").replace(tzinfo=datetime.timezone.utc).timestamp())
            ask(self.began <= second <= ended, line, "was not told between", self.began, "and", ended)
            found.append((parts[2], {name: int(number) for name, number in (it.split("=") for it in parts[3].split())}))
        return found


def stats_of(answer):
    """The numbers of an answer to `stats`, and its words that have none."""
    words = answer.split(" ")
    lone = [word for word in ("failed", "near") if word in words]
    rest = [word for word in words if word not in lone]
    expect(rest[::2], FIRST + MORE, "the names of stats")
    return {name: int(number) for name, number in zip(rest[::2], rest[1::2])}, lone


def numbers(answer):
    """The numbers of any other answer, by the words before them."""
    words = answer.split()
    return {name: int(number) for name, number in zip(words, words[1:]) if number.isdecimal()}


def each_event(folder):
    """One of each, with the numbers that the answers have."""
    run = Run("--dir", folder, "--log", "--segments", "3", "--most-segments", "8", "--capacity", "65560")
    expect(run.ready, "ready frame 0 protocol 1", "the first answer")
    expect(run.many(["put a %d" % number for number in range(3)]), ["ok"] * 3, "put")
    expect(run.one("flush"), "frame 1", "flush")
    expect(run.many(["evict 7", "clean", "nothing"]), ["refused E9 NoPage", "refused E11 NothingOld", "fault unknown command"], "what is refused")
    added = run.one("add")
    for number in range(200):
        expect(run.one("put k%03d %s" % (number, VALUE)), "ok", "put")
    run.one("flush")
    cleaned = run.one("clean")
    ask(cleaned.startswith("cleaned segment "), cleaned)
    expect(run.one("reopen"), "reopened frame %d lost 0" % numbers(run.one("durable"))["durable"], "reopen")
    stats, lone = stats_of(run.one("stats"))
    expect(lone, [], "the lone words of stats")
    run.one("quit")
    events = run.events(4)
    names = [name for name, _ in events]
    expect(names[:5], ["opened", "refused", "refused", "added", "cleaned"][:4] + [names[4]], "the first events")
    expect(names[-2:], ["reopened", "ended"], "the last events")
    ask(set(names[4:-2]) <= {"added", "cleaned"}, "other events between:", names)
    expect(events[0][1], {**dict.fromkeys(FIRST + MORE, 0), "spares": 3, "pages": 1, "most": 8, "capacity": 65560}, "opened")
    expect(events[1][1], {"error": 9, "line": 5, "refused": 1}, "the first refusal")
    expect(events[2][1], {"error": 11, "line": 6, "refused": 2}, "the second one")
    expect(events[3][1], {"segments": 1, "spares": 3, "most": 8}, "added, which said " + added)
    told = numbers(cleaned)
    last = [it for name, it in events if name == "cleaned"][-1]
    expect({name: last[name] for name in ("segment", "lease", "pages", "frames")}, {name: told[name] for name in ("segment", "lease", "pages", "frames")}, "cleaned")
    expect(events[-2][1], {"durable": stats["durable"], "lost": 0}, "reopened")
    # After `stats` came nothing but `quit`, and before it `durable` after `reopen`.
    expect(events[-1][1], {**stats, "requests": stats["requests"] + 1}, "ended")
    expect(stats["requests"], 2, "requests since the store was opened once more")
    return "%d events" % len(events)


def counted(folder):
    """The numbers of `stats` are those of what was asked."""
    run = Run("--dir", folder, "--m", "4")
    stats, _ = stats_of(run.one("stats"))
    expect(stats, {**dict.fromkeys(FIRST + MORE, 0), "spares": 4, "pages": 1, "most": 4096, "capacity": 16 << 20, "requests": 1}, "stats of a new store")
    expect(run.many(["put a 1", "group put b 2 put c 3 del a", "incr n 1", "cas b 2 4", "cas b 2 5", "setnx b 6", "evict 9"]), ["ok", "ok", "value 1", "ok", "kept", "kept", "refused E9 NoPage"], "requests")
    stats, _ = stats_of(run.one("stats"))
    told = {name: stats[name] for name in ("requests", "refused", "accepted", "kept", "history", "frames", "bytes")}
    expect(told, {"requests": 9, "refused": 1, "accepted": 6, "kept": 0, "history": 6, "frames": 0, "bytes": 0}, "stats before a flush")
    expect(run.many(["flush", "evict 1", "get b"]), ["frame 1", "evicted", "value 4"], "requests")
    stats, _ = stats_of(run.one("stats"))
    size = os.path.getsize(os.path.join(folder, "segment-0000.bw"))
    told = {name: stats[name] for name in ("requests", "kept", "durable", "frames", "bytes", "written", "segments", "spares", "evictions", "cleanings")}
    wanted = {"requests": 13, "kept": 6, "durable": 1, "frames": 1, "bytes": size, "written": size, "segments": 1, "spares": 3, "evictions": 1, "cleanings": 0}
    expect(told, wanted, "stats behind a flush")
    ask(stats["reads"] >= 1, "a page was read from the log, and reads are", stats["reads"])
    expect(run.end(4), "", "what stands on standard error without --log")
    run = Run("--dir", folder, "--m", "4")
    stats, _ = stats_of(run.one("stats"))
    told = {name: stats[name] for name in ("requests", "accepted", "durable", "bytes", "written", "frames")}
    expect(told, {"requests": 1, "accepted": 0, "durable": 1, "bytes": size, "written": 0, "frames": 0}, "stats of a second run")
    run.end()
    return "as asked"


def every_second():
    """Numbers come after a request, once a second has passed, and not before."""
    run = Run("--every", "1")
    expect(run.many(["put a 1", "put b 2", "get a"]), ["ok", "ok", "value 1"], "requests")
    time.sleep(2.5)
    expect(run.one("get b"), "value 2", "get")
    time.sleep(1.2)
    expect(run.many(["get b", "get b", "get b"]), ["value 2"] * 3, "get")
    events = run.events()
    expect([name for name, _ in events], ["counters", "counters"], "the events")
    expect([numbers["requests"] for _, numbers in events], [4, 5], "the requests of each")
    expect(events[0][1]["accepted"], 2, "accepted")
    return "2 lines"


def refused_often():
    """Of one refusal a line a second is printed, and how many there were."""
    run = Run("--log")
    for _ in range(10):
        expect(run.many(["evict 9"] * 1000), ["refused E9 NoPage"] * 1000, "evict")
    took = int(time.time()) - run.began + 2
    events = run.events(4)
    refused = [numbers["refused"] for name, numbers in events if name == "refused"]
    ask(refused[:1] == [1] and len(refused) <= took, refused, "in", took, "seconds")
    expect(events[-1][1]["refused"], 10000, "refused at the end")
    return "10000 refusals in %d lines" % len(refused)


def nearly_full(folder):
    """A log is said to be nearly full once, without --log too, and `stats` says so as long as it is."""
    words = ["--dir", folder, "--segments", "3", "--most-segments", "10", "--capacity", "65560", "--m", "4"]
    run = Run(*words)
    seen, count = [], 0
    while not seen:
        expect(run.many(["put k%06d %s" % (number, VALUE) for number in range(count, count + 20)]), ["ok"] * 20, "put")
        ask(run.one("flush").startswith("frame "), "flush")
        count += 20
        stats, lone = stats_of(run.one("stats"))
        # (of ten segments four fifths are eight: seven in use, and the one that is kept)
        expect(lone, ["near"] if stats["segments"] >= 7 else [], "the lone words with %d segments" % stats["segments"])
        seen = lone
    expect(run.many(["del k%06d" % number for number in range(count)]), ["ok"] * count, "del")
    ask(run.one("flush").startswith(("frame ", "no frame")), "flush")
    for _ in range(20):
        if stats_of(run.one("stats"))[0]["segments"] > 3:
            run.one("clean")
    expect(stats_of(run.one("stats"))[1], [], "the lone words behind cleanings")
    expect(run.end(), "folder %s: the log uses 7 segments of 10 at most\n" % folder, "what was told")
    return "once, at %d pairs" % count


def main():
    wrong = 0
    with tempfile.TemporaryDirectory(dir=FAST) as room:
        rows = [
            ("each event", lambda: each_event(os.path.join(room, "each"))),
            ("stats", lambda: counted(os.path.join(room, "counted"))),
            ("every second", every_second),
            ("refused often", refused_often),
            ("nearly full", lambda: nearly_full(os.path.join(room, "full"))),
        ]
        for name, row in rows:
            try:
                told = row()
            except Wrong as other:
                wrong, told = wrong + 1, "went otherwise: %s" % other
            print("%s: %s" % (name, told), flush=True)
    return 1 if wrong else 0


if __name__ == "__main__":
    sys.exit(main())
