#!/usr/bin/env python3
"""How the time of the built program grows: what no contract says, and no answer shows.

    growth.py [PROGRAM [WAY ..]]

A way is something that a run does so many times, or over so much. It is timed at one size and at a greater one, taken in turn, a few turns
each, and of each size the least time counts. The time is that of a processor, for the whole child or, of `serve`, between two requests: so
other work on the machine is not counted. The ratio of the two has to be below the bound of the way:

  - if four times as much is done, below 8: a cost that is linear, but for a logarithm, makes 4 to 5, and a square makes 16;
  - if a request may not cost more in a greater store, of 100,000 keys in place of 10,000, below 4: caches make up to 2.5;
  - if it may not cost more at a frame limit that is four times as great, below 1.4; or beside four times as many blocks in the frame in
    the making, below 2.

A way that fails is timed once more, with more turns, before the whole ends with status 1. All ways take about a minute."""

import os
import random
import subprocess
import sys
import tempfile

from checks import FAST, ask
from hostile.scans import many_pairs

HERE = os.path.dirname(os.path.abspath(__file__))
PROGRAM = os.path.join(HERE, "..", "..", "crates", "bwlog", "out", "bwlog")
SQUARE, STORE, LIMIT, BESIDE = 8, 4, 1.4, 2
TURNS = 3
BURST = 400


# ---- the program, timed


def run_time(program, words, text):
    """How many seconds of a processor a run takes, from its start to its end."""
    with open(os.devnull, "wb") as out, subprocess.Popen([program, *words], stdin=subprocess.PIPE, stdout=out) as child:
        child.stdin.write(text)
        child.stdin.close()
        _, status, used = os.wait4(child.pid, 0)
        child.returncode = os.waitstatus_to_exitcode(status)
    ask(child.returncode == 0, words, "ended with status", child.returncode)
    return used.ru_utime + used.ru_stime


class Served:
    """A run of `serve`, in memory, whose requests are timed."""

    def __init__(self, program, *words):
        words = [program, "serve", "--segments", "8", *words]
        self.child = subprocess.Popen(words, stdin=subprocess.PIPE, stdout=subprocess.PIPE, bufsize=1 << 20)
        self.told(1)

    def told(self, count):
        return [self.child.stdout.readline().decode() for _ in range(count)]

    def used(self):
        """How many seconds of a processor it has had so far."""
        with open("/proc/%d/schedstat" % self.child.pid, encoding="ascii") as numbers:
            return int(numbers.read().split()[0]) / 1e9

    def do(self, lines, begins):
        """Sends requests, so many at once that their answers fit in a pipe, each of which has to be answered so."""
        for at in range(0, len(lines), BURST):
            part = lines[at : at + BURST]
            self.child.stdin.write(("\n".join(part) + "\n").encode())
            self.child.stdin.flush()
            for line, answer in zip(part, self.told(len(part))):
                ask(answer.startswith(begins), line, "was answered", answer)

    def time(self, lines, begins):
        """How many seconds of a processor these requests take."""
        before = self.used()
        self.do(lines, begins)
        return self.used() - before

    def load(self, keys, value):
        """Puts each of these keys, and flushes now and then."""
        for at in range(0, len(keys), 1000):
            self.do(["put %s %s" % (key, value) for key in keys[at : at + 1000]], "ok")
            self.do(["flush"], "frame ")

    def end(self):
        self.do(["quit"], "bye")
        ask(self.child.wait(timeout=60) == 0, "serve ended with status", self.child.returncode)


def key_of(number):
    return "k%07d" % number


# ---- ways of which four times as much is done


def forwards(order):
    """A page that holds n pairs for a while, whose records come in this order, a few in each Delta."""

    def bytes_of(count):
        keys = order([number.to_bytes(3, "big") for number in range(count)])
        held, _, _ = many_pairs(2, keys, 50, 0)
        return held.hex().encode() + b"\n"

    return Runs(["scan"], bytes_of)


def puts(count):
    """n puts of keys in a drawn order, a flush after each 100."""
    keys = [key_of(number) for number in range(count)]
    random.Random(1).shuffle(keys)
    lines = []
    for at, key in enumerate(keys, 1):
        lines.append("put 0 %s 12345678" % key)
        if at % 100 == 0:
            lines.append("flush")
    return ("\n".join(lines + ["flush"]) + "\n").encode()


def written(count):
    """n puts of a thousand keys by two writers."""
    return "".join("put %d %s %d\n" % (number % 2, key_of(number % 1000), number) for number in range(count)).encode()


class Runs:
    """A run of the program over a text of so many."""

    def __init__(self, words, text_of):
        self.words, self.text_of = words, text_of

    def begin(self, program, count):
        self.program, self.text = program, self.text_of(count)

    def time(self):
        return run_time(self.program, self.words, self.text)

    def end(self):
        pass


class Blocks:
    """n evicted pages, each of which has its newest block in one frame, are asked for a key each."""

    def begin(self, program, count):
        self.served = Served(program, "--m", "4", "--frame", "262144", "--places", "4096")
        # (two keys a page: if keys ascend, a page of four is cut after its second key once there is a fifth)
        self.served.load([key_of(number) for number in range(2 * count + 3)], "1")
        self.keys = [key_of(2 * number) for number in range(count)]
        self.served.do(["put %s 2" % key for key in self.keys], "ok")
        self.served.do(["flush"], "frame ")
        self.served.do(["evict %d" % (number + 1) for number in range(count)], "evicted")

    def time(self):
        return self.served.time(["get " + key for key in self.keys], "value 2")

    def end(self):
        self.served.end()


class Walk:
    """All n pairs are asked for by `next`, one by one."""

    def begin(self, program, count):
        self.served = Served(program)
        self.keys = [key_of(number) for number in range(count)]
        self.served.load(self.keys, "1")

    def time(self):
        return self.served.time(["next " + key for key in self.keys], "pair ")

    def end(self):
        self.served.end()


class Imported:
    """n rows go into a table of a new folder, and no page may stay in memory."""

    def begin(self, program, count):
        self.program, self.folder = program, tempfile.TemporaryDirectory(dir=FAST)
        self.text = "".join("%s\t%s\n" % (key_of(number), "x" * 100) for number in range(count)).encode()
        self.runs = 0

    def time(self):
        self.runs += 1
        place = os.path.join(self.folder.name, str(self.runs))
        return run_time(self.program, ["import", "--dir", place, "--table", "t", "--memory", "0"], self.text)

    def end(self):
        self.folder.cleanup()


class Queue:
    """n entries are put at one end of a queue, and then each is asked for from the first key on, and deleted. The pages that it empties stay."""

    def begin(self, program, count):
        self.served, self.count, self.first = Served(program), count, 0

    def time(self):
        keys = [key_of(number) for number in range(self.first, self.first + self.count)]
        self.first += self.count
        self.served.load(keys, "1")
        return self.served.time([it for key in keys for it in ("next 0x00", "del " + key)], ("pair k", "ok"))

    def end(self):
        self.served.end()


# ---- ways that may not cost more


class InStore:
    """So many requests over a store of so many keys."""

    def __init__(self, line, begins, behind=None):
        self.line, self.begins, self.behind = line, begins, behind
        self.words, self.front = [], ""

    def begin(self, program, count):
        self.served = Served(program, *self.words)
        keys = [self.front + key_of(number) for number in range(count)]
        draw = random.Random(2)
        draw.shuffle(keys)
        self.served.load(keys, "x" * 100)
        self.keys = draw.sample(keys, 2000)

    def time(self):
        if self.behind is None:
            return self.served.time([self.line % key for key in self.keys], self.begins)
        lines = [it for key in self.keys for it in (self.line % key, self.behind)]
        return self.served.time(lines, self.begins)

    def end(self):
        self.served.end()


class AtLimit(InStore):
    """Updates of two thousand keys; the frame limit is the size."""

    def begin(self, program, limit):
        self.words = ["--frame", str(limit)]
        super().begin(program, 2000)


class Shared(InStore):
    """Gets over keys that begin with the same 40 bytes."""

    def begin(self, program, count):
        self.front = "s" * 40
        super().begin(program, count)


class Away(InStore):
    """Gets over pages that are all in the log."""

    def begin(self, program, count):
        self.words = ["--memory", "0"]
        super().begin(program, count)


class BesideBlocks:
    """Evicted pages are asked for a key each, beside so many blocks of other pages in the frame in the making."""

    def begin(self, program, count):
        self.served = Served(program, "--m", "4", "--frame", "262144", "--places", "4096")
        # (two keys a page, as above: the first pages are evicted, and each of the others gets a block)
        asked = 500
        self.served.load([key_of(number) for number in range(2 * (asked + count) + 3)], "1")
        self.served.do(["evict %d" % (number + 1) for number in range(asked)], "evicted")
        self.keys = [key_of(2 * number) for number in range(asked)]
        self.served.do(["put %s 2" % key_of(2 * (asked + number)) for number in range(count)], "ok")
        frame = self.frame()
        self.served.do(["get " + self.keys[0]], "value 1")
        ask(self.frame() == frame, "the blocks were appended")

    def frame(self):
        self.served.child.stdin.write(b"durable\n")
        self.served.child.stdin.flush()
        return self.served.told(1)

    def time(self):
        return self.served.time(["get " + key for key in self.keys], "value 1")

    def end(self):
        self.served.end()


# A name, how a way is made, its two sizes, and the bound.
WAYS = [
    ("forwards_descending", lambda: forwards(lambda keys: keys[::-1]), (15000, 60000), SQUARE),
    ("forwards_drawn", lambda: forwards(lambda keys: random.Random(3).sample(keys, len(keys))), (15000, 60000), SQUARE),
    ("replay", lambda: Runs(["replay", "--take", "--m", "32", "--capacity", "16777216"], puts), (15000, 60000), SQUARE),
    ("threads", lambda: Runs(["threads", "--clean-at", "0", "--m", "32", "--capacity", "16777216"], written), (15000, 60000), SQUARE),
    ("threads_reuse", lambda: Runs(["threads", "--reuse", "--m", "32", "--capacity", "1048576"], written), (5000, 20000), SQUARE),
    ("blocks_of_a_frame", Blocks, (1500, 6000), SQUARE),
    ("walk", Walk, (10000, 40000), SQUARE),
    ("import_away", Imported, (10000, 40000), SQUARE),
    ("queue", Queue, (4000, 16000), SQUARE),
    ("get", lambda: InStore("get %s", "value "), (10000, 100000), STORE),
    ("get_shared", lambda: Shared("get %s", "value "), (10000, 100000), STORE),
    ("get_away", lambda: Away("get %s", "value "), (10000, 100000), STORE),
    ("get_beside_blocks", BesideBlocks, (1000, 4000), BESIDE),
    ("next", lambda: InStore("next %s", "pair "), (10000, 100000), STORE),
    ("flush", lambda: InStore("put %s y", ("ok", "frame "), "flush"), (10000, 100000), STORE),
    ("flush_away", lambda: Away("put %s y", ("ok", "frame "), "flush"), (10000, 100000), STORE),
    ("flush_at_limit", lambda: AtLimit("put %s y", ("ok", "frame "), "flush"), (65536, 262144), LIMIT),
]


def ratio(program, make, sizes, turns):
    """The least time at each of two sizes, taken in turn."""
    ways = [make(), make()]
    try:
        for way, size in zip(ways, sizes):
            way.begin(program, size)
        times = [[way.time() for way in ways] for _ in range(turns)]
    finally:
        for way in ways:
            way.end()
    return [min(column) for column in zip(*times)]


def main():
    program = os.path.abspath(sys.argv[1] if len(sys.argv) > 1 else PROGRAM)
    if not os.path.isfile(program):
        print(program + " is not built: make run")
        return 1
    failed = False
    for name, make, sizes, bound in WAYS:
        if sys.argv[2:] and name not in sys.argv[2:]:
            continue
        small, great = ratio(program, make, sizes, TURNS)
        if great >= bound * small:
            small, great = ratio(program, make, sizes, 2 * TURNS)
        is_wrong = great >= bound * small
        failed |= is_wrong
        print("%-20s %6d %8.1f ms, %6d %8.1f ms: %4.1f to 1%s" % (name, sizes[0], 1e3 * small, sizes[1], 1e3 * great, great / small,
              ", and it has to be below %s" % bound if is_wrong else ""), flush=True)
    return 1 if failed else 0


sys.exit(main())
