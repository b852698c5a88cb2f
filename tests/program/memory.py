#!/usr/bin/env python3
"""Pages that leave memory by `bwlog serve --memory BYTES`, beside a map that gets the same changes.

    memory.py [PROGRAM]

Each row is a budget and how large the segments are: nothing may stay, a page or so, a tenth of what is put. Puts, deletes, look-ups, walks, counts
and flushes are drawn, and all that is answered has to be the map's. The log is cleaned on the way, and more and more pages leave. Then the folder is
opened without a budget: each pair is found, and `list` prints all of them and no other.

Where one pair changes again and again, a flush writes no more than a fourth of its page.

At last many pairs are put, and flushed a thousand at a time. The greatest resident set stays below what the log has, the budget with what a page in
memory takes beside its bytes, and something for each page that is away. A run without a budget goes above that, so the bound asks for something.
It all takes some twenty seconds of a processor."""

import os
import random
import subprocess
import sys
import tempfile

from checks import BUILT, FAST, Wrong, ask, expect
from full import Run

PROGRAM = os.path.abspath(sys.argv[1]) if len(sys.argv) > 1 else BUILT
KEYS = 3000
LINES = 24000
# Budgets, and sizes: segments with room for two frames, whose pages leave as they are, and for eight and more, of which pages are written again first.
SMALL = ["--capacity", "131104", "--frame", "65536", "--most-segments", "8"]
LARGE = ["--segments", "3", "--capacity", "1048576", "--frame", "65536", "--most-segments", "3"]
ROWS = [(0, SMALL), (0, LARGE), (4096, SMALL), (4096, LARGE), (30000, LARGE), (4096, [*LARGE, "--tables"])]
# Of the larger run: how many pairs, how many bytes a key and a value have together, in runs of how many their order is drawn, the budget, and what
# else the process takes: its program, what is flushed at once, and a segment that was given up.
PAIRS, PAIR, NEAR, BUDGET, OTHER = 200000, 108, 4000, 1048576, 8388608


class Told(Run):
    """A run of `serve` that counts its evictions and cleanings."""

    def __init__(self, folder, *words):
        super().__init__(folder, list(words))

    def number(self, word):
        words = self.one("stats").split()
        return int(words[words.index(word) + 1])

    def held(self):
        """The resident set, in bytes."""
        with open("/proc/%d/status" % self.child.pid, encoding="ascii") as lines:
            return 1024 * next(int(line.split()[1]) for line in lines if line.startswith("VmRSS:"))


class Map:
    """A map, and lines that are drawn, each with what has to be answered."""

    def __init__(self, seed, words):
        self.draw = random.Random(seed)
        self.place = "t " if "--tables" in words else ""
        self.values = {}
        self.puts = 0

    def key(self):
        return "k%04d" % (self.draw.random() * KEYS)

    def pairs(self, key, count):
        """The first pairs at or above a key."""
        keys = sorted(it for it in self.values if it >= key)[:count]
        return ["%s=%s" % (it, self.values[it]) for it in keys]

    def line(self):
        """A line, and its answer; that of a flush is only begun."""
        drawn, key = self.draw.random(), self.key()
        if drawn < 0.5:
            self.puts += 1
            self.values[key] = ("%d." % self.puts) * (1 + self.puts % 20)
            return "put %s%s %s" % (self.place, key, self.values[key]), "ok"
        if drawn < 0.58:
            self.values.pop(key, None)
            return "del " + self.place + key, "ok"
        if drawn < 0.9:
            return "get " + self.place + key, "value " + self.values[key] if key in self.values else "none"
        if drawn < 0.95:
            pair = self.pairs(key, 1)
            return "next " + self.place + key, "pair " + pair[0] if pair else "none"
        if drawn < 0.985:
            pairs = self.pairs(key, 40)
            return "scan %s%s 40" % (self.place, key), " ".join(["pairs", str(len(pairs)), *pairs])
        if drawn < 0.988:
            return ("count " + self.place).strip(), "count %d" % len(self.values)
        return "flush", None

    def lines(self, count):
        return [self.line() for _ in range(count)]


def compared(run, drawn):
    """Asks lines, and compares their answers."""
    for (line, wanted), answer in zip(drawn, run.ask([line for line, _ in drawn])):
        if wanted is None:
            ask(answer.startswith("frame ") or answer == "no frame", line, "was answered", answer)
        else:
            expect(answer, wanted, line)


def is_listed(folder, told):
    """`list` prints all pairs, and no other."""
    ran = subprocess.run([PROGRAM, "list", "--dir", folder, *(["--table", "t"] if told.place else [])], capture_output=True, check=False)
    expect(ran.returncode, 0, "the status of list")
    expect(ran.stdout.decode(), "".join("%s\t%s\n" % it for it in sorted(told.values.items())), "list")


def goes_on(folder, told, words):
    """A later run over the folder has each pair, and goes on."""
    run, keys = Told(folder, *words), sorted(told.values)
    for key, answer in zip(keys, run.ask_all(["get " + told.place + key for key in keys])):
        expect(answer, "value " + told.values[key], "get %s in a later run" % key)
    for _ in range(20):
        compared(run, told.lines(50))
    ask(run.one("flush").startswith(("frame ", "no frame")), "no last flush")
    run.end()
    is_listed(folder, told)


def drawn(folder, budget, words):
    """One row: what was printed of it."""
    run, told, left = Told(folder, "--memory", str(budget), *words), Map(budget + len(words), words), [0]
    if told.place:
        expect(run.one("create t"), "ok", "create")
    for at in range(0, LINES, 50):
        compared(run, told.lines(50))
        if (at + 50) % (LINES // 4) == 0:
            left.append(run.number("evictions"))
    ask(run.one("flush").startswith(("frame ", "no frame")), "no last flush")
    cleanings, refused = run.number("cleanings"), run.number("refused")
    ask(all(one < more for one, more in zip(left, left[1:])), "evictions", left)
    ask(cleanings > 1 and refused == 0, cleanings, "cleanings,", refused, "refusals")
    run.end()
    is_listed(folder, told)
    goes_on(folder, told, words)
    goes_on(folder, told, ["--memory", str(budget), *words])
    return "%d evictions, %d cleanings, %d pairs" % (left[-1], cleanings, len(told.values))


def resident(folder, words):
    """The resident set at the end of a run that puts many pairs, how long its log is, and how many pages it has."""
    run, draw = Told(folder, *words), random.Random(7)
    for at in range(0, PAIRS, NEAR):
        numbers = list(range(at, at + NEAR))
        draw.shuffle(numbers)
        for part in range(0, NEAR, 1000):
            lines = [("put k%07d %s" % (number, ("%d." % number) * 20))[: PAIR + 5] for number in numbers[part : part + 1000]]
            expect(set(run.ask_all(lines)), {"ok"}, "the answers to puts")
            ask(run.one("flush").startswith("frame "), "no flush goes")
    told = run.held(), run.number("bytes"), run.number("pages")
    for at in range(0, PAIRS, 97):
        expect(run.one("get k%07d" % at)[: PAIR - 2], ("value " + ("%d." % at) * 20)[: PAIR - 2], "get %d" % at)
    run.end()
    return told


def stays_small(outer):
    """Many pairs, by a run with a budget and by one without."""
    words = ["--segments", "2", "--capacity", "1048576"]
    whole, _, _ = resident(os.path.join(outer, "whole"), words)
    held, log, pages = resident(os.path.join(outer, "held"), ["--memory", str(BUDGET), *words])
    # What a page in memory takes beside its bytes is less than twice these, what is kept of each page less than 400 bytes, and the rest is that of any run.
    bound = log + 3 * BUDGET + 400 * pages + OTHER
    ask(held < bound < whole, "resident sets:", held, "with a budget,", whole, "without, where the bound is", bound)
    return "resident %d KiB with a budget, %d KiB without, the bound is %d" % (held // 1024, whole // 1024, bound // 1024)


def writes_little(outer):
    """One pair is changed again and again, and no page may stay: its page is written again once it would be read from a fifth frame."""
    run = Told(os.path.join(outer, "store"), "--memory", "0")
    expect(set(run.ask_all(["put k%04d %s" % (number, "v" * 100) for number in range(KEYS)])), {"ok"}, "the answers to puts")
    ask(run.one("flush").startswith("frame "), "no flush goes")
    before = run.number("written")
    for number in range(400):
        answers = run.ask(["put k1000 %d" % number, "flush"])
        ask(answers[0] == "ok" and answers[1].startswith("frame "), answers)
    each = (run.number("written") - before) // 400
    run.end()
    # A page has at most 32 pairs of 108 bytes, and each fourth flush writes it.
    ask(each < 100 + 32 * 108 // 4, each, "bytes a flush")
    return "%d bytes a flush" % each


def main():
    wrong = 0
    rows = [("a budget of %d, %s" % (budget, " ".join(words)), lambda it, row=(budget, words): drawn(os.path.join(it, "store"), *row)) for budget, words in ROWS]
    for name, goes in [*rows, ("one pair that changes", writes_little), ("%d pairs" % PAIRS, stays_small)]:
        with tempfile.TemporaryDirectory(dir=FAST) as outer:
            try:
                told = goes(outer)
            except Wrong as other:
                wrong, told = wrong + 1, "went otherwise: %s" % other
        print("%s: %s" % (name, told), flush=True)
    print("memory: %s" % ("%d went otherwise" % wrong if wrong else "all went as the map tells"))
    return 1 if wrong else 0


if __name__ == "__main__":
    sys.exit(main())
