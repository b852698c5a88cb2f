#!/usr/bin/env python3
"""A log that gets full, by `bwlog serve` over a folder: it is never stuck.

Of each row: new keys are put until that is refused, `refused E5 NoSegment`. Then what was taken is flushed, a key is deleted, and the oldest
segment is given up, each as it is asked; deletes go on, and in the end there is room for puts again. A second run over the folder finds each pair
that was flushed, and no other. A line of several puts says how many of them went in, and none goes in twice if room was made amid them. And updates of a few
keys beside a set that never changes go on as long as they are asked."""

import os
import subprocess
import sys
import tempfile

from checks import BUILT, FAST, Wrong, ask, expect

PROGRAM = os.path.abspath(sys.argv[1]) if len(sys.argv) > 1 else BUILT
FULL = "refused E5 NoSegment"
VALUE = "v" * 500
# Segments with room for one frame, for two of them, for three, and for sixteen; few segments and many.
ROWS = [
    ["--capacity", "65560", "--most-segments", "16"],
    ["--capacity", "131104", "--most-segments", "16"],
    ["--capacity", "131104", "--most-segments", "16", "--frame", "65536"],
    ["--capacity", "1048576", "--most-segments", "6"],
    ["--capacity", "4194304", "--most-segments", "5"],
]
# Segments with room for one frame, keys that stay as they are, and how many updates of fifty others.
BESIDE = [
    (["--capacity", "65560"], 1700, 60000),
]


class Run:
    """A run of `serve`, asked in bursts."""

    def __init__(self, folder, words):
        self.child = subprocess.Popen([PROGRAM, "serve", "--dir", folder, *words], stdin=subprocess.PIPE, stdout=subprocess.PIPE, bufsize=1 << 20)
        ask(self.line().startswith("ready frame "), "no store")

    def line(self):
        return self.child.stdout.readline().decode().rstrip("\n")

    def ask(self, lines):
        self.child.stdin.write(("\n".join(lines) + "\n").encode())
        self.child.stdin.flush()
        return [self.line() for _ in lines]

    def ask_all(self, lines):
        """Answers to lines that are asked in parts, whose answers fit a pipe."""
        return [answer for at in range(0, len(lines), 50) for answer in self.ask(lines[at : at + 50])]

    def one(self, line):
        return self.ask([line])[0]

    def end(self, status=0):
        expect(self.one("quit"), "bye", "quit")
        expect(self.child.wait(timeout=60), status, "the status")


def fill(run, at):
    """Puts new keys from this one on until one is refused, and answers how many were taken."""
    while True:
        for answer in run.ask(["put k%06d %s" % (number, VALUE) for number in range(at, at + 50)]):
            if answer == FULL:
                return at
            expect(answer, "ok", "put k%06d" % at)
            at += 1


def fills_in_lines(folder, words):
    """Fills a log by lines of seven puts: the one that is refused says how many of it went in, and each pair went in once."""
    run, at = Run(folder, words), 0
    while True:
        keys = ["k%06d" % number for number in range(at, at + 7)]
        answer = run.one(" ".join(["puts", *("%s %s" % (key, VALUE) for key in keys)]))
        if answer != "ok":
            break
        at += 7
    head, _, count = answer.partition(" after ")
    expect(head, FULL, "a line of puts")
    expect(run.one("gets " + " ".join(keys)), " ".join(["values", *[VALUE] * int(count), *["="] * (7 - int(count))]), "the line that was refused")
    expect(run.one("count"), "count %d" % (at + int(count)), "how many pairs")
    told = run.one("stats")
    ask(told.startswith("history %d " % (at + int(count))), told)
    run.end(4)
    return "%d lines, and %s puts of the last one" % (at // 7, count)


def delete(run, keys):
    """Deletes all these keys. If one is refused, the oldest segment is given up, as somebody does who reads that the log is full."""
    cleaned = 0
    for key in keys:
        answer = run.one("del " + key)
        while answer == FULL:
            ask(cleaned < 1000, "no delete goes in")
            ask(run.one("clean").startswith("cleaned "), "no cleaning goes")
            cleaned += 1
            answer = run.one("del " + key)
        expect(answer, "ok", "del " + key)
    return cleaned


def gets_full(folder, words):
    run = Run(folder, words)
    count = fill(run, 0)
    # What comes first is said at once, and nothing was lost by the refusal.
    expect(run.one("put more " + VALUE), FULL, "one more put")
    ask(run.one("flush").startswith(("frame ", "no frame")), "no flush goes")
    expect(run.one("del k000000"), "ok", "a delete")
    ask(run.one("flush").startswith("frame "), "no flush of a delete goes")
    ask(run.one("clean").startswith("cleaned segment "), "no cleaning goes")
    expect(run.one("count"), "count %d" % (count - 1), "how many pairs")
    # Four of five go, and then there is room again.
    gone = [number for number in range(1, count) if number % 5]
    cleaned = delete(run, ["k%06d" % number for number in gone])
    ask(run.one("flush").startswith(("frame ", "no frame")), "no flush goes")
    more = fill(run, count)
    ask(more - count > len(gone) // 2, more - count, "pairs find room where", len(gone), "went")
    ask(run.one("flush").startswith(("frame ", "no frame")), "no flush goes")
    # (status 4: something was refused)
    run.end(4)
    run = Run(folder, words)
    stay = sorted({*range(count, more), *range(5, count, 5)})
    expect(run.one("count"), "count %d" % len(stay), "how many pairs in a second run")
    for number, answer in zip(stay, run.ask_all(["get k%06d" % number for number in stay])):
        expect(answer, "value " + VALUE, "get k%06d" % number)
    run.end()
    return "%d pairs, then %d more where %d went, %d cleanings asked" % (count, more - count, len(gone), cleaned)


def stays_beside(folder, words, cold, updates):
    run = Run(folder, words)
    for at in range(0, cold, 50):
        expect(run.ask(["put k%06d %s" % (number, VALUE) for number in range(at, at + 50)]), ["ok"] * 50, "put")
    for at in range(0, updates, 50):
        expect(run.ask(["put h%d v%d" % (number % 50, number) for number in range(at, at + 50)]), ["ok"] * 50, "update %d" % at)
        if at % 1000 == 0:
            ask(run.one("flush").startswith("frame "), "no flush goes")
    told = run.one("stats")
    expect(run.one("count"), "count %d" % (cold + 50), "how many pairs")
    run.end()
    return told


def keeps_its_size(folder):
    """A later run makes segments as long as the longest there is, whatever its options say."""
    for at, words in ((0, ["--capacity", "1048576", "--frame", "65536"]), (800, ["--capacity", "65560"])):
        run = Run(folder, words)
        expect(run.ask_all(["put k%06d %s" % (number, VALUE) for number in range(at, at + 800)]), ["ok"] * 800, "put")
        ask(run.one("flush").startswith("frame "), "no flush goes")
        told = run.one("stats")
        run.end()
    # (400,000 bytes would take seven segments of 65,560)
    ask(int(told.split()[told.split().index("segments") + 1]) <= 3, told)
    return told


def main():
    wrong = 0
    with tempfile.TemporaryDirectory(dir=FAST) as outer:
        try:
            told = keeps_its_size(os.path.join(outer, "store"))
        except Wrong as other:
            wrong, told = wrong + 1, "went otherwise: %s" % other
    print("segments of 1 MiB, and then of 65560 bytes: %s" % told, flush=True)
    for row in ROWS:
        with tempfile.TemporaryDirectory(dir=FAST) as outer:
            try:
                told = gets_full(os.path.join(outer, "store"), row)
            except Wrong as other:
                wrong, told = wrong + 1, "went otherwise: %s" % other
        print("full, %s: %s" % (" ".join(row), told), flush=True)
        with tempfile.TemporaryDirectory(dir=FAST) as outer:
            try:
                told = fills_in_lines(os.path.join(outer, "store"), row)
            except Wrong as other:
                wrong, told = wrong + 1, "went otherwise: %s" % other
        print("full by lines of puts, %s: %s" % (" ".join(row), told), flush=True)
    for words, cold, updates in BESIDE:
        with tempfile.TemporaryDirectory(dir=FAST) as outer:
            try:
                told = stays_beside(os.path.join(outer, "store"), words, cold, updates)
            except Wrong as other:
                wrong, told = wrong + 1, "went otherwise: %s" % other
        print("%d updates beside %d keys, %s: %s" % (updates, cold, " ".join(words), told), flush=True)
    return 1 if wrong else 0


if __name__ == "__main__":
    sys.exit(main())
