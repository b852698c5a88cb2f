#!/usr/bin/env python3
"""What a round of put, flush and evict over one page costs, by `bwlog serve`, with and without `rewrite`.

    rounds.py [ROUNDS]

One page of 32 keys leaves memory after each flush, and each put brings it back: it is read from all frames that touched it since it
was written whole. With rewrite, the page is written again as soon as `walk 1` names 64 frames. It prints the microseconds of a round,
as the mean of the last hundred, at some rounds up to 8,000, and the walk then."""

import os
import subprocess
import sys
import tempfile
import time

HERE = os.path.dirname(os.path.abspath(__file__))
PROGRAM = os.path.abspath(os.path.join(HERE, "..", "crates", "bwlog", "out", "bwlog"))
TOLD = (500, 1000, 2000, 4000, 8000)
LONGEST = 64


class Run:
    def __init__(self, folder):
        words = [PROGRAM, "serve", "--dir", folder, "--m", "32", "--segments", "8", "--capacity", "16777216"]
        self.child = subprocess.Popen(words, stdin=subprocess.PIPE, stdout=subprocess.PIPE, bufsize=1 << 16)
        self.child.stdout.readline()

    def ask(self, lines):
        self.child.stdin.write(("\n".join(lines) + "\n").encode())
        self.child.stdin.flush()
        return [self.child.stdout.readline().decode().strip() for _ in lines]

    def walk(self):
        return int(self.ask(["walk 1"])[0].split()[1])

    def end(self):
        self.ask(["quit"])
        return self.child.wait(timeout=60)


def rounds(folder, count, is_rewritten):
    run = Run(folder)
    spent = []
    for number in range(1, count + 1):
        start = time.perf_counter()
        answers = run.ask(["put k%d v%d" % (number % 32, number), "flush", "evict 1"])
        if answers[0] != "ok" or not answers[1].startswith("frame ") or answers[2] != "evicted":
            print("round %d was answered %s" % (number, answers))
            return 1
        if is_rewritten and run.walk() >= LONGEST:
            answer = run.ask(["rewrite 1"])[0]
            if answer != "rewritten frames 1":
                print("a rewrite was answered " + answer)
                return 1
        spent.append(time.perf_counter() - start)
        if number in TOLD:
            mean = sum(spent[-100:]) / 100 * 1e6
            print("%s rewrite, round %d: %.0f us, walk %d" % ("with" if is_rewritten else "without", number, mean, run.walk()))
    return run.end()


def main():
    count = int(sys.argv[1]) if len(sys.argv) > 1 else 8000
    if not os.path.isfile(PROGRAM):
        print(PROGRAM + " is not built: make run")
        return 1
    status = 0
    for is_rewritten in (True, False):
        with tempfile.TemporaryDirectory(dir="/dev/shm" if os.path.isdir("/dev/shm") else None) as folder:
            status = rounds(os.path.join(folder, "store"), count, is_rewritten) or status
    return status


sys.exit(main())
