#!/usr/bin/env python3
"""Runs the benchmark: each subject in a process of its own, the time of a new key at several sizes, other stores under the same load, and the
store over files. Prints all lines as they come, keeps them in out/bench.txt, and draws docs/speed.svg of them.

    bench.py [--program PROGRAM] [--keys N] [--no-files] SUBJECT..

PROGRAM is a built `bw_bench`; without one each run is an `rt run`, which proves it first. N keys are put and as many changed, a million if it
is not given; the sizes are a tenth, three tenths, all and three times of N. Other stores are left out if rustc or a library of theirs is not
there, and that is said."""

import argparse
import os
import shutil
import subprocess
import sys
import tempfile
import time

HERE = os.path.dirname(os.path.abspath(__file__))
TOP = os.path.join(HERE, "..")
BENCH = os.path.join(TOP, "crates", "bw_bench")
KEPT = os.path.join(TOP, "out", "bench.txt")
DRAWN = os.path.join(TOP, "docs", "speed.svg")
FAST = "/dev/shm" if os.path.isdir("/dev/shm") else None


class Failed(Exception):
    pass


def run(words, kept, cwd=None):
    """Runs a command; its lines are printed and kept."""
    with subprocess.Popen(words, cwd=cwd, stdout=subprocess.PIPE, text=True) as ran:
        for line in ran.stdout:
            print(line, end="", flush=True)
            kept.write(line)
    if ran.returncode != 0:
        raise Failed("%s ended with status %d" % (" ".join(words), ran.returncode))


def bench(given, kept, subject, keys, operations, more=()):
    start = [os.path.abspath(given.program)] if given.program else ["rt", "run", "--"]
    words = ["--keys", str(keys), "--operations", str(operations), *more, "--times", "--only", subject]
    run(start + words, kept, None if given.program else BENCH)


def peers_in(folder):
    """Other stores under the same load, as a program in this folder; `None` if it cannot be built."""
    program = os.path.join(folder, "peers")
    if not shutil.which("rustc"):
        return None
    built = subprocess.run(["rustc", "--edition", "2021", "-O", "-o", program, os.path.join(HERE, "peers.rs")], capture_output=True, text=True, check=False)
    return program if built.returncode == 0 else None


def sizes_of(keys):
    return [size for size in (keys // 10, 3 * keys // 10, keys, 3 * keys) if 0 < size <= 10000000]


def in_memory(given, kept):
    for subject in given.subjects:
        bench(given, kept, subject, given.keys, given.keys)
    for size in sizes_of(given.keys):
        if size != given.keys or "core" not in given.subjects:
            bench(given, kept, "core", size, size)
    with tempfile.TemporaryDirectory(dir=FAST) as folder:
        peers = peers_in(folder)
        if peers is None:
            print("other stores are left out: there is no rustc, or no liblmdb-dev or libleveldb-dev")
            return
        for size in sizes_of(given.keys):
            beside = os.path.join(folder, str(size))
            os.mkdir(beside)
            run([peers, beside, str(size)], kept)
            shutil.rmtree(beside)


def over_files(given, kept):
    """Only appends, and then large batches and writers in threads, in a folder."""
    with tempfile.TemporaryDirectory() as folder:
        bench(given, kept, "appends", given.keys, given.keys, ["--dir", folder])
        bench(given, kept, "alone", max(1, given.keys // 2), 1, ["--batch", "4096", "--dir", folder])
        for batch in (64, 512, 4096):
            beside = os.path.join(folder, str(batch))
            os.mkdir(beside)
            count = max(1, given.keys // 10)
            bench(given, kept, "many", count, count, ["--batch", str(batch), "--dir", beside])


def draw(given):
    by = "a build that was handed in" if given.program else "a proved build"
    note = "%s, %s: batches of 64, values of 100 bytes, in memory of the system, no sync. Less is faster." % (time.strftime("%d %B %Y"), by)
    words = [sys.executable, os.path.join(HERE, "speed.py"), "--note", note, KEPT]
    ran = subprocess.run(words, capture_output=True, text=True, check=False)
    if ran.returncode != 0:
        raise Failed(ran.stderr)
    with open(DRAWN, "w", encoding="utf-8") as file:
        file.write(ran.stdout)


def main():
    words = argparse.ArgumentParser(usage=__doc__)
    words.add_argument("--program")
    words.add_argument("--keys", type=int, default=1000000)
    words.add_argument("--no-files", action="store_true")
    words.add_argument("subjects", nargs="*", default=["core", "alone"])
    given = words.parse_args()
    os.makedirs(os.path.dirname(KEPT), exist_ok=True)
    try:
        # The picture is of what stands in memory: over files the same operations take other times.
        with open(KEPT, "w", encoding="utf-8") as kept:
            in_memory(given, kept)
        draw(given)
        if not given.no_files:
            with open(KEPT, "a", encoding="utf-8") as kept:
                over_files(given, kept)
    except Failed as failed:
        print(failed, file=sys.stderr)
        return 1
    return 0


sys.exit(main())
