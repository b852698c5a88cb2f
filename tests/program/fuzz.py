#!/usr/bin/env python3
"""make fuzz: hostile segments, scripts and folders for the built program, and what it has to answer.

Segments are made by drawn runs of the program or by this script, and changed: bits, numbers, pieces; frames and blocks exchanged,
doubled, dropped, cut, or spliced from two runs. `bwlog scan` has to answer what hostile/reader.py answers, byte by byte, which is
written only from docs/FORMAT.md and shares nothing with the program. Scripts have to end at the fault that docs/USING.md names, after
the answers of the lines before it. Folders have to be refused as docs/USING.md and docs/FORMAT.md say, and stay as they are. Logs
of both formats are upgraded, and have the same pages then.

    fuzz.py [--cases N] [--seed N] [--from N] [--program FILE] [--jobs N]

Each case draws only from the seed and its own number: the line that reports a failure names both, and `--from N --cases 1` makes it again.
What failed is left in a folder whose name is printed.
"""

import argparse
import collections
import concurrent.futures
import os
import shutil
import sys
import tempfile

from hostile.folders import HOSTILE, ONCE, lived
from hostile.program import FAST, Otherwise, Program, run_of
from hostile.scans import a_page_of_many_pairs, scanned
from hostile.scripts import in_lines, scripted, threaded
from hostile.segments import Draw, drawn_segments
from hostile.upgrades import a_full_log_of_lines, no_lease_is_left, upgrades

HERE = os.path.dirname(os.path.abspath(__file__))
BUILT = os.path.join(HERE, "..", "..", "crates", "bwlog", "out", "bwlog")


def case(program, seed, number, runs, folder):
    """One case; what it was."""
    draw = Draw("%s case %d" % (seed, number))
    place = os.path.join(folder, str(number))
    kind = number % 50
    if kind == 0:
        return draw.choice([in_lines, threaded])(program, draw)
    if kind in (10, 20, 30, 40):
        return "script: " + scripted(program, draw)
    if kind == 25:
        hostile = draw.choice(HOSTILE)
        os.mkdir(place)
        hostile(program, os.path.join(place, "store"), [it for it in draw.choice(runs) if it][:8], draw)
        shutil.rmtree(place)
        return hostile.__name__
    if kind % 10 in (3, 7):
        return "upgrade: " + upgrades(program, runs, place, draw)
    segments = drawn_segments(draw, runs)
    try:
        found = scanned(program, segments, draw)
        if kind in (5, 15, 35, 45):
            found = "folder: " + lived(program, segments, place, draw)
            shutil.rmtree(place)
        return found
    except Otherwise:
        os.makedirs(place, exist_ok=True)
        with open(os.path.join(place, "segments"), "w", encoding="ascii") as file:
            file.writelines(it.hex() + "\n" for it in segments)
        raise


def batch(program, seed, numbers, runs, folder):
    """How often each kind came, and the cases that failed."""
    counts, failed = collections.Counter(), []
    for number in numbers:
        try:
            counts[case(program, seed, number, runs, folder)] += 1
        except Otherwise as otherwise:
            failed.append("seed %s, case %d: %s" % (seed, number, otherwise))
    return counts, failed


def main():
    given = argparse.ArgumentParser(description=__doc__.split("\n", maxsplit=1)[0])
    given.add_argument("--cases", type=int, default=10000)
    given.add_argument("--seed", default="1")
    given.add_argument("--from", type=int, default=0, dest="first")
    given.add_argument("--program", default=BUILT)
    given.add_argument("--jobs", type=int, default=min(4, os.cpu_count() or 1))
    given = given.parse_args()
    program = Program(os.path.abspath(given.program))
    if not os.path.isfile(program.path):
        print("there is no program %s: make run builds it" % program.path)
        return 1
    folder = tempfile.mkdtemp(dir=FAST, prefix="fuzz.")
    os.chmod(folder, 0o755)
    runs = [it for it in (run_of(program, seed) for seed in range(40)) if any(it)]
    numbers = range(given.first, given.first + given.cases)
    batches = [numbers[at : at + 50] for at in range(0, len(numbers), 50)]
    counts, failed = collections.Counter(), []
    with concurrent.futures.ProcessPoolExecutor(given.jobs) as pool:
        for found, wrong in pool.map(batch, *zip(*((program, given.seed, it, runs, folder) for it in batches))):
            counts += found
            failed += wrong
    for hostile in [*ONCE, a_page_of_many_pairs, no_lease_is_left, a_full_log_of_lines] if given.first == 0 else []:
        place = os.path.join(folder, hostile.__name__)
        os.mkdir(place)
        try:
            counts[hostile(program, os.path.join(place, "store"), [it for it in runs[0] if it][:8], Draw(0)) or hostile.__name__] += 1
        except Otherwise as otherwise:
            failed.append("%s: %s" % (hostile.__name__, otherwise))
    for line in failed[:20]:
        print(line)
    if failed:
        print("fuzz: %d of %d cases went otherwise; %s has them" % (len(failed), len(numbers), folder))
        return 1
    shutil.rmtree(folder)
    print("fuzz: %d cases went as told: %s" % (len(numbers), ", ".join("%s %d" % it for it in sorted(counts.items()))))
    return 0


if __name__ == "__main__":
    sys.exit(main())
