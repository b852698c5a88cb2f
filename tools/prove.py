#!/usr/bin/env python3
"""Proves a crate and all that it stands on, side by side if they do not stand on one another.

    prove.py CRATE [JOBS]

Each crate is proved and built once all crates that it names in crates.txt are, at most JOBS at a time (as many as there are
processors, four at most). What stands proved already is not proved again. It prints a line for each crate. On a terminal one line that is
written over says which crates it proves, how many are done, and how long the rest takes by the times of the last run."""

import os
import subprocess
import sys
import time
from concurrent.futures import FIRST_COMPLETED, ThreadPoolExecutor, wait

from shown import TOP, Line, crates, keep_times


def below(crate, named):
    """The crate and all that it stands on."""
    found, open_ones = set(), [crate]
    while open_ones:
        name = open_ones.pop()
        if name not in found:
            found.add(name)
            open_ones += named[name]
    return found


def prove(name, word):
    begun = time.time()
    words = ["rt", word] + (["--jobs", "1"] if word == "check" else [])
    ran = subprocess.run(words, cwd=os.path.join(TOP, "crates", name), capture_output=True, text=True)
    told = "proved" if ran.returncode == 0 else "NOT PROVED\n" + ran.stdout + ran.stderr
    return name, ran.returncode == 0, told, time.time() - begun


def main():
    crate = sys.argv[1]
    jobs = int(sys.argv[2]) if len(sys.argv) > 2 else min(4, os.cpu_count() or 1)
    named = crates()
    waiting = below(crate, named)
    line = Line("run", sorted(waiting), named, jobs)
    done, running, failed, took = set(), {}, False, {}
    with ThreadPoolExecutor(jobs) as pool:
        while (waiting and not failed) or running:
            ready = [name for name in waiting if all(dep in done for dep in named[name])]
            if not failed:
                for name in sorted(ready)[: jobs - len(running)]:
                    waiting.discard(name)
                    running[pool.submit(prove, name, "check" if name == crate else "lib")] = name
            line.show(done, ", " + " ".join(sorted(running.values())))
            ended, _ = wait(running, timeout=1 if line.is_seen else None, return_when=FIRST_COMPLETED)
            for one in ended:
                del running[one]
                name, proved, told, seconds = one.result()
                line.rest()
                print("%s: %s, %.0f s" % (name, told, seconds), flush=True)
                if proved:
                    done.add(name)
                    took[name] = seconds
                else:
                    failed = True
    line.rest()
    keep_times("run", took)
    return 1 if failed else 0


sys.exit(main())
