#!/usr/bin/env python3
"""Proves what a change touches, in minutes: the crates whose text changed since a commit, those above a crate of which a clause or a
definition changed, and the crates of tests that name one of these, whose tests it runs.

    check.py [COMMIT]

COMMIT is the last one if it is not given, so what is not committed yet is asked. `make test` stays the gate: only it proves all, and
tries the wrong bodies. What a crate kept of its last check is not proved again."""

import os
import subprocess
import sys
import time
from concurrent.futures import FIRST_COMPLETED, ThreadPoolExecutor, wait

from changed import crates_since
from shown import TOP, crates


def above(names, named):
    """The crates that stand on one of these."""
    found, size = set(names), -1
    while size != len(found):
        size = len(found)
        found |= {it for it, deps in named.items() if found & set(deps)}
    return found


def is_program(name):
    return os.path.isfile(os.path.join(TOP, "crates", name, "src", "main.rt"))


def has_tests(name):
    return name.endswith("_tests")


def run(name):
    """Proves a crate; of a crate of tests, runs them."""
    word = "test" if has_tests(name) else "check" if is_program(name) else "lib"
    begun = time.time()
    words = ["rt", word] + (["--jobs", "1"] if word == "check" else [])
    ran = subprocess.run(words, cwd=os.path.join(TOP, "crates", name), capture_output=True, text=True, check=False)
    what = "its tests passed" if word == "test" else "proved"
    told = what if ran.returncode == 0 else "FAILED\n" + ran.stdout + ran.stderr
    print("%s: %s, %.0f s" % (name, told, time.time() - begun), flush=True)
    return name, ran.returncode == 0


def main():
    commit = sys.argv[1] if len(sys.argv) > 1 else "HEAD"
    named = crates()
    changed, stated = crates_since(commit)
    changed &= set(named)
    wanted = changed | {it for it in above(stated & set(named), named) if not has_tests(it)}
    wanted |= {it for it in named if has_tests(it) and set(named[it]) & wanted}
    print("changed: %s; asked: %s" % (" ".join(sorted(changed)) or "none", " ".join(it for it in named if it in wanted) or "none"), flush=True)
    waiting, done, running, is_well = set(wanted), set(), {}, True
    with ThreadPoolExecutor(min(4, os.cpu_count() or 1)) as pool:
        while (waiting and is_well) or running:
            # A crate waits for all below it that are asked too, those that it does not name among them.
            ready = [it for it in named if it in waiting and is_well and not any(it in above([other], named) for other in wanted - done - {it})]
            for name in ready[: pool._max_workers - len(running)]:
                waiting.discard(name)
                running[pool.submit(run, name)] = name
            for one in wait(running, return_when=FIRST_COMPLETED).done:
                del running[one]
                name, passed = one.result()
                is_well = is_well and passed
                done.add(name)
    return 0 if is_well else 1


if __name__ == "__main__":
    sys.exit(main())
