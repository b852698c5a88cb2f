#!/usr/bin/env python3
"""How many instructions a record costs, so that no change costs unseen: whatever else the machine does, counts differ by less than 1 in 500.

    instructions.py [PROGRAM]

PROGRAM is `bw_bench` as the gate builds it. valgrind counts what it runs at two sizes; what one size takes more than the other is what so many
records more take. A way has a bound, a tenth above what stood when it was set; who makes a record dearer on purpose sets it anew, and says why
in docs/MEASURED.md. Without valgrind nothing is counted, and that is said. Each number is of a record with all that a run does to it: a new key is put, turned,
flushed and read back several times, each time after its value was made again; an update is put, turned and flushed. All ways take about half a
minute."""

import os
import re
import shutil
import subprocess
import sys

from checks import Wrong, ask

HERE = os.path.dirname(os.path.abspath(__file__))
PROGRAM = os.path.join(HERE, "..", "..", "crates", "bw_bench", "out", "bw_bench")
COUNTED = re.compile(r"Collected : (\d+)")
SMALL, GREAT = 2000, 6000

# The name of a way, the subject, what grows, and the bound.
WAYS = [
    ("a new key of a core", "core", "keys", 13480),
    ("an update of a core", "core", "operations", 5070),
    ("a new key, with readers", "alone", "keys", 28760),
    ("an update, with readers", "alone", "operations", 15570),
]


def counted(program, subject, grows, size):
    """How many instructions a run takes, of so many keys or operations."""
    sizes = {"keys": SMALL, "operations": 1 if grows == "keys" else SMALL, grows: size}
    words = [it for name, number in sizes.items() for it in ("--" + name, str(number))]
    told = ["valgrind", "--tool=callgrind", "--callgrind-out-file=/dev/null", program, "--only", subject, *words]
    ran = subprocess.run(told, capture_output=True, text=True, check=False)
    ask(ran.returncode == 0 and "0 wrong" in ran.stdout, " ".join(told), "ended with status", ran.returncode, ran.stderr[-300:])
    return int(COUNTED.search(ran.stderr)[1])


def main():
    program = os.path.abspath(sys.argv[1] if len(sys.argv) > 1 else PROGRAM)
    if not os.path.isfile(program):
        print(program + " is not built: make test builds it")
        return 1
    if not shutil.which("valgrind"):
        print("instructions are not counted: there is no valgrind")
        return 0
    failed = False
    for name, subject, grows, bound in WAYS:
        small, great = (counted(program, subject, grows, size) for size in (SMALL, GREAT))
        each = (great - small) / (GREAT - SMALL)
        is_wrong = each > bound
        failed |= is_wrong
        print("%-24s %6.0f instructions, at most %d: %s" % (name, each, bound, "too many" if is_wrong else "well"), flush=True)
    return 1 if failed else 0


try:
    sys.exit(main())
except Wrong as wrong:
    sys.exit("instructions.py: %s" % wrong)
