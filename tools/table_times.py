#!/usr/bin/env python3
"""What calls on tables cost beside the store that they stand on: medians over rounds in turn, by processor time.

    table_times.py PROGRAM [COUNT [ROUNDS]]

PROGRAM is a built `bw_tabled`, asked for `--times`. Of COUNT keys (100,000) each subject has its turn in each round (5). Nanoseconds an operation are printed, with
the times of what each stands beside, and for values of 1 MiB megabytes a second."""

import re
import statistics
import subprocess
import sys

LINE = re.compile(r"(\S.*): (\d+), (\d+) ns each")
# Of each subject and operation: beside which it is printed, as a subject and an operation.
BESIDE = {
    ("a table without long values", "put, new"): ("the store itself", "set, new"),
    ("a table without long values", "put, changed"): ("the store itself", "set, changed"),
    ("a table without long values", "get of a table"): ("the store itself", "get of the store"),
    ("a table with a long value", "put, new"): ("the store itself", "set, new"),
    ("a table with a long value", "put, changed"): ("the store itself", "set, changed"),
    ("a table with a long value", "get of a table"): ("the store itself", "get of the store"),
    ("batches of 100", "batches, new"): ("a table without long values", "put, new"),
    ("batches of 100", "batches, changed"): ("a table without long values", "put, changed"),
    ("batches of 1000", "batches, new"): ("a table without long values", "put, new"),
    ("batches of 1000", "batches, changed"): ("a table without long values", "put, changed"),
    ("openings", "an opening"): ("openings", "a search"),
}


def rounds_of(text):
    """Of each subject and operation its nanoseconds in each round."""
    found, subject = {}, None
    for line in text.splitlines():
        if told := LINE.fullmatch(line):
            found.setdefault((subject, told[1]), []).append(int(told[3]))
        elif line.startswith("  "):
            raise SystemExit("%s: %s" % (subject, line.strip()))
        else:
            subject = line
    return found


def main():
    program = sys.argv[1]
    count = sys.argv[2] if len(sys.argv) > 2 else "100000"
    rounds = sys.argv[3] if len(sys.argv) > 3 else "5"
    ran = subprocess.run([program, "--times", count, rounds], stdout=subprocess.PIPE, text=True, check=True)
    found = rounds_of(ran.stdout)
    for (subject, operation), nanos in found.items():
        median, more = statistics.median(nanos), ""
        if (subject, operation) in BESIDE:
            beside = found[BESIDE[subject, operation]]
            each = [its / other for its, other in zip(nanos, beside)]
            more = "  %.2f times (%.2f to %.2f)" % (statistics.median(each), min(each), max(each))
        if operation.startswith("1 MiB"):
            more = "  %.0f MB a second" % (1048576 / median * 1000)
        print("%-30s %-20s %10.0f ns%s" % (subject, operation, median, more))


main()
