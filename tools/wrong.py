#!/usr/bin/env python3
"""Tries the wrong bodies of wrong/, in a copy of what is committed: the checker has to refuse each.

    wrong.py [--since COMMIT] [CRATE..]

With --since it tries those of crates whose text, or one of whose wrong bodies, changed since then; with names those of these crates."""

import argparse
import os
import shutil
import subprocess
import sys
import tempfile

from changed import crate_of, edited_crate, files_since
from shown import TOP


def wanted(since, names):
    """The crates whose wrong bodies are tried."""
    every = sorted(os.listdir(os.path.join(TOP, "wrong")))
    if since:
        changed = {crate_of(it) or edited_crate(it) for it in files_since(since)}
        every = [it for it in every if it in changed]
    return [it for it in every if not names or it in names]


def main():
    parser = argparse.ArgumentParser(description=__doc__.split("\n", maxsplit=1)[0])
    parser.add_argument("--since", metavar="COMMIT")
    parser.add_argument("names", nargs="*", metavar="CRATE")
    given = parser.parse_args()
    crates = wanted(given.since, given.names)
    if not crates:
        print("wrong: no crate changed that has any")
        return 0
    with tempfile.TemporaryDirectory() as room:
        subprocess.run(["git", "clone", "-q", TOP, room], check=True)
        for name in crates:
            to = os.path.join(room, "crates", name, "must-fail")
            shutil.rmtree(to, ignore_errors=True)
            shutil.copytree(os.path.join(room, "wrong", name), to)
        print("wrong: trying those of " + " ".join(crates), flush=True)
        return subprocess.run(["rt", "must-fail", *crates], cwd=room, check=False).returncode


if __name__ == "__main__":
    sys.exit(main())
