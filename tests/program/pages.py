#!/usr/bin/env python3
"""Runs the commands of docs/FIRST.md and docs/OPERATE.md, and compares what they print.

    pages.py [PROGRAM]

A command is a line that is indented by four blanks and begins with `$ `; what follows it, indented likewise, is what it writes to its standard output
and error, to the last byte. All commands of a page run in one shell, in an empty folder, one after another. A command that prints otherwise
ends the whole with status 1."""

import os
import re
import subprocess
import sys
import tempfile

from checks import BUILT, FAST, TOP, Wrong, ask

PROGRAM = os.path.abspath(sys.argv[1]) if len(sys.argv) > 1 else BUILT
PAGES = ("FIRST.md", "OPERATE.md")
LIMIT = 60
# A line that no command prints.
MARK = "---- the next command ----"


def commands_of(text):
    """Each command of a page, and what it prints."""
    found = []
    for block in re.findall(r"(?:^    .*\n)+", text, re.M):
        lines = [line[4:] for line in block.splitlines()]
        if not lines[0].startswith("$ "):
            continue
        for line in lines:
            if line.startswith("$ "):
                found.append((line[2:], []))
            else:
                found[-1][1].append(line)
    return [(command, "".join(line + "\n" for line in printed)) for command, printed in found]


def run_page(name):
    """Runs the commands of a page; how many there are."""
    with open(os.path.join(TOP, "docs", name), encoding="utf-8") as page:
        commands = commands_of(page.read())
    with tempfile.TemporaryDirectory(dir=FAST, prefix="bwlog-pages-") as room:
        os.mkdir(os.path.join(room, "bin"))
        os.symlink(os.path.abspath(PROGRAM), os.path.join(room, "bin", "bwlog"))
        os.mkdir(os.path.join(room, "work"))
        env = dict(os.environ, PATH=os.path.join(room, "bin") + ":" + os.environ["PATH"], LC_ALL="C")
        script = "".join("%s\necho '%s'\n" % (command, MARK) for command, _ in commands)
        ran = subprocess.run(["sh"], input=script, cwd=os.path.join(room, "work"), env=env, timeout=LIMIT, check=False,
                             stdout=subprocess.PIPE, stderr=subprocess.STDOUT, text=True)
    answers = ran.stdout.split(MARK + "\n")
    ask(len(answers) == len(commands) + 1 and answers[-1] == "", name, "the shell ended early:", answers[-1])
    for (command, wanted), printed in zip(commands, answers):
        ask(printed == wanted, name, "$ %s\nprints %r\nand not %r" % (command, printed, wanted))
    return len(commands)


def main():
    try:
        ask(os.path.exists(PROGRAM), PROGRAM + " is not built: make run")
        count = sum(run_page(name) for name in PAGES)
    except Wrong as wrong:
        print(wrong)
        return 1
    print("pages: %d commands print what the pages say" % count)
    return 0


if __name__ == "__main__":
    sys.exit(main())
