"""The built program, and what its drawn runs leave in a folder."""

import os
import re
import subprocess
import tempfile

from hostile.segments import Draw

# Where a sync takes no time, if there is such a place.
FAST = "/dev/shm" if os.path.isdir("/dev/shm") else None
LIMIT = 60
# What is told of the files of a folder that recovery refuses, behind the answer (docs/USING.md, "It is damaged").
NAMED = re.compile(
    rb"folder [^\n]*: (bad bytes: segment-\d{4}\.bw at \d+|(segment|frame) \d+ is missing, between [^\n]*|(segments|frames) \d+ to \d+ are missing, between [^\n]*"
    rb"|segment \d+ is there twice, in [^\n]*|the oldest segment is number \d+, in segment-\d{4}\.bw: [^\n]*)\n"
)
RECOVERY = re.compile(rb"^refused E1[3-7] ", re.M)


class Otherwise(Exception):
    """An answer that is none that the pages of docs/ allow."""


class Program:
    def __init__(self, path):
        self.path = path

    def run(self, words, text=b"", **more):
        """Exit status, what it printed and what it told, but for the files that it names where recovery refused them."""
        try:
            answer = subprocess.run([self.path, *words], input=text, capture_output=True, timeout=LIMIT, close_fds=False, **more)
        except subprocess.TimeoutExpired:
            raise Otherwise("%s took more than %d seconds" % (words, LIMIT)) from None
        errors = NAMED.sub(b"", answer.stderr) if RECOVERY.search(answer.stdout) else answer.stderr
        return answer.returncode, answer.stdout, errors


def run_of(program, seed):
    """The segments of a drawn run over a folder."""
    draw = Draw("run %d" % seed)
    m = draw.choice([4, 4, 5, 9, 32])
    # The words of most runs are lawful in format 1 too.
    longest = (128, 512) if seed % 4 == 0 else (64, 128)
    lines, count = [], 0
    for _ in range(draw.choice([3, 20, 60, 150])):
        kind = draw.randrange(12)
        key = draw.key(longest[0]) if draw.is_so(2) else b"k%02d" % draw.randrange(40)
        if kind < 6:
            lines.append("put %d %s %s" % (draw.randrange(2), "0x" + key.hex(), "0x" + draw.value(longest[1]).hex()))
        elif kind < 8:
            lines.append("del %d 0x%s" % (draw.randrange(2), key.hex()))
        elif kind == 8:
            lines.append("turn %d" % draw.randrange(9))
        elif kind == 9:
            lines.append("flush")
        elif kind == 10 and count < 20:
            lines.append("roll")
            count += 1
        elif draw.is_so(3):
            lines += ["clean", "add"]
    lines.append("settle")
    with tempfile.TemporaryDirectory(dir=FAST) as folder:
        words = ["replay", "--writers=2", "--places=300", "--m=%d" % m, "--segments=24", "--capacity=70000", "--dir=" + folder]
        program.run(words, ("\n".join(lines) + "\n").encode())
        return [it for it in held_in(folder).values() if it] + [b""] * draw.randrange(2)


def held_in(folder):
    """The bytes of each segment's file, in the order of the leases."""
    held = {}
    for name in sorted(os.listdir(folder)):
        if name.startswith("segment-") and name.endswith(".bw"):
            with open(os.path.join(folder, name), "rb") as file:
                held[name] = file.read()
    return held
