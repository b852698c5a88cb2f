"""What the scripts here share: the program, how they say that something went otherwise, the files of a folder, and what a library noted of the
system's calls."""

import os
import shutil
import struct
import subprocess

TOP = os.path.join(os.path.dirname(os.path.abspath(__file__)), "..", "..")
# What `rt ci` or `make run` leaves.
BUILT = os.path.join(TOP, "crates", "bwlog", "out", "bwlog")
# Where a sync takes no time, if there is such a place.
FAST = "/dev/shm" if os.path.isdir("/dev/shm") else None


class Wrong(Exception):
    """Something went otherwise than it has to."""


def ask(condition, *what):
    if not condition:
        raise Wrong(" ".join(str(it) for it in what))


def expect(found, wanted, what):
    if found != wanted:
        raise Wrong("%s: %.300r in place of %.300r" % (what, found, wanted))


def held_in(folder):
    """The bytes of each file."""
    found = {}
    for name in sorted(os.listdir(folder)):
        with open(os.path.join(folder, name), "rb") as file:
            found[name] = file.read()
    return found


def write(folder, files):
    """A folder with only these files."""
    shutil.rmtree(folder, ignore_errors=True)
    os.makedirs(folder)
    for name, data in files.items():
        with open(os.path.join(folder, name), "wb") as file:
            file.write(data)


def shim_of(name, room):
    """The library of this name in tools/, which stands before the system's calls, as it is compiled into a folder."""
    shim = os.path.join(room, name + ".so")
    subprocess.run(["cc", "-O2", "-shared", "-fPIC", "-o", shim, os.path.join(TOP, "tools", name + ".c")], check=True)
    return shim


def notes_of(path):
    """What was asked under tools/watch.c: a letter, the offset, the length, the file's name, the bytes."""
    with open(path, "rb") as file:
        data = file.read()
    at, notes = 0, []
    while at < len(data):
        letter, offset, length, letters = struct.unpack_from("<cQQI", data, at)
        at += struct.calcsize("<cQQI")
        name = data[at : at + letters].decode()
        at += letters
        count = length if letter == b"w" else 0
        notes.append((letter.decode(), offset, length, name, data[at : at + count]))
        at += count
    return notes
