#!/usr/bin/env python3
"""Eight readers over a folder while `serve` updates it, gives segments up and uses their files again.

    beside.py [PROGRAM [SECONDS [SEED]]]

Each round is one group of four records: two keys get the number of the round, one more key gets it, and the key that got it so many rounds
before is deleted. So the number says all that the store holds at the end of a round, and what is a mix of two moments is none of these. A
reader runs one of `export`, `list`, `get`, `count`, `stats`, `picture`, `verify`, `copy` and `copy --compact` after the other, and asks that
what it prints, or what its copy holds, is the whole of one round: not older than the last that was flushed when it began, and not newer than
the last that was asked for when it ended. It may say that the folder is in use; so may at most one answer in four. Meanwhile the modes that
write, and those that want a folder to themselves, are refused. At the end, when nobody writes, each mode answers what it answered beside an
idle `serve`, and no reader changed a file. It prints one line with counts."""

import collections
import os
import random
import re
import shutil
import struct
import subprocess
import sys
import tempfile
import threading
import time

from checks import BUILT, FAST, Wrong, ask, expect, held_in

PROGRAM = os.path.abspath(sys.argv[1] if len(sys.argv) > 1 else BUILT)
READERS = 8
# So many keys are there, of twice as many.
KEYS = 1500
# A value is the number of its round, and more, by which the log grows.
FILL = "x" * 180
ROOM = ["--segments", "6", "--most-segments", "24", "--capacity", "131100", "--frame", "65536"]
REFUSED = [["put", "k", "v"], ["del", "k"], ["import"], ["replay"], ["serve"], ["threads"], ["upgrade"], ["scan"], ["print"],
           ["salvage", "--to", "NEW"], ["restore", "--to", "NEW", "--frame", "1"]]


def run(*words, given=b""):
    ended = subprocess.run([PROGRAM, *words], input=given, capture_output=True, check=False, timeout=120)
    return ended.returncode, ended.stdout.decode(), ended.stderr.decode()


def in_use(folder):
    return 6, "", "folder %s: in use\n" % folder


def value_of(number):
    return "%d%s" % (number, FILL)


def request_of(number):
    key, gone = number % (2 * KEYS), (number - KEYS) % (2 * KEYS)
    value = value_of(number)
    return "group put first %s put k%04d %s put last %s del k%04d\n" % (value, key, value, value, gone)


def held_at(number):
    """All pairs at the end of a round."""
    pairs = {"first": value_of(number), "last": value_of(number)}
    for earlier in range(max(1, number - KEYS + 1), number + 1):
        pairs["k%04d" % (earlier % (2 * KEYS))] = value_of(earlier)
    return pairs


def number_in(value):
    found = re.fullmatch(r"(\d+)" + FILL, value)
    ask(found, "a value", value[:60])
    return int(found[1])


def round_of(text):
    """The round whose pairs stand in lines of a key, a tab and a value; all of them, in order."""
    pairs = [line.split("\t") for line in text.split("\n")[:-1]]
    ask(pairs == sorted(pairs), "the order of keys")
    found = dict(pairs)
    number = number_in(found.get("first", ""))
    expect(found, held_at(number), "the pairs of round %d" % number)
    return number


class Writer:
    """A run of `serve`, and how far it is."""

    def __init__(self, folder):
        self.child = subprocess.Popen([PROGRAM, "serve", "--dir", folder, *ROOM], stdin=subprocess.PIPE, stdout=subprocess.PIPE)
        self.read()
        self.asked = self.kept = 0

    def read(self):
        return self.child.stdout.readline().decode()

    def rounds(self, count):
        """So many rounds, and a flush."""
        begun, self.asked = self.asked, self.asked + count
        lines = [request_of(number) for number in range(begun + 1, self.asked + 1)]
        self.child.stdin.write(("".join(lines) + "flush\n").encode())
        self.child.stdin.flush()
        for _ in lines:
            expect(self.read(), "ok\n", "an update")
        ask(self.read().startswith("frame "), "a flush")
        self.kept = self.asked

    def end(self):
        self.child.stdin.close()
        expect(self.child.wait(60), 0, "the end of serve")


class Reader(threading.Thread):
    """One who reads beside the writer, up to an end."""

    def __init__(self, room, folder, writer, seed):
        super().__init__()
        self.room, self.folder, self.writer = room, folder, writer
        self.draw = random.Random(seed)
        self.told, self.wrong, self.is_over = collections.Counter(), None, False

    def run(self):
        try:
            while not self.is_over:
                mode = self.draw.choice(sorted(ASKED))
                kept = self.writer.kept
                number = ASKED[mode](self)
                asked = self.writer.asked
                self.told["in use" if number is None else mode] += 1
                if isinstance(number, int) and not kept <= number <= asked:
                    raise Wrong("%s: round %d, where %d was kept before and %d asked for" % (mode, number, kept, asked))
        except Exception as wrong:
            self.wrong = wrong

    def answer(self, mode, *words, status=(0,)):
        """What a mode prints; `None` if the folder is in use."""
        ended = run(mode, "--dir", self.folder, *words)
        if ended == in_use(self.folder):
            return None
        ask(ended[0] in status and not ended[2], mode, *ended)
        return ended[1]

    def pairs(self, mode):
        text = self.answer(mode, *(["--limit", "1000000"] if mode == "list" else []))
        return text and round_of(text)

    def get(self):
        text = self.answer("get", self.draw.choice(["first", "last"]))
        return text and number_in(text[:-1])

    def count(self):
        text = self.answer("count")
        if text is not None:
            expect(text, "%d\n" % (KEYS + 2), "count")
        return text and ""

    def stats(self):
        text = self.answer("stats")
        if text is not None:
            expect(re.search(r"pages \d+ pairs (\d+) of", text)[1], str(KEYS + 2), "pairs of stats")
        return text and ""

    def picture(self):
        text = self.answer("picture")
        ask(text is None or text.endswith("</svg>\n"), "a picture")
        return text and ""

    def verify(self):
        # What was appended while it read has no digest yet.
        text = self.answer("verify", status=(0, 7))
        ask(text is None or text.startswith("verified segments "), "verify", text)
        return text and ""

    def copy(self, *words):
        to = os.path.join(self.room, "copy-%d" % threading.get_ident())
        shutil.rmtree(to, ignore_errors=True)
        if self.answer("copy", "--to", to, *words) is None:
            ask(not os.path.exists(to) and not os.path.exists(to + ".partial"), "what is left of a copy that was refused")
            return None
        expect(run("verify", "--dir", to)[0], 0, "verify of a copy")
        return round_of(run("export", "--dir", to)[1])


ASKED = {
    "export": lambda it: it.pairs("export"),
    "list": lambda it: it.pairs("list"),
    "get": Reader.get,
    "count": Reader.count,
    "stats": Reader.stats,
    "picture": Reader.picture,
    "verify": Reader.verify,
    "copy": Reader.copy,
    "copy --compact": lambda it: it.copy("--compact"),
}


def refused(room, folder):
    """The modes that write, or want the folder to themselves, are refused as ever."""
    for mode, *words in REFUSED:
        words = [os.path.join(room, "new") if it == "NEW" else it for it in words]
        expect(run(mode, "--dir", folder, *words), in_use(folder), mode)
        ask(not os.path.exists(os.path.join(room, "new")), mode, "made a folder")
    return len(REFUSED)


def greatest_in(folder):
    """The greatest number of a segment."""
    files = [data for name, data in held_in(folder).items() if name.endswith(".bw") and data.startswith(b"BWLOGSG2")]
    return max(struct.unpack_from("<Q", data, 8)[0] for data in files), len(files)


def idle(folder):
    """What each mode answers that prints the same of one state."""
    return [run(mode, "--dir", folder, *words) for mode, *words in (["export"], ["count"], ["get", "first"], ["stats"], ["verify"])]


def main():
    seconds, seed = (float(sys.argv[2]) if len(sys.argv) > 2 else 20), (int(sys.argv[3]) if len(sys.argv) > 3 else 81)
    if not os.path.isfile(PROGRAM):
        print(PROGRAM + " is not built: make run")
        return 1
    room = tempfile.mkdtemp(dir=FAST)
    folder = os.path.join(room, "store")
    readers, writer = [], Writer(folder)
    try:
        expect(run("count", "--dir", folder), in_use(folder), "a folder in which nothing is durable yet")
        writer.rounds(2 * KEYS)
        readers = [Reader(room, folder, writer, seed + it) for it in range(READERS)]
        for reader in readers:
            reader.start()
        draw, begun, count = random.Random(seed), time.monotonic(), 0
        # On a slow machine it goes on until each mode was answered, at most ten times as long.
        while not any(it.wrong for it in readers):
            took = time.monotonic() - begun
            if took > seconds and (took > 10 * seconds or all(any(it.told[mode] for it in readers) for mode in ASKED)):
                break
            writer.rounds(draw.choice([1, 2, 5, 20, 60]))
            if draw.randrange(200) == 0:
                count += refused(room, folder)
        count += refused(room, folder)
        for reader in readers:
            reader.is_over = True
        for reader in readers:
            reader.join()
        for reader in readers:
            if reader.wrong:
                raise reader.wrong
        held = held_in(folder)
        beside = idle(folder)
        expect(held_in(folder) == held, True, "the files after readings beside an idle writer")
        greatest, files = greatest_in(folder)
        writer.end()
        expect(beside, idle(folder), "the answers of an idle folder")
        told = sum((it.told for it in readers), collections.Counter())
        answers = sum(told.values()) - told["in use"]
        ask(set(told) >= set(ASKED), "a mode was never answered:", told)
        ask(4 * told["in use"] <= answers, "in use too often:", told)
        ask(greatest > 2 * files, "files were not used again:", greatest, files)
    except Wrong as wrong:
        print(wrong)
        return 1
    finally:
        for reader in readers:
            reader.is_over = True
        for reader in readers:
            reader.join()
        writer.child.kill()
        writer.child.wait()
        shutil.rmtree(room, ignore_errors=True)
    print("%d readers beside a writer of %d rounds, up to segment %d in %d files: %d answers, each of one moment, %d times in use; %d runs refused"
          % (READERS, writer.asked, greatest, files, answers, told["in use"], count))
    return 0


sys.exit(main())
