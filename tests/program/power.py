#!/usr/bin/env python3
"""The second part of make crash: puts folders together as a loss of power could leave them, and looks at each.

A run of `bwlog replay --dir` over a drawn script goes under a library that notes each write, cut and sync of the folder's files
(tools/watch.c). For each of these in turn there are folders in which all that was synced before stands, and of the write in flight its first
bytes: all of a short piece's cuts, or eight drawn ones of a long piece, none of it and all of it among them. What was not synced is left out: the
name of a new file before its folder is synced, a file's cut before its file is. `bwlog scan --dir` then has to find the last frame that was
synced, or the one in flight if all its bytes stand, and exactly the pairs that a map has which gets the records up to that frame's
cut. It may find nothing only before the first frame. Some of the folders are gone on from, too.

Scripts have flushes, rolls, cleanings, added segments and a second life over what the first one left; half of them have `--reuse`. This
is what the calls of the system allow, and not a disk: a device that loses what it synced, or keeps other bytes than a beginning, is not
tried.

So it is done to runs whose calls stand in a table (RUNS): an upgrade of a folder, `serve` with cleanings, `threads` with and without
`--reuse`, each also with a cut of a file that fails, and then each later one; of restores, whose folder has to be refused until all of it
stands, and then holds the store as of its frame; and of `follow`, whose folder is never of an earlier frame than before, and is brought up to date by
the next run.
"""

import os
import random
import re
import shutil
import struct
import subprocess
import sys
import tempfile

from checks import BUILT as PROGRAM, FAST, Wrong, ask, held_in, notes_of, shim_of, write
from disk import HEAD, WORD, Disk
from hostile.reader import log_of
from hostile.upgrades import a_page_a_segment

FOLDERS = int(sys.argv[1]) if len(sys.argv) > 1 else 10000
SEED = int(sys.argv[2]) if len(sys.argv) > 2 else 1
OPTIONS = ["--places", "64", "--m", "4", "--segments", "6", "--capacity", "65560"]
# What stands on standard error after a run: nothing, or that it met a full log, without `--reuse` and with it.
TELLS = ("", "the log is full: `clean` gives up its oldest segment, and `add` adds a new one\n",
         "the log is full: `clean` gives up its oldest segment, whose room is a spare again\n")


# ---- a run, and what it asked of the system


def script(draw, life):
    """Lines, and the records that their puts and deletes accept, in order. Each put is taken by the next flush or turn."""
    lines, records = [], []
    for step in range(draw.randrange(12, 24)):
        for _ in range(draw.randrange(1, 9)):
            key = "k%d" % draw.randrange(24)
            if draw.random() < 0.2:
                lines.append("del 0 " + key)
                records.append((key, None))
            else:
                value = "%d-%d-%d%s" % (life, step, len(records), "x" * draw.choice((0, 0, 3, 90)))
                lines.append("put 0 %s %s" % (key, value))
                records.append((key, value))
        lines.append(draw.choice(("flush", "flush", "settle", "turn 40")))
        more = draw.random()
        if more < 0.3:
            lines.append("roll")
        elif more < 0.45:
            lines.append("clean")
        elif more < 0.5:
            lines += ["add"]
    return lines + ["settle", "history", "cuts"], records


class Life:
    """One run over a folder: its records in the order of the history, its cuts, and what it asked of the system."""

    def __init__(self, shim, room, folder, draw, number, start):
        lines, accepted = script(draw, number)
        log = os.path.join(room, "notes%d" % number)
        os.makedirs(folder, exist_ok=True)
        if os.path.exists(log):
            os.remove(log)
        ran = subprocess.run(
            [PROGRAM, "replay", "--dir", folder] + OPTIONS + draw.choice(([], ["--reuse"])),
            input="\n".join(lines) + "\n",
            capture_output=True,
            text=True,
            check=False,
            env={"LD_PRELOAD": shim, "WATCH": folder, "WATCH_LOG": log},
        )
        ask(ran.returncode in (0, 4) and ran.stderr in TELLS, "status", ran.returncode, ran.stdout[-300:], ran.stderr)
        printed = ran.stdout.splitlines()
        began = re.fullmatch(r"frames \d+ (\d+) tail 0", printed[1]) if number > 0 else None
        self.before = int(began[1]) if began else 0
        self.start = start
        self.cuts = [int(it) for it in printed[-1].split()[1:]]
        at = max(i for i, line in enumerate(printed) if line.startswith("history "))
        self.records = [self.record(line) for line in printed[at + 1 : -1]]
        ask(self.records == accepted[: len(self.records)], "the history is no beginning of what was put")
        self.notes = notes_of(log)

    @staticmethod
    def record(line):
        words = line.split(" ")
        return (words[2], words[3] if words[1] == "put" else None)

    def pairs(self, frame):
        """The map after the records up to this frame's cut."""
        pairs = dict(self.start)
        end = self.cuts[frame - self.before - 1] if frame > self.before else 0
        for key, value in self.records[:end]:
            if value is None:
                pairs.pop(key, None)
            else:
                pairs[key] = value
        return pairs


# ---- folders as a loss of power could leave them


def look(folder, last, life):
    """Whether the folder holds what it has to hold up to this frame."""
    ran = subprocess.run([PROGRAM, "scan", "--dir", folder], capture_output=True, text=True, check=False)
    if last == 0:
        ask(ran.returncode == 4 and ran.stdout == "refused E12 Empty\n", "no frame was synced:", ran.stdout)
        return
    ask(ran.returncode == 0 and not ran.stderr, "frame", last, ran.stdout, ran.stderr)
    lines = ran.stdout.splitlines()
    told = re.fullmatch(r"frames \d+ (\d+) tail \d+", lines[1])
    ask(told and int(told[1]) == last, "frame", last, "in place of", lines[1])
    found = dict(word.split("=") for line in lines[2:] for word in line.split(" ")[6:])
    ask(found == life.pairs(last), "the pairs of frame", last, "are others:", found, life.pairs(last))


def go_on(folder, last):
    """A further run over the folder appends the next frame."""
    ran = subprocess.run(
        [PROGRAM, "replay", "--dir", folder, "--segments", "12", "--capacity", "65560"],
        input="put 0 more 1\nflush\nget more\n",
        capture_output=True,
        text=True,
        check=False,
    )
    ask(ran.returncode == 0 and ran.stdout.endswith("ok\nframe %d\nvalue 1\n" % (last + 1)), "going on behind frame", last, ran.stdout, ran.stderr)


def two_lives(shim, room, draw, most):
    """How many folders were looked at."""
    folder, image, seen = os.path.join(room, "run"), os.path.join(room, "left"), 0
    shutil.rmtree(folder, ignore_errors=True)
    start, stands, last = {}, {}, 0
    for number in range(2):
        if number > 0 and last == 0:
            break
        life = Life(shim, room, folder, draw, number, start)
        disk = Disk(stands, last)
        for note in life.notes:
            if note[0] in "wt":
                for files, expected in disk.left(note, draw):
                    write(image, files)
                    look(image, expected, life)
                    seen += 1
                    if expected and draw.random() < 0.1:
                        go_on(image, expected)
            disk.ask(note)
            if note[0] == "s" and note[3].startswith("segment-"):
                disk.last = max(disk.last, last_whole(disk.stands.get(note[3], b"")))
            if seen >= most:
                return seen
        ask(disk.last == life.before + len(life.cuts), "the last frame that was synced is", disk.last)
        start, stands, last = life.pairs(disk.last), disk.stands, disk.last
    return seen


def last_whole(data):
    """The number of the last whole frame in a segment's bytes; 0 if there is none."""
    at, last = HEAD, 0
    while data[at : at + 4] == WORD and at + 20 <= len(data):
        number, body = struct.unpack_from("<QI", data, at + 4)
        if at + 20 + body > len(data):
            break
        at, last = at + 20 + body, number
    return last


def end_again(shim, room):
    """Whether opening a file without sums writes its last 262,168 bytes again at their place, or all of a shorter one; and nothing, if each byte
    has a sum."""
    for records, most in ((800, 262168), (4000, 262168)):
        folder, log = os.path.join(room, "end%d" % records), os.path.join(room, "end%d.notes" % records)
        os.makedirs(folder)

        def run(words, **env):
            subprocess.run(
                [PROGRAM, "replay", "--dir", folder, "--m", "4", "--capacity", "1048576"],
                input=words, capture_output=True, text=True, check=True, env=env,
            )

        def opened():
            """What is written to the segment's file and to its sums when it is opened."""
            if os.path.exists(log):
                os.remove(log)
            run("get k1\n", LD_PRELOAD=shim, WATCH=folder, WATCH_LOG=log)
            notes = notes_of(log) if os.path.exists(log) else []
            return [[(at, many) for letter, at, many, name, _ in notes if letter == "w" and name == "segment-0000" + end] for end in (".bw", ".sum")]

        run("".join("put 0 k%d %s\nflush\n" % (i, "v" * 100) for i in range(records)))
        length = os.path.getsize(os.path.join(folder, "segment-0000.bw"))
        ask(length > 65560 and (length > most) == (records == 4000), "a file of", length, "bytes")
        again = opened()
        ask(again == [[], []], "at opening", again, "of a file whose sums say each byte")
        os.remove(os.path.join(folder, "segment-0000.sum"))
        again = opened()
        ask(again == [[(max(0, length - most), min(length, most))], [(0, 24)]], "at opening", again, "of", length, "bytes")
        again = opened()
        ask(again == [[], []], "at a further opening", again)


# ---- runs by a table


class Watched:
    """A run of the program over a folder, under the shim: what it printed, and what it asked of the system."""

    def __init__(self, shim, room, watched, words, text="", fails=None, statuses=(0,)):
        log = os.path.join(room, "notes")
        if os.path.exists(log):
            os.remove(log)
        more = {} if fails is None else {"WATCH_CUT": str(fails)}
        ran = subprocess.run(
            [PROGRAM, *words], input=text, capture_output=True, text=True, check=False,
            env={"LD_PRELOAD": shim, "WATCH": watched, "WATCH_LOG": log, **more},
        )
        ask(ran.returncode in statuses, words, "ended with status", ran.returncode, ran.stdout[-300:], ran.stderr)
        self.status, self.printed = ran.returncode, ran.stdout.splitlines()
        self.notes = notes_of(log) if os.path.exists(log) else []


def states(disk, notes, draw):
    """The files that each write and cut may leave, one state of the folder after the other, and in the end those that stand for certain."""
    for note in notes:
        if note[0] in "wt":
            for files, _ in disk.left(note, draw):
                yield files
        disk.ask(note)
    yield disk.stands


def pairs_of(image, files, allowed=("",)):
    """The last frame of such a folder and its pairs; the refusal in place of them, if it is one that is allowed."""
    write(image, files)
    ran = subprocess.run([PROGRAM, "scan", "--dir", image], capture_output=True, text=True, check=False)
    if ran.returncode == 4 and ran.stdout.strip() in allowed:
        return ran.stdout.strip()
    ask(ran.returncode == 0, "a folder that was left is refused:", ran.stdout, ran.stderr)
    lines = ran.stdout.splitlines()
    frame = int(lines[1].split(" ")[2])
    return frame, dict(word.split("=") for line in lines[2:] for word in line.split(" ")[6:])


class Maps:
    """The maps after each of so many records, in their order: a folder holds one of them, and never an older one than before."""

    def __init__(self, records):
        self.maps = [{}]
        for key, value in records:
            self.maps.append({**self.maps[-1], key: value})
        self.least = 0

    def ask(self, found):
        if isinstance(found, str):
            ask(self.least == 0, "refused, where frames stood:", found)
            return
        frame, pairs = found
        at = next((it for it in range(self.least, len(self.maps)) if self.maps[it] == pairs), None)
        ask(at is not None, "frame", frame, "has the pairs of no later record:", pairs)
        self.last = at

    def stands(self):
        """What was found last stands from now on."""
        self.least = self.last


def drawn_records(draw, count, keys):
    return [("k%02d" % draw.randrange(keys), "v%d%s" % (number, "x" * draw.choice((0, 90, 300)))) for number in range(count)]


def threads_run(words):
    """`threads`, by one writer whose records are known in their order."""

    def of(draw, folder):
        records = drawn_records(draw, 1500, 30)
        lines = "".join("put 0 %s %s\n" % it for it in records)
        options = ["--writers", "1", "--m", "4", "--capacity", "65560", "--flush-every", "1", "--limit", "16"]
        return None, ["threads", "--dir", folder, *options, *words], lines, Maps(records)

    return of


def serve_run(draw, folder):
    """`serve`, which cleans after each few flushes."""
    records, lines = drawn_records(draw, 900, 30), []
    for at in range(0, len(records), 10):
        lines += ["put %s %s" % it for it in records[at : at + 10]] + ["flush"]
        if at % 100 == 90:
            lines.append("clean")
    return None, ["serve", "--dir", folder, "--m", "4", "--capacity", "65560"], "\n".join(lines) + "\n", Maps(records)


def upgrade_run(_draw, folder):
    """An upgrade of ten segments."""
    segments = a_page_a_segment(10)
    log = log_of(segments)
    pairs = [(key.decode(), value.decode()) for _, held in log.pages.values() for key, value in held.items()]
    maps = Maps(pairs)
    maps.least = len(pairs)
    return {"segment-%04d.bw" % lease: held for lease, held in enumerate(segments)}, ["upgrade", "--dir", folder], "", maps


RUNS = [
    ("upgrade", upgrade_run),
    ("serve", serve_run),
    ("threads", threads_run(["--segments", "16", "--clean-at", "2"])),
    ("threads_reuse", threads_run(["--segments", "4", "--reuse"])),
]


def begun(folder, files):
    shutil.rmtree(folder, ignore_errors=True)
    write(folder, files or {})


def by_table(shim, room, draw):
    """How many folders of the runs of the table were looked at."""
    folder, image, seen = os.path.join(room, "table"), os.path.join(room, "left"), 0
    for name, run_of in RUNS:
        files, words, text, maps = run_of(draw, folder)
        try:
            begun(folder, files)
            # (a cleaning of one live segment is refused)
            run = Watched(shim, room, folder, words, text, None, (0, 4))
            cuts = sum(1 for note in run.notes if note[0] == "t")
            ask(cuts > 2, "only", cuts, "files were cut")
            for left in states(Disk(files or {}, 0), run.notes, draw):
                maps.ask(pairs_of(image, left, ("refused E12 Empty",)))
                seen += 1
            maps.stands()
            for fails in sorted({1, 2, cuts} | {draw.randrange(1, cuts + 1) for _ in range(3)}):
                _, words, text, maps = run_of(draw, folder)
                begun(folder, files)
                run = Watched(shim, room, folder, words, text, fails, (0, 4, 6))
                maps.ask(pairs_of(image, held_in(folder), ("refused E12 Empty",)))
                for left in states(Disk(files or {}, 0), run.notes, draw) if fails == 2 else []:
                    maps.ask(pairs_of(image, left, ("refused E12 Empty",)))
                    seen += 1
        except Wrong as wrong:
            raise Wrong(name + ": " + str(wrong)) from None
    return seen


# ---- restores


def restores(shim, room, draw):
    """A restore shows nothing until all of it stands, whatever frame it is of."""
    source, target, image, seen = os.path.join(room, "source"), os.path.join(room, "target"), os.path.join(room, "left"), 0
    records = drawn_records(draw, 60, 20)
    lines = []
    for number, record in enumerate(records, 1):
        lines += ["put 0 %s %s" % record, "flush"] + ["roll"] * (number % 12 == 0)
    begun(source, None)
    Watched(shim, room, source, ["replay", "--dir", source, "--m", "4", "--segments", "16", "--capacity", "65560"], "\n".join(lines) + "\n")
    for frame in (5, 12, 13, 30, 60):
        begun(target, None)
        run = Watched(shim, room, target, ["restore", "--dir", source, "--to", target, "--frame", str(frame)])
        wanted = frame, dict(records[:frame])
        *parts, whole = states(Disk({}, 0), run.notes, draw)
        for left in parts:
            found = pairs_of(image, left, ("refused E12 Empty", "refused E13 BadBytes segment 0 at 0"))
            ask(isinstance(found, str) or found == wanted, "a restore of frame", frame, "that was stopped shows", found)
            seen += 1
        ask(pairs_of(image, whole) == wanted, "a restore of frame", frame, "leaves what is not synced")
    return seen


# ---- a folder that follows another one


def followed(shim, room, draw):
    """A follower holds what the other folder held at some frame, after each of its writes, and never less than before; the next run goes on."""
    source, target, image, seen = os.path.join(room, "source"), os.path.join(room, "target"), os.path.join(room, "left"), 0
    records, maps, words = drawn_records(draw, 150, 20), None, ["follow", "--dir", source, "--once", "--to"]
    begun(source, None)
    shutil.rmtree(target, ignore_errors=True)
    for life, (begin, end) in enumerate(((0, 70), (70, 85), (85, 130), (130, 150))):
        lines = []
        for number, record in enumerate(records[begin:end], begin + 1):
            lines += ["put 0 %s %s" % record, "flush"] + ["roll"] * (number % 8 == 0) + ["clean"] * (number % 12 == 0)
        Watched(shim, room, source, ["replay", "--dir", source, "--m", "4", "--segments", "16", "--capacity", "65560", "--reuse"], "\n".join(lines) + "\n", None, (0, 4))
        before = held_in(target) if life else {}
        run = Watched(shim, room, target, [*words, target])
        if life == 0:
            # (its folder is made under another name)
            maps = Maps(records)
            maps.least = end
            maps.ask(pairs_of(image, held_in(target)))
            continue
        ask(run.printed[0].startswith("followed "), "the round copies the whole:", run.printed)
        for step, left in enumerate(states(Disk(before, 0), run.notes, draw)):
            maps.ask(pairs_of(image, left))
            seen += 1
            if step % 5 == 0:
                write(image, left)
                ran = subprocess.run([PROGRAM, *words, image], capture_output=True, text=True, check=False)
                ask(ran.returncode == 0, "the next run:", ran.stdout, ran.stderr)
                found = pairs_of(room + "/again", held_in(image))
                ask(found[1] == maps.maps[end], "the next run ends at frame", found[0])
        maps.least = end
        maps.ask(pairs_of(image, held_in(target)))
    return seen


def main():
    ask(os.path.exists(PROGRAM), PROGRAM + " is not built: make run")
    draw = random.Random(SEED)
    seen, runs = 0, 0
    with tempfile.TemporaryDirectory(dir=FAST, prefix="bwlog-power-") as room:
        shim = shim_of("watch", room)
        end_again(shim, room)
        try:
            beside = restores(shim, room, draw) + by_table(shim, room, draw) + followed(shim, room, draw)
        except Wrong as wrong:
            print("seed %d: %s" % (SEED, wrong))
            return 1
        while seen < FOLDERS:
            try:
                seen += two_lives(shim, room, draw, FOLDERS - seen)
            except Wrong as wrong:
                print("seed %d, script %d: %s" % (SEED, runs, wrong))
                return 1
            runs += 1
    print("%d folders of %d scripts and %d of the other runs: each holds a flush, not older than the last whole sync" % (seen, runs, beside))
    return 0


sys.exit(main())
