#!/usr/bin/env python3
"""The times of frames: the file `times` of a folder, `stats --frames` and `restore --time`, by a clock that the test sets (tools/clock.c).

Which frames are noted, and when, is worked out here from docs/FORMAT.md, "Times". A restore to a time is the restore of the frame that was noted
last then. A store goes on whatever its `times` hold, lack or are. Of a log that was cleaned each frame is restored, or refused by the words that
name the oldest one that can be.

    moments.py [PROGRAM]
"""

import datetime
import os
import re
import subprocess
import sys
import tempfile

from checks import BUILT, FAST, Wrong, ask, expect, held_in, shim_of

PROGRAM = os.path.abspath(sys.argv[1]) if sys.argv[1:] else BUILT
SECONDS = 60
BEGAN = 1_764_440_427  # 2025-11-29T18:20:27Z


def words_of(second):
    """A second as the program writes it."""
    return datetime.datetime.fromtimestamp(second, datetime.timezone.utc).strftime("%Y-%m-%dT%H:%M:%SZ")


class Clock:
    """A clock that stands still until it is set."""

    def __init__(self, room):
        self.file = os.path.join(room, "clock")
        self.env = dict(os.environ, LD_PRELOAD=shim_of("clock", room), CLOCK=self.file)
        self.set(0)

    def set(self, past):
        with open(self.file, "w", encoding="ascii") as file:
            file.write(str(BEGAN + past))

    def run(self, *words, text="", status=0):
        """A run that ends with this status: what it printed on each stream."""
        ended = subprocess.run([PROGRAM, *words], input=text.encode(), capture_output=True, timeout=SECONDS, check=False, env=self.env)
        expect(ended.returncode, status, "the status of %s, which printed %r and told %r" % (" ".join(words), ended.stdout, ended.stderr))
        return ended.stdout.decode(), ended.stderr.decode()


class Served:
    """A served store, by that clock."""

    def __init__(self, clock, folder):
        self.child = subprocess.Popen([PROGRAM, "serve", "--dir", folder], stdin=subprocess.PIPE, stdout=subprocess.PIPE, env=clock.env)
        self.child.stdout.readline()

    def ask(self, *lines):
        self.child.stdin.write("".join(line + "\n" for line in lines).encode())
        self.child.stdin.flush()
        return [self.child.stdout.readline().decode().rstrip("\n") for _ in lines]

    def keep(self, frame):
        """A put is flushed, as this frame. What comes with the next answer was noted before."""
        expect(self.ask("put k%d v%d" % (frame, frame), "flush")[1], "frame %d" % frame, "flush")
        self.ask("durable")

    def kill(self):
        self.child.kill()
        self.child.communicate()

    def end(self):
        self.child.communicate(timeout=SECONDS)
        expect(self.child.returncode, 0, "the status of serve")


def times_of(folder):
    with open(os.path.join(folder, "times"), "rb") as file:
        return file.read().decode()


def line(frame, past):
    return "%d %010d\n" % (frame, BEGAN + past)


def noted(clock, folder):
    """The first frame of a second is noted at once, and the last one before the next note, if that is more than a second later, or at the end."""
    clock.set(0)
    run = Served(clock, folder)
    expect(os.path.exists(os.path.join(folder, "times")), False, "whether there is a file before a frame")
    run.keep(1)
    told = line(1, 0)
    expect(times_of(folder), told, "the first frame")
    run.keep(2)
    run.keep(3)
    expect(times_of(folder), told, "frames of one second")
    clock.set(1)
    run.keep(4)
    told += line(4, 1)
    expect(times_of(folder), told, "a frame of the next second")
    run.keep(5)
    clock.set(9)
    run.ask("get k1")
    expect(times_of(folder), told, "no frame")
    run.keep(6)
    told += line(5, 1) + line(6, 9)
    expect(times_of(folder), told, "a frame that comes later")
    run.keep(7)
    run.end()
    told += line(7, 9)
    expect(times_of(folder), told, "the last frame")
    # What a run that was killed did not note is noted when the folder is opened next.
    clock.set(20)
    run = Served(clock, folder)
    run.keep(8)
    run.keep(9)
    run.kill()
    told += line(8, 20)
    expect(times_of(folder), told, "a run that was killed")
    clock.set(30)
    Served(clock, folder).end()
    told += line(9, 30)
    expect(times_of(folder), told, "the next opening")
    clock.set(40)
    Served(clock, folder).end()
    expect(times_of(folder), told, "an opening with nothing new")
    # Other modes that write.
    for past, words, text in ((50, ["put", "--dir", folder, "a", "1"], ""), (60, ["del", "--dir", folder, "a"], ""), (70, ["import", "--dir", folder], "b\t1\n"),
                              (80, ["shell", "--dir", folder], "put c 1\n"), (90, ["replay", "--dir", folder], "put 0 d 1\nflush\n")):
        clock.set(past)
        clock.run(*words, text=text)
        told += line(past // 10 + 5, past)
        expect(times_of(folder), told, words[0])
    for words in (["get", "a"], ["list"], ["export"], ["stats"], ["verify"], ["scan"], ["picture"]):
        clock.run(words[0], "--dir", folder, *words[1:], status=1 if words[0] == "get" else 0)
    expect(times_of(folder), told, "what only reads")
    return told.splitlines()


def listed(clock, folder, lines):
    wanted = "".join("frame %s time %s\n" % (frame, words_of(int(second))) for frame, second in (it.split() for it in lines))
    expect(clock.run("stats", "--dir", folder, "--frames")[0], wanted, "stats --frames")
    expect(clock.run("stats", "--dir", folder + "-none", "--frames", status=6)[1], "folder %s-none: No such file or directory (os error 2)\n" % folder, "stats --frames of no folder")


def restored(clock, room, folder, lines):
    """Each moment, in three spellings, gives the frame that was noted last then."""
    rows = [(int(second), int(frame)) for frame, second in (it.split() for it in lines)]
    for second in sorted({it + by for it, _ in rows for by in (0, 1)}):
        frame = max(number for at, number in rows if at <= second)
        other = os.path.join(room, "other-%d" % second)
        printed, _ = clock.run("restore", "--dir", folder, "--to", other, "--frame", str(frame))
        later = datetime.datetime.fromtimestamp(second, datetime.timezone(datetime.timedelta(hours=2))).isoformat()
        for spelling in (str(second), words_of(second), later):
            to = os.path.join(room, "to-%d-%d" % (second, len(spelling)))
            expect(clock.run("restore", "--dir", folder, "--to", to, "--time", spelling), (printed, ""), "restore --time " + spelling)
            expect(held_in(to), held_in(other), "what was restored at " + spelling)
        expect(other and times_of(other), "".join(it + "\n" for it in lines if int(it.split()[0]) <= frame), "the times of what was restored")
    first = rows[0]
    to = os.path.join(room, "never")
    for spelling in (str(first[0] - 1), "0"):
        told = "folder %s: no frame was noted at %s or before: the first is %d, at %s\n" % (folder, words_of(int(spelling)), first[1], words_of(first[0]))
        expect(clock.run("restore", "--dir", folder, "--to", to, "--time", spelling, status=4), ("", told), "restore before the first")
    for spelling in ("", "x", "2025-11-29", "2025-11-29T18:20:27", "-5", "1.5", "99999999999999999999", "2025-13-29T18:20:27Z"):
        told = "error: --time: neither a time as 2026-11-29T18:20:27Z nor seconds since 1970\n"
        expect(clock.run("restore", "--dir", folder, "--to", to, "--time=" + spelling, status=2), ("", told), "restore --time=" + spelling)
    expect(os.path.exists(to), False, "whether a refused restore made a folder")
    return len(rows)


def copied(clock, room, folder):
    """A copy has the times, and what is written anew has none."""
    for name, words, has_times in (("copy", ["copy"], True), ("compact", ["copy", "--compact"], False), ("salvage", ["salvage"], False)):
        to = os.path.join(room, name)
        clock.run(words[0], "--dir", folder, "--to", to, *words[1:])
        expect(os.path.exists(os.path.join(to, "times")), has_times, "whether there are times after " + name)
        if has_times:
            expect(times_of(to), times_of(folder), "the times of a copy")
    bare = os.path.join(room, "compact")
    expect(clock.run("stats", "--dir", bare, "--frames"), ("", ""), "stats --frames without times")
    told = "folder %s: no frame was noted with its time\n" % bare
    expect(clock.run("restore", "--dir", bare, "--to", os.path.join(room, "never"), "--time", "5000000000", status=4), ("", told), "restore without times")


def hurt(clock, room, folder):
    """Whatever `times` hold, lack or are, the store is read and goes on; and lines that are whole count."""
    store = os.path.join(room, "hurt")
    path = os.path.join(store, "times")
    clock.set(0)
    clock.run("put", "--dir", store, "a", "1")
    clock.set(10)
    clock.run("put", "--dir", store, "a", "2")
    whole = line(1, 0) + line(2, 10)
    expect(times_of(store), whole, "two puts")
    frame = 2
    hurts = [whole[:cut] for cut in range(len(whole))] + [whole[:at] + "\0" + whole[at + 1 :] for at in range(len(whole))]
    hurts += ["\n\n", "x" * 100, " ", "7\n", "%s 5\n" % ("9" * 400), "18446744073709551616 1764440427\n", "\xff" * 70]
    for number, text in enumerate(hurts):
        with open(path, "wb") as file:
            file.write(text.encode("latin-1"))
        clock.set(20 + number)
        clock.run("put", "--dir", store, "a", str(number))
        frame += 1
        expect(clock.run("get", "--dir", store, "a"), ("%d\n" % number, ""), "get")
        printed = clock.run("stats", "--dir", store, "--frames")[0].splitlines()
        expect(printed[-1], "frame %d time %s" % (frame, words_of(BEGAN + 20 + number)), "the last note behind %r" % text)
        ask(all(re.fullmatch(r"frame \d+ time \S+", it) for it in printed), printed)
        # A line without its last digits names no time.
        ask(all(it.split()[3] >= words_of(BEGAN)[:4] or "\0" in text for it in printed), printed, "of", repr(text))
    expect(clock.run("verify", "--dir", store)[0].split()[0], "verified", "verify")
    # What is no plain file is left as it is.
    os.remove(path)
    for name, make in (("a folder", os.mkdir), ("a pipe", os.mkfifo), ("a link", lambda it: os.symlink(os.path.join(room, "elsewhere"), it))):
        make(path)
        clock.run("put", "--dir", store, "a", name.replace(" ", ""))
        expect(clock.run("stats", "--dir", store, "--frames"), ("", ""), "stats --frames where times is " + name)
        (os.rmdir if name == "a folder" else os.remove)(path)
    expect(os.path.exists(os.path.join(room, "elsewhere")), False, "whether a link led elsewhere")
    # Another log in the same folder, and a clock that is set back.
    for name in os.listdir(store):
        if name.startswith("segment-"):
            os.remove(os.path.join(store, name))
    with open(path, "w", encoding="ascii") as file:
        file.write(whole)
    for frame, past in ((1, 500), (2, 600), (3, 550)):
        clock.set(past)
        clock.run("put", "--dir", store, "b", str(frame))
    expect(clock.run("stats", "--dir", store, "--frames")[0].split()[1::4], ["1", "2", "3"], "the frames of another log")
    for past, wanted in ((10, None), (500, 1), (549, 1), (550, 3), (600, 3)):
        to = os.path.join(room, "at-%d" % past)
        printed, _ = clock.run("restore", "--dir", store, "--to", to, "--time", str(BEGAN + past), status=0 if wanted else 4)
        expect(printed.split()[2:3], [str(wanted)] if wanted else [], "the frame at %d" % past)
    return len(hurts)


def given_up(clock, room):
    """Each frame of a log that was cleaned is restored as it was, or the oldest one that can be is named."""
    store = os.path.join(room, "cleaned")
    script, states, pairs = "", {}, {}
    for number in range(60):
        key, value = "k%02d" % (number * 7 % 23), "v%d" % number
        script += "put 0 %s %s\nflush\n" % (key, value)
        if number % 9 == 8:
            script += "roll\n"
        if number in (30, 45):
            script += "clean\n"
    printed, _ = clock.run("replay", "--dir", store, "--segments", "12", "--m", "4", text=script)
    frame = 0
    for command, answer in zip(script.splitlines(), (it for it in printed.splitlines() if not it.startswith(("segments", "frames")))):
        if command.startswith("put"):
            pairs[command.split()[2]] = command.split()[3]
        elif answer.startswith("frame "):
            frame = int(answer.split()[1])
            states[frame] = dict(pairs)
        elif answer.startswith("cleaned"):
            for more in range(int(answer.split()[-1])):
                states[frame + more + 1] = dict(pairs)
            frame += int(answer.split()[-1])
    oldest = None
    for number in range(1, frame + 1):
        to = os.path.join(room, "frame-%d" % number)
        ended = subprocess.run([PROGRAM, "restore", "--dir", store, "--to", to, "--frame", str(number)], capture_output=True, check=False)
        told = re.fullmatch(r"folder (.*): frame (\d+) cannot be restored, since a segment was given up after it: the oldest that can is (\d+)\n", ended.stderr.decode())
        if told:
            expect((ended.returncode, ended.stdout, told[1], int(told[2])), (4, b"", store, number), "a frame that was given up")
            ask(oldest in (None, int(told[3])) and number < int(told[3]), number, "is refused, and", told[3], "is the oldest")
            oldest = int(told[3])
            expect(os.path.exists(to), False, "whether a refused restore made a folder")
            continue
        expect((ended.returncode, ended.stderr), (0, b""), "restore of frame %d" % number)
        ask(oldest is not None and number >= oldest, "frame", number, "is restored, and", oldest, "is the oldest")
        found = dict(it.split("\t") for it in clock.run("list", "--dir", to)[0].splitlines())
        expect(found, states[number], "the pairs of frame %d" % number)
    ask(oldest is not None, "no frame was given up")
    for number in (0, frame + 1):
        printed, told = clock.run("restore", "--dir", store, "--to", os.path.join(room, "never"), "--frame", str(number), status=4)
        ask(re.fullmatch(r"refused E12 Empty frames \d+ to %d\n" % frame, printed), printed, told)
    return "%d of %d frames, from %d on" % (frame + 1 - oldest, frame, oldest)


def main():
    with tempfile.TemporaryDirectory(dir=FAST) as room:
        clock = Clock(room)
        folder = os.path.join(room, "store")
        try:
            lines = noted(clock, folder)
            listed(clock, folder, lines)
            count = restored(clock, room, folder, lines)
            copied(clock, room, folder)
            ways = hurt(clock, room, folder)
            left = given_up(clock, room)
            clock.run("serve", text="put a 1\nflush\n")
        except Wrong as other:
            print("went otherwise: %s" % other)
            return 1
    print("%d frames noted, and restored by their times; times hurt in %d ways; restored of a cleaned log: %s" % (count, ways, left))
    return 0


if __name__ == "__main__":
    sys.exit(main())
