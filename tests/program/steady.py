#!/usr/bin/env python3
"""Updates of a thousand keys over a folder of four segments, by `bwlog`: no segment is ever added, and memory stays flat.

    steady.py [UPDATES [MODE ..]]

A mode is serve, beside, settle, replay or threads; without one all of them are run. In serve and in replay, which has --take and --reuse, a flush
comes after each 1,000 updates, and in settle, which is serve, a settlement. Where one spare is left, serve cleans by itself, and replay is
asked to. beside is serve
over eight segments, of which keys that never change fill two: these are the oldest again and again, and hold back none of the others. threads
has --reuse and --forget, and two writers of half of the keys each. The greatest resident set of serve after its last
flushes, a tenth of those after a million updates, or after half of them, has to be at most a tenth above that after the first tenth of
these. At the end each key has the value that it was last given, also in a second run over the folder. A million updates take some ten
seconds by serve."""

import os
import subprocess
import sys
import tempfile

HERE = os.path.dirname(os.path.abspath(__file__))
PROGRAM = os.path.abspath(os.path.join(HERE, "..", "..", "crates", "bwlog", "out", "bwlog"))
KEYS = 1000
ROOM = ["--segments", "4", "--capacity", "1048576"]


def value_of(number):
    return "v%d" % (number * 7919)


def last_of(key, updates):
    """The last of so many updates that is of a key."""
    return updates - 1 - (updates - 1 - key) % KEYS


def resident(child):
    """The resident set of a process, in KiB."""
    with open("/proc/%d/status" % child.pid, encoding="utf-8") as lines:
        return next(int(line.split()[1]) for line in lines if line.startswith("VmRSS:"))


class Served:
    """A run of `serve` over a folder."""

    words = ["serve", "--most-segments", "4"]
    put = "put k%d %s"
    keeps, kept = "flush", "frame "
    forgets = True

    def __init__(self, folder):
        words = [PROGRAM] + self.words + ["--dir", folder] + ROOM
        is_old = os.path.isdir(folder)
        self.child = subprocess.Popen(words, stdin=subprocess.PIPE, stdout=subprocess.PIPE, bufsize=1 << 20)
        self.greet(is_old)

    def greet(self, _is_old):
        self.answers(1)

    def answers(self, count):
        return [self.child.stdout.readline().decode().rstrip("\n") for _ in range(count)]

    def send(self, lines):
        self.child.stdin.write(("\n".join(lines) + "\n").encode())
        self.child.stdin.flush()

    def ask(self, lines):
        self.send(lines)
        return self.answers(len(lines))

    def cleaned(self):
        """Serve cleans by itself: one spare is never all that is left, and there are as many segments as there were."""
        words = self.ask(["stats"])[0].split()
        live, spares = (int(words[words.index(name) + 1]) for name in ("segments", "spares"))
        return "" if spares > 1 and live + spares == 4 else "%d spares" % spares

    def end(self):
        self.ask(["quit"])
        return self.child.wait(timeout=60)


class Beside(Served):
    """Updates of `serve` beside keys that never change, up to eight segments."""

    words = ["serve", "--most-segments", "8"]
    cold = 3500

    def greet(self, is_old):
        super().greet(is_old)
        if is_old:
            wrong = sum(self.ask(["get cold%d" % key])[0] != "value " + "c" * 500 for key in range(self.cold))
        else:
            wrong = sum(self.ask(["put cold%d %s" % (key, "c" * 500)])[0] != "ok" for key in range(self.cold))
        if wrong:
            raise SystemExit("%d of the keys that never change are not as they were put" % wrong)

    def cleaned(self):
        words = self.ask(["stats"])[0].split()
        live, spares = (int(words[words.index(name) + 1]) for name in ("segments", "spares"))
        return "" if spares > 0 and live + spares <= 8 else "%d segments and %d spares" % (live, spares)


class Settled(Served):
    """The requests, but that each flush is a settlement."""

    keeps, kept = "settle", "settled "


class Replayed(Served):
    """A run of `replay` over a folder."""

    words = ["replay", "--take", "--reuse", "--places", "1024", "--m", "32"]
    put = "put 0 k%d %s"
    forgets = False

    def greet(self, is_old):
        # Two lines say what was found, once something is asked.
        self.is_old = is_old

    def send(self, lines):
        super().send(lines)
        if self.is_old:
            self.answers(2)
            self.is_old = False

    def spares(self):
        self.send(["segments"])
        while True:
            words = self.answers(1)[0].split()
            if words[0] == "spares":
                return int(words[1])

    def cleaned(self):
        """What a cleaning comes to, if one spare is left."""
        if self.spares() > 1:
            return ""
        self.send(["clean"])
        cleaned, added = self.answers(2)
        return cleaned if added.startswith("added ") else added

    def end(self):
        self.child.stdin.close()
        return self.child.wait(timeout=60)


def wrong_key(run, updates):
    """A key that has another value than it was given last."""
    for key in range(KEYS):
        if run.ask(["get k%d" % key])[0] != "value " + value_of(last_of(key, updates)):
            return key
    return None


def ended(run, updates):
    """Whether each key of a run has its value, and the run ends well."""
    wrong = wrong_key(run, updates)
    status = run.end()
    return "" if wrong is None and status == 0 else "key %s has another value, or the run ended with status %d" % (wrong, status)


def asked(folder, updates, of):
    """What went otherwise than it should, if each line is answered, or nothing."""
    run = of(folder)
    first, looks = min(updates // 2, 1000000), []
    for start in range(0, updates, KEYS):
        lines = [of.put % (number % KEYS, value_of(number)) for number in range(start, start + KEYS)]
        wrong = [answer for answer in run.ask(lines) if answer != "ok"]
        if wrong:
            return "a put was answered " + wrong[0]
        answer = run.ask([of.keeps])[0]
        if not answer.startswith(of.kept):
            return "a flush was answered " + answer
        answer = run.cleaned()
        if answer and not answer.startswith("cleaned "):
            return "a cleaning was answered " + answer
        if start + KEYS >= first:
            looks.append(resident(run.child))
    tenth = len(looks) // 10 + 1
    before, after = max(looks[:tenth]), max(looks[-tenth:])
    print("resident set: %d KiB behind the first flushes after %d updates, %d KiB behind the last of %d" % (before, first, after, updates))
    if of.forgets and after * 10 > before * 11:
        return "memory is not flat"
    return ended(run, updates) or ended(of(folder), updates)


def threaded(folder, updates):
    """The updates by `threads`: its whole script is written first."""
    script = []
    for start in range(0, updates, 4):
        for writer in range(2):
            numbers = [number for number in range(start, start + 4) if number % KEYS % 2 == writer]
            script.append("group %d %s" % (writer, " ".join("put k%d %s" % (number % KEYS, value_of(number)) for number in numbers)))
    words = [PROGRAM, "threads", "--reuse", "--forget", "--m", "32", "--dir", folder] + ROOM
    run = subprocess.run(words, input=("\n".join(script) + "\n").encode(), stdout=subprocess.PIPE, check=False)
    lines = run.stdout.decode().split("\n")
    wanted = ["entries %d" % updates] + ["writer %d %d of %d" % (writer, updates // 2, updates // 2) for writer in range(2)]
    if run.returncode != 0 or lines[:3] != wanted:
        return "threads ended with status %d, and told %s" % (run.returncode, lines[:3])
    return ended(Served(folder), updates)


MODES = {
    "serve": lambda folder, updates: asked(folder, updates, Served),
    "beside": lambda folder, updates: asked(folder, updates, Beside),
    "settle": lambda folder, updates: asked(folder, updates, Settled),
    "replay": lambda folder, updates: asked(folder, updates, Replayed),
    "threads": threaded,
}


def main():
    updates = int(sys.argv[1]) if len(sys.argv) > 1 else 1000000
    if not os.path.isfile(PROGRAM):
        print(PROGRAM + " is not built: make run")
        return 1
    wrong = ""
    for mode in sys.argv[2:] or MODES:
        with tempfile.TemporaryDirectory(dir="/dev/shm" if os.path.isdir("/dev/shm") else None) as folder:
            came = MODES[mode](os.path.join(folder, "store"), updates)
        through = "eight" if mode == "beside" else "four"
        print("%s: %s" % (mode, came or "%d updates of %d keys went through %s segments" % (updates, KEYS, through)))
        wrong = wrong or came
    return 1 if wrong else 0


sys.exit(main())
