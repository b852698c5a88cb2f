#!/usr/bin/env python3
"""A folder follows another one, and is stopped wherever it can be.

    follow.py [PROGRAM [SECONDS [SEED [EVERY]]]]

Each round of updates is one group of four records, and a flush: two keys get the number of the round, one more key gets it, and the key that got
it so many rounds before is deleted. So the pairs say of which round they are, and what is a mix of two moments is of none.

First `bwlog follow --once` is stopped by `tools/failing.c`: it is killed before each call that changes something, and in the middle of each write, and
each EVERY-th call on a file fails. So it is done if there is nothing yet, if segments have grown, if some were given up and their files
used again, if all were that the follower has, and if an earlier stop left two names. Each time the folder that is followed stays as it was;
the other one is a store of a round that is not older than before, which `verify` and `export` take (or, between the two renames of a whole copy,
stands under the name that the page says); and the next run brings it up to date.

Then `serve` updates a folder, gives segments up and uses their files again, while `follow` is killed at random moments, and asks the same; beside
it readers ask the follower. At the end come refusals: what is not a follower stays as it is. It prints two lines with counts."""

import collections
import concurrent.futures
import os
import random
import re
import shutil
import signal
import struct
import subprocess
import sys
import tempfile
import threading
import time

from checks import BUILT, FAST, Wrong, ask, expect, held_in, shim_of

PROGRAM = os.path.abspath(sys.argv[1] if len(sys.argv) > 1 else BUILT)
SECONDS = float(sys.argv[2]) if len(sys.argv) > 2 else 15
SEED = int(sys.argv[3]) if len(sys.argv) > 3 else 82
EVERY = int(sys.argv[4]) if len(sys.argv) > 4 else 5
LIMIT = 60
KEYS = 1000
FILL = "x" * 300
ROOM = ["--segments", "4", "--most-segments", "16", "--capacity", "131100", "--frame", "65536"]


def run(*words, env=None):
    ended = subprocess.run([PROGRAM, *words], input=b"", capture_output=True, check=False, timeout=LIMIT, env=env)
    return ended.returncode, ended.stdout.decode(), ended.stderr.decode()


def follow(folder, to, *words, env=None):
    return run("follow", "--dir", folder, "--to", to, *(words or ["--once"]), env=env)


def value_of(number):
    return "%d%s" % (number, FILL)


def request_of(number):
    key, gone = number % (2 * KEYS), (number - KEYS) % (2 * KEYS)
    value = value_of(number)
    return "group put first %s put k%04d %s put last %s del k%04d\n" % (value, key, value, value, gone)


def held_at(number):
    """All pairs at the end of a round."""
    pairs = {"first": value_of(number), "last": value_of(number)}
    for earlier in range(max(1, number - KEYS + 1), number + 1):
        pairs["k%04d" % (earlier % (2 * KEYS))] = value_of(earlier)
    return pairs


def round_in(folder):
    """The round whose pairs a folder has, all of them, which `verify` takes too."""
    verified = run("verify", "--dir", folder)
    ask(verified[0] in (0, 7), "verify:", verified)
    status, text, told = run("export", "--dir", folder)
    ask(status == 0, "export:", status, told)
    found = dict(line.split("\t") for line in text.splitlines())
    number = re.fullmatch(r"(\d+)x*", found.get("first", ""))
    ask(number, "a first value:", found.get("first", "")[:20])
    expect(found, held_at(int(number[1])), "the pairs of round " + number[1])
    return int(number[1])


def numbers_in(folder):
    """The numbers of the segments, by the names of their files."""
    files = {name: data for name, data in held_in(folder).items() if name.endswith(".bw") and data.startswith(b"BWLOGSG2")}
    return {name: struct.unpack_from("<Q", data, 8)[0] for name, data in files.items() if len(data) >= 24}


def segments_in(folder):
    """The bytes of each segment, by its number, and its sums."""
    files = held_in(folder)
    return {number: (files[name], files[name[:-2] + "sum"]) for name, number in numbers_in(folder).items()}


class Writer:
    """A run of `serve`, and how far it is."""

    def __init__(self, folder):
        self.child = subprocess.Popen([PROGRAM, "serve", "--dir", folder, *ROOM], stdin=subprocess.PIPE, stdout=subprocess.PIPE)
        self.child.stdout.readline()
        self.asked = self.kept = 0

    def rounds(self, count):
        """So many rounds, each with a flush."""
        begun, self.asked = self.asked, self.asked + count
        lines = [request_of(number) + "flush\n" for number in range(begun + 1, self.asked + 1)]
        self.child.stdin.write("".join(lines).encode())
        self.child.stdin.flush()
        for number in range(begun + 1, self.asked + 1):
            expect(self.child.stdout.readline().decode(), "ok\n", "an update")
            ask(self.child.stdout.readline().decode().startswith("frame "), "a flush")
            self.kept = number

    def end(self):
        self.child.stdin.close()
        expect(self.child.wait(LIMIT), 0, "the end of serve")


# ---- stops at each call


class Scene:
    """A folder that is followed, what the follower is before, and of which rounds both are."""

    def __init__(self, name, folder, round_there, before=None, round_here=0, more=None):
        self.name, self.folder, self.there = name, folder, round_there
        self.before, self.here, self.more = before, round_here, more or {}

    def make(self, outer):
        """Makes both folders in this one."""
        shutil.copytree(self.folder, os.path.join(outer, "from"))
        if self.before:
            shutil.copytree(self.before, os.path.join(outer, "to"))
        for name, source in self.more.items():
            shutil.copytree(source, os.path.join(outer, name))


def state_of(scene, outer):
    """Of which round the follower is; 0 if there is none."""
    to = os.path.join(outer, "to")
    if os.path.exists(to):
        return round_in(to)
    old = os.path.join(outer, "to.old")
    if scene.here and os.path.exists(os.path.join(old, "superseded")):
        return round_in(old)
    return 0


def stopped(scene, shim, number, how):
    """A follower that is stopped at this call; how many calls there were."""
    with tempfile.TemporaryDirectory(dir=FAST, prefix="bwlog-follow-") as room:
        outer, count = os.path.join(room, "all"), os.path.join(room, "count")
        os.mkdir(outer)
        scene.make(outer)
        before = held_in(os.path.join(outer, "from"))
        ends = os.path.join(outer, "from"), os.path.join(outer, "to")
        env = dict(os.environ, LD_PRELOAD=shim, FAILING=outer, FAILING_AT=str(number), FAILING_COUNT=count, FAILING_HOW=how)
        answer = follow(*ends, env=env)
        what = "%s, %s at call %d: " % (scene.name, how, number)
        try:
            ask(held_in(ends[0]) == before, "the folder that is followed has changed")
            if number:
                ask(answer[0] in (0, 4, 6, -signal.SIGKILL) and "panic" not in answer[2], "the answer:", answer)
            else:
                ask(answer[0] == 0, "the answer:", answer)
            now = state_of(scene, outer)
            ask(scene.here <= now <= scene.there, "round", now, "where it was", scene.here, "before, and the other is at", scene.there)
            ask(answer[0] != 0 or now == scene.there, "it was told at round", now)
            again = follow(*ends)
            ask(again[0] == 0, "the next run:", again)
            expect(round_in(ends[1]), scene.there, "the round behind the next run")
            ask(not os.path.exists(ends[1] + ".partial"), "what is left under the other name")
            mine, others = segments_in(ends[1]), segments_in(ends[0])
            ask(sorted(mine) == sorted(others), "the segments:", sorted(mine), sorted(others))
            ask(all(mine[it][0] == others[it][0] for it in mine), "the bytes of a segment")
            expect(follow(*ends)[:2], (0, "followed frame %s bytes 0 given up 0\n" % again[1].split()[2]), "a run with nothing to do")
        except Wrong as wrong:
            raise Wrong(what + str(wrong)) from None
        with open(count, "rb") as cell:
            return int.from_bytes(cell.read(8), sys.byteorder), now


class Shot:
    """A store at some round."""

    def __init__(self, path, number):
        self.path, self.number, self.followed = path, number, path + "-followed"
        self.numbers = numbers_in(path)
        self.oldest, self.newest = min(self.numbers.values()), max(self.numbers.values())

    def uses_again(self, other):
        """Whether a file has a later segment than in another shot, which has a segment that is here too."""
        return other.oldest < self.oldest <= other.newest < self.newest and any(self.numbers.get(name, 0) > number for name, number in other.numbers.items())


def shots_in(room):
    """A store at each so many rounds."""
    folder, shots = os.path.join(room, "store"), []
    writer = Writer(folder)
    writer.rounds(KEYS + 50)
    for step in range(40):
        path = os.path.join(room, "shot-%d" % step)
        shutil.copytree(folder, path)
        shots.append(Shot(path, writer.kept))
        writer.rounds(12 if step < 2 else 100)
    writer.end()
    return shots


def scenes_in(room):
    """The folders of each scene: a store at some rounds."""
    shots = shots_in(room)
    pairs = [(a, b) for a in shots for b in shots if a.number < b.number]
    grown = next((it for it in pairs if it[0].oldest == it[1].oldest and it[0].newest < it[1].newest), None)
    reused = next((it for it in pairs if it[1].uses_again(it[0])), None)
    gone = next((it for it in pairs if it[0].newest < it[1].oldest), None)
    ask(grown and reused and gone, "the store does not grow as the scenes want it")
    for shot in {id(it): it for it in (shots[0], grown[0], reused[0], gone[0])}.values():
        expect(follow(shot.path, shot.followed)[0], 0, "a first copy")
    superseded, partial = os.path.join(room, "superseded"), os.path.join(room, "partial")
    shutil.copytree(gone[0].followed, superseded)
    with open(os.path.join(superseded, "superseded"), "w"):
        pass
    os.mkdir(partial)
    for name in ("unfinished", "segment-0000.bw", "lock"):
        with open(os.path.join(partial, name), "w") as file:
            file.write("left")
    first = shots[0]
    return [
        Scene("nothing yet", first.path, first.number),
        Scene("a copy that was stopped", first.path, first.number, more={"to.partial": partial}),
        Scene("growth", grown[1].path, grown[1].number, grown[0].followed, grown[0].number),
        Scene("files used again", reused[1].path, reused[1].number, reused[0].followed, reused[0].number),
        Scene("all given up", gone[1].path, gone[1].number, gone[0].followed, gone[0].number, {"to.old": superseded}),
        Scene("between two names", gone[1].path, gone[1].number, None, gone[0].number, {"to.old": superseded, "to.partial": partial}),
    ]


def stops(room, shim):
    """All scenes, stopped at each call; how many stops, and how many left what was before, a round between, and the last one."""
    told = collections.Counter()
    scenes = scenes_in(room)
    with concurrent.futures.ThreadPoolExecutor(max(2, os.cpu_count() or 2)) as pool:
        for scene in scenes:
            for how, every in (("kill", 1), ("part", 1), ("fail", EVERY)):
                calls, _ = stopped(scene, shim, 0, how)
                ask(calls > 5, scene.name, "changes too little:", how, calls)
                jobs = [pool.submit(stopped, scene, shim, number, how) for number in range(1, calls + 1, every)]
                for job in jobs:
                    now = job.result()[1]
                    told["as before" if now == scene.here else "up to date" if now == scene.there else "between"] += 1
    return told


# ---- beside a writer


class Reader(threading.Thread):
    """One who reads the follower, which never goes back."""

    def __init__(self, to):
        super().__init__()
        self.to, self.count, self.wrong, self.is_over, self.seen = to, 0, None, False, 0

    def run(self):
        try:
            while not self.is_over:
                status, text, told = run("get", "--dir", self.to, "last")
                if status == 6:
                    # A whole copy takes its place, or it is written faster than it is read.
                    ask("in use" in told or "No such file" in told, "get:", status, told)
                    continue
                number = int(re.match(r"\d+", text)[0])
                ask(number >= self.seen, "the follower went back from", self.seen, "to", number)
                self.seen, self.count = number, self.count + 1
        except Exception as wrong:
            self.wrong = wrong


class Updates(threading.Thread):
    """The writer, in a thread of its own."""

    def __init__(self, writer, draw):
        super().__init__()
        self.writer, self.draw, self.is_over, self.wrong, self.rush = writer, draw, False, None, 0

    def run(self):
        try:
            while not self.is_over:
                rush, self.rush = self.rush, 0
                self.writer.rounds(rush or self.draw.choice([1, 2, 5, 20]))
                if not rush:
                    time.sleep(self.draw.random() * 0.02)
        except Exception as wrong:
            self.wrong = wrong


def killed(folder, to, draw):
    """A follower that is killed at a random moment, or ends; whether it ended."""
    words = ["--once"] if draw.randrange(4) else ["--every", "1"]
    child = subprocess.Popen([PROGRAM, "follow", "--dir", folder, "--to", to, *words], stdout=subprocess.PIPE, stderr=subprocess.PIPE)
    try:
        child.communicate(timeout=draw.choice([0.004, 0.02, 0.1, 1.5]) * (0.5 + draw.random()))
    except subprocess.TimeoutExpired:
        child.kill()
        child.communicate()
        return False
    return child.returncode == 0


def beside(room, draw):
    """A follower beside a writer, for some seconds: counts."""
    folder, to = os.path.join(room, "live"), os.path.join(room, "behind")
    writer = Writer(folder)
    writer.rounds(KEYS)
    updates, reader, told, seen = Updates(writer, draw), Reader(to), collections.Counter(), 0
    expect(follow(folder, to)[0], 0, "the first round")
    begun = time.monotonic()
    updates.start()
    reader.start()
    try:
        while time.monotonic() - begun < SECONDS or not (told["killed"] and told["ended"] and told["whole"]):
            ask(time.monotonic() - begun < 10 * SECONDS + 60, "too seldom:", told)
            for thread in (updates, reader):
                if thread.wrong:
                    raise thread.wrong
            if draw.randrange(12) == 0:
                # Meanwhile all is given up that the follower has.
                updates.rush = 1500
                until = updates.writer.kept + 1500
                while updates.writer.kept < until and not updates.wrong:
                    time.sleep(0.05)
            kept = writer.kept
            ended = killed(folder, to, draw)
            told["ended" if ended else "killed"] += 1
            if not os.path.exists(to):
                ask(os.path.exists(to + ".old/superseded"), "there is neither", to, "nor the one before")
                expect(follow(folder, to)[0], 0, "a run behind a stop between two names")
                told["between two names"] += 1
            number = round_in(to)
            ask(max(seen, kept if ended else 0) <= number <= writer.asked, "round", number, "behind", seen, "; kept", kept, "asked", writer.asked)
            told["whole"] += os.path.exists(to + ".old")
            seen = number
    finally:
        updates.is_over = reader.is_over = True
        updates.join()
        reader.join()
        writer.child.kill() if updates.wrong else writer.end()
    for thread in (updates, reader):
        if thread.wrong:
            raise thread.wrong
    expect(follow(folder, to)[0], 0, "the last round")
    expect(round_in(to), writer.kept, "the last round")
    ask(max(numbers_in(folder).values()) > 2 * len(numbers_in(folder)), "files were not used again")
    return told, writer.kept, reader.count


# ---- refusals


def same(folder, before, answer, wanted, what):
    expect(answer, wanted, what)
    ask(held_in(folder) == before, what, "changes the folder")


def refusals(room):
    """What is no follower, and what is not followed, stays as it is; how many there are."""
    folder, to = os.path.join(room, "live"), os.path.join(room, "behind")
    shutil.rmtree(to + ".old", ignore_errors=True)
    # One that went on by itself.
    expect(run("put", "--dir", to, "mine", "1")[0], 0, "a put into the follower")
    held = held_in(to)
    answer = follow(folder, to)
    ask(answer[0] == 6 and re.fullmatch(r"folder \S+: its segment \d+ is not that of the folder that it follows, \S+\n", answer[2]), "a follower that went on:", answer)
    ask(held_in(to) == held, "a follower that went on has changed")
    # A folder without a store, and one that was never opened.
    empty = os.path.join(room, "empty")
    os.mkdir(empty)
    none = "folder %s: no store that follows another one: no whole frame\n" % empty
    same(empty, {}, follow(folder, empty), (6, "", none), "an empty folder")
    with open(os.path.join(empty, "lock"), "w"):
        pass
    same(empty, {"lock": b""}, follow(folder, empty), (6, "", none), "a folder without segments")
    # Somebody else has it.
    fresh = os.path.join(room, "fresh")
    expect(follow(folder, fresh)[0], 0, "a further follower")
    other = subprocess.Popen([PROGRAM, "follow", "--dir", folder, "--to", fresh], stdout=subprocess.PIPE, stderr=subprocess.PIPE)
    ask(other.stdout.readline(), "a follower that goes on")
    for mode in (["follow", "--dir", folder, "--to", fresh, "--once"], ["put", "--dir", fresh, "k", "v"]):
        expect(run(*mode), (6, "", "folder %s: in use\n" % fresh), mode[0] + " beside a follower")
    expect(run("get", "--dir", fresh, "last")[0], 0, "get beside a follower")
    other.send_signal(signal.SIGTERM)
    other.communicate()
    # Each name that a whole copy needs, if somebody else has it.
    for ending, told in ((".partial", "it is not what an earlier run left"), (".old", "is no copy that an earlier run replaced")):
        gone = os.path.join(room, "gone")
        shutil.rmtree(gone, ignore_errors=True)
        shutil.copytree(os.path.join(room, "shot-0-followed"), gone)
        os.mkdir(gone + ending)
        with open(os.path.join(gone + ending, "mine"), "w") as file:
            file.write("mine")
        answer = follow(folder, gone)
        ask(answer[0] == 6 and told in answer[2], ending, answer)
        ask(held_in(gone + ending) == {"mine": b"mine"}, ending, "was changed")
        expect(round_in(gone), KEYS + 50, "a follower that could not be replaced")
        shutil.rmtree(gone + ending)
    # What is followed is damaged, or is not there.
    hurt = os.path.join(room, "hurt")
    shutil.copytree(folder, hurt)
    expect(follow(hurt, hurt + "-to")[0], 0, "a follower of a whole folder")
    writer = Writer(hurt)
    writer.asked = writer.kept = round_in(hurt + "-to")
    writer.rounds(3)
    writer.end()
    name = max(numbers_in(hurt).items(), key=lambda it: it[1])[0]
    with open(os.path.join(hurt, name), "r+b") as file:
        file.seek(-40, os.SEEK_END)
        byte = file.read(1)
        file.seek(-1, os.SEEK_CUR)
        file.write(bytes([byte[0] ^ 4]))
    held = held_in(hurt + "-to")
    answer = follow(hurt, hurt + "-to")
    ask(answer[0] == 4 and re.fullmatch(r"folder \S+hurt: damaged: %s at \d+\n" % name, answer[2]), "a damaged folder:", answer)
    ask(held == held_in(hurt + "-to"), "a damaged folder is followed")
    answer = follow(os.path.join(room, "nowhere"), hurt + "-to")
    ask(answer[0] == 6 and "nowhere: No such file" in answer[2], "a folder that is not there:", answer)
    return 11


def main():
    if not os.path.isfile(PROGRAM):
        print(PROGRAM + " is not built: make run")
        return 1
    draw = random.Random(SEED)
    with tempfile.TemporaryDirectory(dir=FAST, prefix="bwlog-follow-") as room:
        try:
            left = stops(room, shim_of("failing", room))
            print("of %d stops of a round %d left what was before, %d a round between, and %d the last one; each next run came to the end"
                  % (sum(left.values()), left["as before"], left["between"], left["up to date"]))
            told, rounds, answers = beside(room, draw)
            refused = refusals(room)
        except Wrong as wrong:
            print("seed %d: %s" % (SEED, wrong))
            return 1
    print("beside a writer of %d rounds: followers killed %d times, ended %d times, %d times beside an older one, %d times between two names; %d answers of the "
          "follower, none older than before; %d refusals" % (rounds, told["killed"], told["ended"], told["whole"], told["between two names"], answers, refused))
    return 0


if __name__ == "__main__":
    sys.exit(main())
