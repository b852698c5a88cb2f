#!/usr/bin/env python3
"""Runs the built program over drawn scripts, and compares all that it answers with a map that gets the same changes.

It takes the program to run (none: the one that `rt ci` or `make run` leaves under out/). A subject has one or more
lives: runs of `replay`, over memory or over a folder in which each life goes on from what the one before left. Its lines are drawn from a
seed: puts and deletes of two writers, one by one and in groups, turns, flushes, evictions, gets, pages, rolls, cleanings. A call that wants a segment is made again after
an `add`. The first answer that is not the map's ends the whole with status 1.
"""

import collections
import copy
import os
import random
import resource
import shutil
import signal
import subprocess
import sys
import tempfile

HERE = os.path.dirname(os.path.abspath(__file__))
# What stands on standard error after a run that met a full log.
FULL = b"the log is full: `clean` gives up its oldest segment, and `add` adds a new one\n"
BUILT = os.path.join(HERE, "..", "..", "crates", "bwlog", "out", "bwlog")
LIMIT = 60
# Where a sync takes no time, if there is such a place.
FAST = "/dev/shm" if os.path.isdir("/dev/shm") else None
ALL = (1 << 32) - 1


class Otherwise(Exception):
    """An answer that is not the map's."""


def check(is_told, *what):
    if not is_told:
        raise Otherwise(" ".join(str(it) for it in what))


def below(draw, limit):
    """A drawn number, the same on each machine: of its draws python keeps only those of `random` as they are."""
    return int(draw.random() * limit)


def key_of(number):
    """In the order of the numbers; each even number's key is a beginning of the next one's."""
    return b"k" + (number // 2).to_bytes(2, "big") + (b"+" if number % 2 else b"")


def value_of(number):
    """Its four bytes, and up to 508 more."""
    return number.to_bytes(4, "big") + bytes([number & 0xFF]) * (number % 509)


def word(data):
    return "0x" + data.hex()


def printed(data):
    """As the program prints a word: its bytes if these are plain, and else hex."""
    is_plain = data != b"" and not data.startswith(b"0x") and all(0x21 <= it <= 0x7E and it != 0x3D for it in data)
    return data.decode() if is_plain else word(data)


def bytes_of(text):
    return bytes.fromhex(text[2:]) if text.startswith("0x") else text.encode()


class Model:
    """What a store has to hold: what waits in the rings, all that was taken, and each key's value by that."""

    def __init__(self, places):
        self.places = places
        self.entries = []
        self.values = {}
        self.cleaned = 0
        self.durable = 0
        self.begin(True)

    def begin(self, is_new):
        """A life: the rings are empty, and a new store has its first page to append."""
        self.rings = (collections.deque(), collections.deque())
        self.opened = len(self.entries)
        self.waits = is_new

    def stop(self, is_whole):
        """The store is gone, and with it what was taken since the last flush, but for a whole frame of it."""
        if not is_whole:
            del self.entries[self.durable :]
        self.durable = len(self.entries)
        self.values = {}
        for _, change in self.entries:
            self.set(*change)
        self.begin(False)

    def set(self, key, value):
        if value is None:
            self.values.pop(key, None)
        else:
            self.values[key] = value

    def put(self, writer, *changes):
        """Whether the writer's ring has a place for these changes, which are a group."""
        if len(self.rings[writer]) == self.places:
            return False
        self.rings[writer].append(changes)
        return True

    def take(self, writer):
        """Takes a group, and says how many changes it has."""
        check(self.rings[writer], "nothing waits of writer", writer)
        changes = self.rings[writer].popleft()
        for change in changes:
            self.entries.append((writer, change))
            self.set(*change)
        self.waits = True
        return len(changes)

    def turn(self, limit):
        """How many changes a turn takes: in rounds, a group of each ring, no more groups than the limit."""
        groups = taken = 0
        while groups < limit and any(self.rings):
            for writer, ring in enumerate(self.rings):
                if ring and groups < limit:
                    taken += self.take(writer)
                    groups += 1
        return taken

    def flush(self):
        """All that was taken is in frames; whether there was something to append."""
        waited, self.waits = self.waits, False
        self.durable = len(self.entries)
        return waited

    def history(self):
        """The lines of this life's history."""
        lines = []
        for writer, (key, value) in self.entries[self.opened :]:
            rest = " del " + printed(key) if value is None else " put %s %s" % (printed(key), printed(value))
            lines.append(str(writer) + rest)
        return lines


def pairs_of(line, number, most):
    """The low key and the pairs of a page's line, which has to be lawful."""
    words = line.split(" ")
    check(words[:3] == ["page", str(number), "low"] and words[4] == "pairs", line)
    low = bytes_of(words[3])
    pairs = [tuple(bytes_of(it) for it in pair.split("=")) for pair in words[6:]]
    keys = [key for key, _ in pairs]
    check(len(pairs) == int(words[5]) <= most and (number == 1) == (low == b""), line)
    check(keys == sorted(set(keys)) and all(low <= key for key in keys), line)
    return low, pairs


class Life:
    """One run of `replay`, which is made anew, with a segment more, from its beginning on, if a call wants one."""

    def __init__(self, table, folder=None, limit=None):
        self.table, self.model, self.draw, self.m = table, table.model, table.draw, table.m
        self.folder, self.limit = folder, limit
        self.before = tempfile.mkdtemp(dir=FAST) if folder else None
        if folder:
            shutil.copytree(folder, self.before, dirs_exist_ok=True)
        self.lines = []
        self.answers = []
        # How many lines were answered as they should be, and how many lines of answers that were; two lines speak of segments that were there.
        self.done = 0
        self.at = 0 if self.model.waits else 2
        self.is_failed = False
        self.live = 0

    def close(self):
        if self.before:
            shutil.rmtree(self.before)

    def set_limit(self):
        if self.limit is not None:
            resource.setrlimit(resource.RLIMIT_FSIZE, (self.limit, self.limit))

    def run(self):
        """Runs all lines so far; what was answered before is answered again."""
        if self.folder:
            shutil.rmtree(self.folder)
            shutil.copytree(self.before, self.folder)
        signal.signal(signal.SIGXFSZ, signal.SIG_IGN)
        answer = subprocess.run(
            self.table.words(self.folder),
            input="".join(line + "\n" for line in self.lines).encode(),
            capture_output=True,
            timeout=LIMIT,
            restore_signals=False,
            preexec_fn=self.set_limit,
        )
        check(answer.returncode in (0, 4) and answer.stderr in (b"", FULL), "status", answer.returncode, answer.stderr)
        told = answer.stdout.decode().splitlines()
        check(not self.answers or told[: self.at] == self.answers[: self.at], "another answer than before")
        self.answers = told

    def next_answer(self):
        check(self.at < len(self.answers), "no answer to", self.lines[self.done])
        self.at += 1
        return self.answers[self.at - 1]

    def go(self, lines):
        """Runs more lines, and compares what each answers."""
        self.lines += lines
        self.run()
        while self.done < len(self.lines):
            line = self.lines[self.done]
            name, *rest = line.split(" ")
            getattr(self, "of_" + name)(line, *rest)
            self.done += 1
        check(self.at == len(self.answers), "an answer behind the last line")

    # What each line has to answer.

    def of_put(self, line, writer, key, value):
        told = self.model.put(int(writer), (bytes_of(key), bytes_of(value)))
        check(self.next_answer() == ("ok" if told else "full"), line)

    def of_del(self, line, writer, key):
        told = self.model.put(int(writer), (bytes_of(key), None))
        check(self.next_answer() == ("ok" if told else "full"), line)

    def of_group(self, line, writer, *words):
        words, changes = list(words), []
        while words:
            changes.append((bytes_of(words[1]), bytes_of(words[2]) if words[0] == "put" else None))
            del words[: 3 if words[0] == "put" else 2]
        told = self.model.put(int(writer), *changes)
        check(self.next_answer() == ("ok" if told else "full"), line)

    def of_turn(self, line, limit):
        answer = self.next_answer()
        if answer == "refused E5 NoSegment":
            return self.again(line)
        check(answer == "took %d" % self.model.turn(int(limit)), line, answer)

    def again(self, line):
        """A call that was refused for want of a segment is made again with one more; the history says what it took by then."""
        self.table.refusals += 1
        self.lines[self.done + 1 : self.done + 1] = ["history", "add", line]
        self.run()
        count = int(self.answers[self.at].split(" ")[1])
        came = self.answers[self.at + 1 : self.at + 1 + count][len(self.model.entries) - self.model.opened :]
        while came:
            del came[: self.model.take(int(came[0][0]))]

    def of_flush(self, line):
        answer = self.next_answer()
        if answer == "refused E5 NoSegment":
            return self.again(line)
        if self.is_failed:
            return check(answer == "refused E7 Failed", line, answer)
        self.model.turn(ALL)
        check(answer.startswith("frame ") if self.model.flush() else answer == "no frame", line, answer)

    def of_settle(self, line):
        answer = self.next_answer()
        if answer == "refused E5 NoSegment":
            return self.again(line)
        self.model.turn(ALL)
        self.model.flush()
        check(answer == "settled %d" % (len(self.model.entries) - self.model.opened), line, answer)

    def of_clean(self, line):
        answer = self.next_answer()
        if answer == "refused E5 NoSegment":
            return self.again(line)
        if self.limit is not None and answer.startswith("refused E6 Device lease "):
            self.is_failed = True
            return None
        check((answer == "refused E11 NothingOld") == (self.live < 2), line, answer, self.live)
        if self.live < 2:
            return None
        self.model.flush()
        self.model.cleaned += 1
        check(answer.startswith("cleaned segment %d lease " % self.model.cleaned), line, answer)
        return None

    def of_history(self, line):
        told = self.model.history()
        check(self.next_answer() == "history %d" % len(told), line)
        has = [self.next_answer() for _ in told]
        # Only a turn promises an order of the writers; each one's records stand in its own.
        for writer in "01":
            check([it for it in has if it[0] == writer] == [it for it in told if it[0] == writer], line)

    def of_evict(self, line, page):
        answer = self.next_answer()
        if page == "0":
            return check(answer == "refused E9 NoPage", line, answer)
        if answer == "refused E9 NoPage":
            return check(int(page) > self.table.pages, line)
        # It does not leave again at once.
        is_second = self.lines[self.done - 1] == line
        check(answer == "kept" or not is_second and answer == "evicted", line, answer)

    def of_get(self, line, key):
        value = self.model.values.get(bytes_of(key))
        check(self.next_answer() == ("none" if value is None else "value " + printed(value)), line)

    def of_page(self, line, page):
        answer = self.next_answer()
        if page == "0":
            return check(answer == "refused E9 NoPage", line, answer)
        if answer == "refused E9 NoPage":
            return self.no_page(line, int(page))
        check(int(page) < self.table.most, "more pages than are asked for")
        _, pairs = pairs_of(answer, int(page), self.m)
        check(all(self.model.values.get(key) == value for key, value in pairs), line, answer)

    def no_page(self, line, page):
        """No page that was there is gone; and the pairs of all, by their low keys, are the map's, if all were asked for."""
        check(page > self.table.pages, line)
        if self.lines[self.done - 1] == "page %d" % (page - 1) and self.answers[self.at - 2].startswith("page "):
            rows = sorted(pairs_of(it, number, self.m) for number, it in enumerate(self.answers[self.at - page : self.at - 1], 1))
            check([pair for _, pairs in rows for pair in pairs] == sorted(self.model.values.items()), line)
            self.table.pages = page - 1

    def of_roll(self, line):
        check(self.next_answer() == "rolled", line)

    def of_add(self, line):
        check(self.next_answer().startswith("added "), line)

    def of_segments(self, line):
        """How many are live."""
        self.live = 0
        answer = self.next_answer()
        while answer.startswith("segment "):
            self.live += 1
            answer = self.next_answer()
        check(answer.startswith("spares "), line, answer)

    # What is drawn.

    def key(self, writer):
        drawn = below(self.draw, self.table.keys)
        return word(key_of(drawn if self.table.are_shared else drawn // 2 * 2 + writer))

    def op(self, writer):
        """A put or a delete of a group; each put has a value of its own, so short that a line has room for four."""
        if below(self.draw, 4) == 0:
            return "del " + self.key(writer)
        self.table.steps_of_groups += 1
        return "put %s %s" % (self.key(writer), word(value_of(1000000 + self.table.steps_of_groups)[:360]))

    def drawn(self, card):
        """The lines of a card."""
        self.table.steps += 1
        writer = below(self.draw, 2)
        if card == "put":
            return ["put %d %s %s" % (writer, self.key(writer), word(value_of(self.table.steps)))]
        if card == "del":
            return ["del %d %s" % (writer, self.key(writer))]
        if card == "group":
            return ["group %d %s" % (writer, " ".join(self.op(writer) for _ in range(1 + below(self.draw, 4))))]
        if card.startswith("turn "):
            return ["turn %d" % below(self.draw, int(card[5:]))]
        if card == "evict":
            return ["evict %d" % below(self.draw, self.table.most // 4)] * 2
        if card == "page":
            return ["page %d" % below(self.draw, self.table.most // 4)]
        if card == "get":
            return ["get " + self.key(writer)]
        return self.following(card)

    def lines_of(self, rounds, drawn, deck, then):
        """So many rounds: in each so many cards are drawn from a deck, and some more follow."""
        for _ in range(rounds):
            for _ in range(drawn):
                yield from self.drawn(deck[below(self.draw, len(deck))])
            for step in then:
                yield from self.following(step)

    def following(self, step):
        """The lines of a step that is not drawn."""
        if step == "clean":
            return ["segments", "clean"]
        if step == "read all":
            return ["get " + word(key_of(it)) for it in range(self.table.keys)] + ["page %d" % it for it in range(1, self.table.most + 1)]
        if step == "evict all":
            return ["evict %d" % page for page in range(1, self.table.most) for _ in range(2)]
        return [step]


class Table:
    """What a store is opened with, and what its lives draw from."""

    def __init__(self, program, seed, keys, are_shared=True, m=4, places=8, segments=4, capacity=65560, frame=65536):
        self.program, self.keys, self.are_shared, self.m = program, keys, are_shared, m
        self.options = ["--writers=2", "--m=%d" % m, "--places=%d" % places, "--segments=%d" % segments, "--capacity=%d" % capacity, "--frame=%d" % frame]
        self.draw = random.Random(seed)
        self.model = Model(places)
        # How many pages there are at least, and at most: two pairs a page stand in it when it is cut.
        self.pages = 1
        self.most = max(40, keys)
        self.steps = 0
        self.steps_of_groups = 0
        self.refusals = 0

    def words(self, folder):
        return [self.program, "replay", *self.options, *(["--dir=" + folder] if folder else [])]

    def live(self, plans, folder=None, limit=None):
        """A life, each of whose plans goes as the map says."""
        life = Life(self, folder, limit)
        try:
            life.go([line for plan in plans for line in life.lines_of(*plan)])
        finally:
            life.close()
        return life

    def stop_and_live(self, plans, folder, is_whole=True):
        """A life after a stop, before which recovery has to find the map's pages."""
        self.model.stop(is_whole)
        answer = subprocess.run([self.program, "scan", "--dir=" + folder], capture_output=True, timeout=LIMIT)
        check(answer.returncode == 0, "scan", answer.stdout)
        rows = sorted(pairs_of(it, number, self.m) for number, it in enumerate(answer.stdout.decode().splitlines()[2:], 1))
        check([pair for _, pairs in rows for pair in pairs] == sorted(self.model.values.items()), "scan")
        return self.live(plans, folder)


SCRIPT = 2 * (["put"] * 6 + ["group"] * 3 + ["del"] * 2 + ["turn 6"] * 3 + ["turn 20"] + ["flush"] * 2 + ["evict"] * 3 + ["get", "page", "clean"]) + ["roll"]


def scripts(program, _folder):
    """2,000 steps over memory, after each 200 of which all is read: few keys, many keys, and large pages."""
    for table in (
        Table(program, 1, keys=24, segments=24),
        Table(program, 2, keys=400, segments=24),
        Table(program, 3, keys=400, segments=24, m=32, capacity=80000),
    ):
        table.live([(10, 200, SCRIPT, ["read all"])])
        check(table.steps == 2000, "steps")


def cleanings(program, folder):
    """A store of three segments, one of which is given up in each of a hundred rounds, and a new one comes in its place; then another life."""
    records = ["put"] * 2 + ["group", "del"] + ["turn 8"] * 2 + ["evict"]
    for table, place in (
        (Table(program, 11, keys=60, are_shared=False, segments=3), "small"),
        (Table(program, 12, keys=60, are_shared=False, segments=3, m=32), "large"),
    ):
        place = os.path.join(folder, place)
        os.mkdir(place)
        table.live([(1, 30, records, ["settle", "roll"]), (100, 30, records, ["settle", "clean", "read all", "add", "roll"])], place)
        check(table.model.cleaned == 100 and table.refusals == 0, "cleanings")
        table.stop_and_live([(2, 30, records, ["settle", "read all", "roll"])], place)


def lives(program, folder):
    """Four lives, at whose ends all is settled."""
    deck = ["put"] * 4 + ["group"] * 2 + ["del", "turn 6", "turn 20", "flush", "evict", "get", "page", "roll", "clean", "settle"]
    plans = [(2, 200, deck, ["read all", "evict all"]), (1, 20, ["put"], ["settle", "read all"])]
    for table, place in (
        (Table(program, 21, keys=100, are_shared=False, segments=12), "small"),
        (Table(program, 22, keys=200, are_shared=False, segments=12, m=32, capacity=80000), "large"),
    ):
        place = os.path.join(folder, place)
        os.mkdir(place)
        table.live(plans, place)
        for _ in range(3):
            table.stop_and_live(plans, place)


def refusals(program, _folder):
    """1,500 records of two writers, taken by one turn, or flushed by fifties, over two segments; each further one is wanted once."""
    for plans in (
        [(1, 1500, ["put"], ["turn %d" % ALL, "flush", "read all"])],
        [(30, 50, ["put"], ["turn %d" % ALL, "flush"]), (1, 0, [], ["read all"])],
    ):
        table = Table(program, 31, keys=1000, places=1024, segments=2)
        table.live(plans)
        check(len(table.model.entries) == 1500 and table.refusals >= 6, "refusals", table.refusals)


RECORDS = ["put"] * 4 + ["del", "turn 12"]
AGAIN = [(1, 60, ["put"] * 3 + ["del", "turn 6", "turn 20", "flush", "roll", "clean"], ["read all"]), (1, 0, [], ["settle"])]


def frame_behind(held, at):
    """Where the frame at an offset ends: its head has 20 bytes, and the length of the rest stands at 12."""
    return at + 20 + int.from_bytes(held[at + 12 : at + 16], "little")


def held_in(folder):
    """The bytes of each segment."""
    held = {}
    for name in (it for it in os.listdir(folder) if it.endswith(".bw")):
        with open(os.path.join(folder, name), "rb") as file:
            held[name] = file.read()
    return held


def twin_of(table, place, plans):
    """The frames that a life appends if nothing fails, as the file in which they stand, and where each begins and the last ends."""
    table = copy.deepcopy(table)
    twin = place + "-twin"
    shutil.copytree(place, twin)
    before = held_in(twin)
    table.live(plans, twin)
    after = held_in(twin)
    grown = [name for name in after if after[name] != before.get(name, b"") and after[name]]
    check(len(grown) == 1, "files that grew:", grown)
    held, ends = after[grown[0]], [len(before[grown[0]])]
    while ends[-1] < len(held):
        ends.append(frame_behind(held, ends[-1]))
    return grown[0], held, ends


def broken(program, place, sizes, plans, number, keep):
    """Three lives: in the second a cleaning fails at its append of this number, of which so many bytes stand then, or all (-1). How many there are."""
    os.mkdir(place)
    table = Table(program, 41, keys=600, are_shared=False, m=32, places=16, segments=6, capacity=524288)
    # The segment that fails is the longest, since a file is limited by its length.
    table.live([(1, sizes[0], RECORDS, ["settle", "roll"]), (1, sizes[1], RECORDS, ["settle"])], place)
    table.model.stop(True)
    name, held, ends = twin_of(table, place, plans)
    begin, end = ends[number], ends[number + 1]
    limit = end - 1 if keep < 0 else begin + keep
    check(begin <= limit < end, "an append of no such length")
    life = table.live(plans, place, limit)
    check(life.is_failed, "nothing failed")
    with open(os.path.join(place, name), "r+b") as file:
        check(file.read() == held[:limit], "other bytes than those of the append")
        file.write(held[limit:end] if keep < 0 else b"")
    is_whole = keep < 0 or number > 0 or not life.model.waits
    table.stop_and_live(AGAIN, place, is_whole)
    table.stop_and_live([], place)
    return len(ends) - 1


def breakings(program, folder):
    """A cleaning fails, at its flush or at an append of its own, and the store goes on from what that left."""
    break_all = [(1, 0, [], ["clean", "flush", "read all"])]
    places = (os.path.join(folder, str(number)) for number in range(1000))
    frames = broken(program, next(places), (700, 1100), break_all, 0, 0)
    check(frames > 1, "a cleaning of one frame")
    for number in range(frames):
        for keep in (0, 30, -1):
            broken(program, next(places), (700, 1100), break_all, number, keep)
    with_some = [(1, 12, ["put"], ["turn %d" % ALL, "clean", "flush", "read all"])]
    for number in (0, 1):
        for keep in (0, 30, -1):
            broken(program, next(places), (100, 200), with_some, number, keep)


SUBJECTS = [scripts, cleanings, lives, refusals, breakings]


def main():
    program = os.path.abspath(sys.argv[1] if len(sys.argv) > 1 else BUILT)
    if not os.path.isfile(program):
        print("there is no program %s: make run builds it" % program)
        return 1
    for subject in SUBJECTS:
        with tempfile.TemporaryDirectory(dir=FAST) as folder:
            try:
                subject(program, folder)
            except Otherwise as otherwise:
                print("drawn, %s: %s" % (subject.__name__, otherwise))
                return 1
    print("drawn: %d subjects went as the map tells" % len(SUBJECTS))
    return 0


if __name__ == "__main__":
    sys.exit(main())
