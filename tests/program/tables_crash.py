#!/usr/bin/env python3
"""The third part of make crash: stops runs of calls on tables, and looks at what each leaves.

    tables_crash.py [FOLDERS [KILLS [SEED]]]

A run of `bw_tabled` makes drawn calls over a folder: tables come and go, values of any length stand over values of any length, and batches change
rows of several tables at once. It goes under a library that notes each write, cut and sync of the folder's files, and each answer (tools/watch.c). For
each of these in turn there are folders in which all that was synced before stands, and a beginning of the write in flight.

Of each such folder the pairs of the store itself are read as docs/TABLES.md spells them: they have to be the tables after some whole call, not before the
last `keep` that was answered, and not after the call in flight. Then the folder is opened, and the calls have to show the same tables. After that nothing
is half done: no number is doomed, no table is gone, no batch stands and no row is aside, and of each value there are all chunks and no others. Some of the
folders are the beginning of a further run, whose opening is stopped likewise.

A call of each kind, and then the opening that follows, is stopped after each of its groups: a frame ends there, since what was put before is of that
length.

Then runs are killed at random moments, and what they leave is asked likewise. And wrong folders and a wrong model have to be found.

Before all of this the same program, asked for times, makes its calls in memory once, and has to read back each row as it was put."""

import os
import random
import shutil
import signal
import subprocess
import sys
import tempfile
import time

from checks import BUILT, FAST, TOP, Wrong, ask, held_in, notes_of, shim_of, write
from disk import Disk

DRIVER = os.path.join(TOP, "crates", "bw_tabled", "out", "bw_tabled")
FOLDERS = int(sys.argv[1]) if len(sys.argv) > 1 else 3000
KILLS = int(sys.argv[2]) if len(sys.argv) > 2 else 60
SEED = int(sys.argv[3]) if len(sys.argv) > 3 else 1
# One name begins another one.
NAMES = (b"a", b"ab", b"b")
KEYS = tuple(b"k%d" % number for number in range(5)) + (b"\x00", b"k\x00", b"\xff" * 124)
# Around each border: a value that stands in its row, one chunk, two, and so many that a call takes several frames.
LENGTHS = (0, 1, 400, 511, 512, 513, 1024, 1025, 3000, 9000, 30000, 60000)
CHUNK, WHOLE = 512, 511
# Segments, bytes of each, and the most pairs of a page.
SHAPES = (("8", "1048576", "32"), ("40", "131104", "4"), ("40", "131104", "32"))
# What may stand half done: a number that is doomed, a table that is gone, a batch that stands, a row that is aside.
DOOMED, GONE, STANDS, ASIDE = 2, 3, 5, 6
HALF_DONE = {DOOMED: "a number is doomed", GONE: "a table is gone", STANDS: "a batch stands", ASIDE: "a row is aside"}
# What `bw_tabled --times` prints, without numbers: of each subject its operations, and how many of each. A row that is not right is a line more.
COUNTED = (
    ("the store itself", ("set, new", "set, changed", "get of the store"), 1000),
    ("a table without long values", ("put, new", "put, changed", "get of a table"), 1000),
    ("a table with a long value", ("put, new", "put, changed", "get of a table"), 1000),
    ("batches of 100", ("batches, new", "batches, changed"), 1000),
    ("batches of 1000", ("batches, new", "batches, changed"), 1000),
    ("long values", ("1 MiB, new", "1 MiB, changed", "1 MiB, read", "1 MiB, deleted"), 1),
    ("openings", ("a search", "an opening"), 1000),
)


# ---- calls, and the tables after each


def word_of(some):
    return some.hex() or "-"


def put(tables, name, key, value):
    """The tables, with this value of a key; without the key if the value is none."""
    rows = dict(tables[name])
    if value is None:
        rows.pop(key, None)
    else:
        rows[key] = value
    return {**tables, name: rows}


def line_of(change):
    name, key, value = change
    more = [] if value is None else [word_of(value)]
    return " ".join(["del" if value is None else "put", word_of(name), word_of(key), *more])


def drawn_value(draw):
    """No two values, and no two chunks of a value, are alike."""
    return draw.randbytes(draw.choice(LENGTHS))


def drawn_change(draw, tables):
    value = None if draw.random() < 0.2 else drawn_value(draw)
    return draw.choice(sorted(tables)), draw.choice(KEYS), value


def wide_batch(draw, tables):
    """Changes of many rows that stand whole in their row, over what these keys had."""
    return [(draw.choice(sorted(tables)), b"wide%03d" % draw.randrange(200), draw.randbytes(500)) for _ in range(draw.randrange(120, 260))]


def drawn_call(draw, tables):
    """The lines of a call, and the tables that it leaves."""
    kind = draw.random()
    lacking = sorted(set(NAMES) - set(tables))
    if not tables or (lacking and kind < 0.15):
        name = draw.choice(lacking)
        return ["create " + word_of(name)], {**tables, name: {}}
    if kind < 0.21:
        # The fullest, so that its rows take more than a frame to go away.
        name = max(sorted(tables), key=lambda name: sum(map(len, tables[name].values())))
        return ["drop " + word_of(name)], {other: rows for other, rows in tables.items() if other != name}
    if kind < 0.28:
        changes = wide_batch(draw, tables)
    elif kind < 0.46:
        changes = [drawn_change(draw, tables) for _ in range(draw.choice((1, 2, 3, 4, 5, 12)))]
    else:
        change = drawn_change(draw, tables)
        return [line_of(change)], put(tables, *change)
    left = tables
    for change in changes:
        left = put(left, *change)
    return ["batch %d" % len(changes)] + [line_of(change) for change in changes], left


class Script:
    """Lines, and after each whole call: how many lines were answered, the tables, and whether they are kept."""

    def __init__(self, draw, start, count):
        self.lines, self.tables, self.ends, self.kept = ["open"], [start, start], [0, 1], [0]
        for _ in range(count):
            lines, left = drawn_call(draw, self.tables[-1])
            self.add(lines, left)
            if draw.random() < 0.1:
                self.keep()
        self.keep()

    @staticmethod
    def of(lines):
        """These lines, of which nothing is known."""
        script = Script.__new__(Script)
        script.lines = lines
        return script

    def add(self, lines, left):
        self.lines += lines
        self.tables.append(left)
        self.ends.append(len(self.lines))

    def keep(self):
        self.add(["keep"], self.tables[-1])
        self.kept.append(len(self.tables) - 1)

    def span(self, answered):
        """Which tables may be found once so many lines were answered: those after this call, up to those after that one."""
        whole = max(at for at, end in enumerate(self.ends) if end <= answered)
        least = max(at for at in self.kept if at <= whole)
        return self.tables[least : whole + 2]


# ---- a folder: the pairs of the store itself, and the tables that they spell


def pairs_of(folder):
    """The pairs of the store itself, of which nothing is changed; none before its first frame."""
    ran = subprocess.run([BUILT, "export", "--dir", folder, "--format", "dump"], capture_output=True, check=False)
    if ran.returncode == 4 and b"E12" in ran.stdout + ran.stderr:
        return {}
    ask(ran.returncode == 0, "the folder is refused:", ran.stdout[-200:], ran.stderr)
    lines = ran.stdout.split(b"HEADER=END\n")[1].split(b"DATA=END")[0].split(b"\n")
    words = [bytes.fromhex(line.decode().strip()) for line in lines if line]
    return dict(zip(words[::2], words[1::2]))


def value_in(pairs, row):
    """The value that a row stands for."""
    if row[0] == 0:
        return row[1:]
    ask(row[0] == 1 and len(row) == 17, "a row", row)
    number, length = row[1:9], int.from_bytes(row[9:], "big")
    ask(length > WHOLE, "a long value of", length)
    chunks = [pairs.get(b"\x07" + number + at.to_bytes(4, "big")) for at in range((length + CHUNK - 1) // CHUNK)]
    ask(None not in chunks, "a value lacks chunks")
    ask(all(len(chunk) == CHUNK for chunk in chunks[:-1]) and sum(map(len, chunks)) == length, "lengths of chunks")
    return b"".join(chunks)


def rows_in(pairs):
    """The rows that count: of a batch that stands, what is aside."""
    rows = {key[1:]: value for key, value in pairs.items() if key[0] == 8}
    if bytes([STANDS]) in pairs:
        for key, value in pairs.items():
            if key[0] == ASIDE and value == b"\x02":
                rows.pop(key[1:], None)
            elif key[0] == ASIDE:
                rows[key[1:]] = value
    return rows


def tables_in(pairs):
    """The tables that the pairs of a store spell."""
    ask(not pairs or b"\x00" in pairs, "pairs without the mark of tables")
    names = {value[:2]: key[1:] for key, value in pairs.items() if key[0] == 1}
    tables = {name: {} for name in names.values()}
    ask(len(tables) == sum(1 for key in pairs if key[0] == 1), "two tables of one number")
    for place, row in rows_in(pairs).items():
        if place[:2] in names:
            tables[names[place[:2]]][place[2:]] = value_in(pairs, row)
    return tables


def half_done(pairs):
    """The kinds of pairs that a stop leaves."""
    return {key[0] for key in pairs} & set(HALF_DONE)


def ask_whole(pairs):
    """Nothing is half done, and there are the chunks of the values that rows name, and no others."""
    for kind in sorted(half_done(pairs)):
        raise Wrong("after an opening " + HALF_DONE[kind])
    named = {value[1:9]: int.from_bytes(value[9:], "big") for key, value in pairs.items() if key[0] == 8 and value[0] == 1}
    wanted = {b"\x07" + number + at.to_bytes(4, "big") for number, length in named.items() for at in range((length + CHUNK - 1) // CHUNK)}
    found = {key for key in pairs if key[0] == 7}
    ask(found == wanted, "after an opening", len(found - wanted), "chunks are nobody's and", len(wanted - found), "are missing")
    tables = {value[:2] for key, value in pairs.items() if key[0] == 1}
    ask(all(key[1:3] in tables for key in pairs if key[0] == 8), "after an opening a row is of no table")
    ask(not any(key[1:] in named for key in pairs if key[0] == 4), "a number that a row names may be taken again")


def run_driver(folder, lines, shape=SHAPES[0], **more):
    return subprocess.run([DRIVER, folder, *shape], input="\n".join(lines) + "\n", capture_output=True, text=True, check=False, **more)


def bytes_of(word):
    return b"" if word == "-" else bytes.fromhex(word)


def shown(folder, *lines):
    """The tables that the calls show, once the folder was opened."""
    ran = run_driver(folder, ["open", *lines, "show", "keep"])
    ask(ran.returncode == 0, "the driver:", ran.stdout[-300:], ran.stderr)
    tables, rows = {}, None
    for line in ran.stdout.splitlines():
        words = line.split(" ")
        if words[0] == "table":
            rows = tables[bytes_of(words[1])] = {}
        elif words[0] == "row":
            key = bytes_of(words[1])
            ask(not rows or max(rows) < key, "rows are not in order")
            rows[key] = bytes_of(words[2])
        else:
            ask(line == "ok", "an answer:", line)
    return tables


def summary(tables):
    return {name: {key[:8]: len(value) for key, value in rows.items()} for name, rows in tables.items()}


def look(folder, span, seen):
    """Asks all of a folder that a stop may have left; answers its tables."""
    left = pairs_of(folder)
    tables = tables_in(left)
    ask(tables in span, "found are the tables after none of", len(span), "calls:", summary(tables), "in place of", summary(span[0]), "up to", summary(span[-1]))
    for kind in half_done(left):
        seen[kind] = seen.get(kind, 0) + 1
    found = shown(folder)
    ask(found == tables, "the calls show", summary(found), "where there is", summary(tables))
    opened = pairs_of(folder)
    ask(tables_in(opened) == tables, "an opening changed the tables")
    ask_whole(opened)
    return tables, bool(half_done(left))


# ---- losses of power


def watched(shim, room, script, files, shape):
    """Runs a script over a folder with these files; what it asked of the system, with its answers among it."""
    scene, log = os.path.join(room, "scene"), os.path.join(room, "notes")
    shutil.rmtree(scene, ignore_errors=True)
    write(os.path.join(scene, "store"), files)
    if os.path.exists(log):
        os.remove(log)
    with open(os.path.join(scene, "told"), "wb") as told:
        ran = subprocess.run([DRIVER, os.path.join(scene, "store"), *shape], input="\n".join(script.lines).encode() + b"\n", stdout=told,
                             stderr=subprocess.PIPE, check=False, env={"LD_PRELOAD": shim, "WATCH": scene, "WATCH_LOG": log})
    with open(os.path.join(scene, "told"), "rb") as told:
        answers = told.read().split(b"\n")[:-1]
    other = [answer for answer in answers if answer != b"ok"]
    ask(ran.returncode == 0 and not other and len(answers) == len(script.lines), "the driver:", other[:3], len(answers), "of", len(script.lines), ran.stderr)
    return notes_of(log)


def without_folder(note):
    """A note of the folder's files, by their names in it."""
    letter, offset, length, name, piece = note
    return letter, offset, length, name[len("store/") :], piece


def one_life(shim, room, draw, script, files, seen, most):
    """Looks at so many of the folders that a run of a script may leave; answers those of them in which something was half done, with their tables."""
    image, half, count = os.path.join(room, "left"), [], 0
    notes = watched(shim, room, script, files, draw.choice(SHAPES))
    disk, answered = Disk(files, 0), 0
    every = sum(1 for note in notes if note[3].startswith("store") and note[0] in "wt")
    chance = most / (2.0 * max(1, every))
    for note in notes:
        if note[3] == "told":
            answered += note[4].count(b"\n")
            continue
        note = without_folder(note)
        # Few writes are amid a drop.
        is_rare = answered < len(script.lines) and script.lines[answered].startswith("drop ")
        if note[0] in "wt" and (is_rare or draw.random() < chance):
            for left, _ in list(disk.left(note, draw, 0))[-2:]:
                write(image, left)
                tables, is_half = look(image, script.span(answered), seen)
                count += 1
                if is_half:
                    half.append((dict(left), tables))
        disk.ask(note)
    write(image, disk.stands)
    tables, _ = look(image, script.tables[-1:], seen)
    ask(tables == script.tables[-1], "not all was kept")
    return count + 1, half, (disk.stands, tables)


def lives(shim, room, draw, seen, most):
    """Three runs, each over what the one before it left half done, if it did; how many folders were looked at."""
    files, tables, count = {}, {}, 0
    for _ in range(3):
        script = Script(draw, tables, draw.randrange(20, 50))
        more, half, whole = one_life(shim, room, draw, script, files, seen, most // 3)
        files, tables = draw.choice(half) if half else whole
        count += more
    return count


# ---- a stop after each group of a call

# The most bytes of a frame, and what a row adds to one beside its value.
FRAME, ROW, AROUND = 65536, 480, 9
# A table of its own, whose only row takes up what is left of a frame.
FILLER, FILLER_ROW = b"filler", bytes.fromhex("00006b")


def filling(size, row):
    """Lines that put so many bytes into a frame, all in one row."""
    count, rest = divmod(size - AROUND, ROW + AROUND)
    return [row(bytes(ROW))] * count + [row(bytes(rest))]


class Stops:
    """Stops one call after each of its groups: what comes before it in the frame that is being made is so long that the frame ends there."""

    def __init__(self, shim, room, seen, files, setup, row, lines, before, after):
        self.shim, self.room, self.seen, self.files = shim, room, seen, files
        self.setup, self.row, self.lines, self.span = setup, row, lines, [before, after]
        self.states, self.images = {}, []

    def after(self, size):
        """What stands of the call if so many bytes come before it: a text if no frame ends in it."""
        if size not in self.states:
            self.states[size] = self.look(size)
        return self.states[size]

    def look(self, size):
        script = Script.of(self.setup + filling(size, self.row) + self.lines)
        begin = len(script.lines) - len(self.lines)
        disk, answered, state = Disk(self.files, 0), 0, "late"
        for note in watched(self.shim, self.room, script, self.files, SHAPES[0]):
            if note[3] == "told":
                answered += note[4].count(b"\n")
                continue
            note = without_folder(note)
            if note[0] == "w" and note[3].endswith(".bw") and answered >= len(self.setup):
                if answered < begin:
                    return "early"
                *_, (left, _) = disk.left(note, random, 0)
                return self.judge(dict(left))
            disk.ask(note)
        return state

    def judge(self, files):
        """The pairs of a folder that was stopped amid the call; it is looked at if none was like it."""
        image = os.path.join(self.room, "left")
        write(image, files)
        pairs = pairs_of(image)
        state = frozenset(pair for pair in pairs.items() if pair[0] != b"\x08" + FILLER_ROW)
        if state not in self.states.values():
            look(image, [with_filler(tables, pairs) for tables in self.span], self.seen)
            self.images.append((files, pairs))
        return state

    def between(self, low, high):
        """Looks for each state between two that are known."""
        if high - low > 1 and self.after(low) != self.after(high):
            middle = (low + high) // 2
            self.between(low, middle)
            self.between(middle, high)

    def all(self):
        """How many states there are amid the call."""
        self.between(FRAME - 30000, FRAME)
        ask((self.after(FRAME - 30000), self.after(FRAME)) == ("late", "early"), "the call is longer than a frame")
        return len({state for state in self.states.values() if state not in ("late", "early")})


def with_filler(tables, pairs):
    row = pairs.get(b"\x08" + FILLER_ROW)
    ask(row is not None, "what was kept is not there")
    return {**tables, FILLER: {b"k": row[1:]}}


def row_of_table(value):
    return line_of((FILLER, b"k", value))


def row_of_store(value):
    return "raw 08%s %s" % (FILLER_ROW.hex(), word_of(b"\x00" + value))


def calls_of_each_kind(draw):
    """Of each call the tables before it, its changes, its lines and the least number of places in it: those between its groups, as docs/TABLES.md has
    them."""
    a, b, other = (draw.randbytes(length) for length in (1025, 1500, 2000))
    start = {b"t": {b"long": a, b"short": b"1", b"more": b}, b"u": {b"long": b}}
    yield "a long value over a long one", start, [(b"t", b"long", other)], 5
    yield "a short value over a long one", start, [(b"t", b"long", b"2")], 2
    yield "a long value over a short one", start, [(b"t", b"short", other)], 2
    yield "a delete of a long value", start, [(b"t", b"long", None)], 2
    yield "a batch", start, [(b"t", b"long", other), (b"u", b"long", a), (b"t", b"more", None), (b"u", b"new", b"3"), (b"t", b"short", b"4"), (b"t", b"new", b"5")], 14
    yield "a small batch", start, [(b"t", b"short", b"2"), (b"u", b"new", b"3"), (b"t", b"gone", None)], 0
    yield "a drop", start, None, 5


def each_group(shim, room, draw, seen, kinds):
    """Stops calls of these kinds, and the openings that follow, after each of their groups; how many folders were looked at."""
    count = 0
    for what, start, changes, least in calls_of_each_kind(draw):
        if what not in kinds:
            continue
        setup = ["open", "create " + word_of(FILLER), "put %s 6b 00" % word_of(FILLER)]
        for name, rows in start.items():
            setup += ["create " + word_of(name)] + [line_of((name, key, value)) for key, value in rows.items()]
        after = {name: rows for name, rows in start.items() if name != b"t"}
        lines = ["drop " + word_of(b"t")]
        if changes is not None:
            lines = [line_of(change) for change in changes]
            lines = ["batch %d" % len(lines)] + lines if len(lines) > 1 else lines
            after = start
            for change in changes:
                after = put(after, *change)
        stops = Stops(shim, room, seen, {}, [*setup, "keep"], row_of_table, lines, start, after)
        found = stops.all()
        ask(found >= least, what, "was stopped in", found, "places, of at least", least)
        count += found
        files, pairs = max(stops.images, key=lambda image: (len(half_done(image[1])), len(image[1])))
        tables = {name: rows for name, rows in tables_in(pairs).items() if name != FILLER}
        # (the first line comes after what an opening of the files themselves writes)
        again = Stops(shim, room, seen, files, [row_of_store(b"")], row_of_store, ["open"], tables, tables)
        count += again.all()
    return count


KINDS = [what for what, *_ in calls_of_each_kind(random)]


# ---- processes that are killed


def killed(room, draw, seen):
    """A run that is killed at some moment: what it gave the system is there."""
    folder, told = os.path.join(room, "killed"), os.path.join(room, "killed.told")
    shutil.rmtree(folder, ignore_errors=True)
    script = Script(draw, {}, 60)
    with open(told, "wb") as out, tempfile.TemporaryFile() as given:
        given.write("\n".join(script.lines).encode() + b"\n")
        given.seek(0)
        ran = subprocess.Popen([DRIVER, folder, *draw.choice(SHAPES)], stdin=given, stdout=out)
        time.sleep(draw.uniform(0, 0.25))
        ran.send_signal(signal.SIGKILL)
        ran.wait()
    with open(told, "rb") as out:
        answered = out.read().count(b"ok\n")
    if os.path.isdir(folder) and held_in(folder):
        look(folder, script.span(answered), seen)
    return ran.returncode == -signal.SIGKILL


# ---- what is wrong is found


def told(what, call, *given):
    try:
        call(*given)
    except Wrong:
        return
    raise Wrong("it is not told that " + what)


def wrong_is_told(room, draw):
    """A model that is wrong by one byte, tables that are too old, a chunk that is gone, one that is nobody's, and a mark that is left."""
    folder, seen = os.path.join(room, "wrong"), {}
    value, other = draw.randbytes(1025), draw.randbytes(1025)
    tables = {b"t": {b"k": value}}

    def anew(*lines):
        shutil.rmtree(folder, ignore_errors=True)
        ran = run_driver(folder, ["open", "create 74", "put 74 6b " + value.hex(), *lines, "keep"])
        ask(ran.stdout == "ok\n" * (4 + len(lines)), "the driver:", ran.stdout, ran.stderr)

    anew()
    look(folder, [tables], seen)
    told("a model is wrong", look, folder, [{b"t": {b"k": value[:-1] + bytes([value[-1] ^ 1])}}], seen)
    told("a key is missing", look, folder, [{b"t": {b"k": value, b"l": b""}}], seen)
    told("a table is missing", look, folder, [{**tables, b"u": {}}], seen)
    anew("put 74 6b " + other.hex())
    told("tables are older than those kept", look, folder, [tables], seen)
    number = "00" * 8
    for index, what in enumerate(("the first", "the middle", "the last")):
        anew("raw 07%s%08x" % (number, index))
        told(what + " chunk is gone", look, folder, [tables], seen)
    for line, what in (("raw 07%s%08x 00" % (number, 3), "a chunk is nobody's"), ("raw 0800096b 0000", "a row is of no table")):
        anew(line)
        told(what, look, folder, [tables], seen)
    for kind, rest in ((DOOMED, number), (GONE, "0007"), (STANDS, ""), (ASIDE, "00006b")):
        told(HALF_DONE[kind], ask_whole, {**pairs_of(folder), bytes.fromhex("%02x%s" % (kind, rest)): b"\x02"})


def counted():
    """The calls that are timed, without their times: each row is read back as it was put."""
    wanted = [line for subject, names, count in COUNTED for line in (subject, *("%s: %d" % (name, count) for name in names))]
    ran = subprocess.run([DRIVER, "--times"], stdin=subprocess.DEVNULL, capture_output=True, text=True, check=False)
    ask(ran.returncode == 0, "--times:", ran.stderr)
    found = ran.stdout.splitlines()
    ask(found == wanted, "--times:", [line for line in found if line not in wanted] or found)


def main():
    draw = random.Random(SEED)
    seen, runs, folders, kills, places = {}, 0, 0, 0, 0
    try:
        ask(os.path.exists(BUILT), BUILT + " is not built: make run")
        ask(os.path.exists(DRIVER), DRIVER + " is not built: rt ci")
        with tempfile.TemporaryDirectory(dir=FAST, prefix="bw-tables-") as room:
            counted()
            shim = shim_of("watch", room)
            wrong_is_told(room, draw)
            places = each_group(shim, room, draw, seen, KINDS)
            while folders < FOLDERS:
                folders += lives(shim, room, draw, seen, min(300, FOLDERS))
                runs += 3
            for _ in range(KILLS):
                kills += killed(room, draw, seen)
        for kind, what in HALF_DONE.items():
            ask(kind in seen or FOLDERS < 1000, "in no folder", what)
    except Wrong as wrong:
        print("seed %d, run %d: %s" % (SEED, runs, wrong))
        return 1
    print("%d places between the groups of %d calls, and of the openings after them: the tables before the call, or after it" % (places, len(KINDS)))
    told_half = ", ".join("%s in %d" % (what, seen.get(kind, 0)) for kind, what in HALF_DONE.items())
    print("%d folders of %d runs, and %d runs that were killed: each has the tables after a whole call, not before the last kept one" % (folders, runs, kills))
    print("before its opening " + told_half)
    return 0


sys.exit(main())
