#!/usr/bin/env python3
"""The modes of `bwlog` for people, beside the programs that people have.

    people.py [PROGRAM [NUMBER]]

Without a program it takes the one that `make run` leaves. It makes 63,000 records as of a list of packages, and imports, counts, lists and
exports them, also as JSON and as CSV, which Python's own modules read and write; they go to LMDB and to Berkeley DB and come back, if `mdb_load`, `mdb_dump`, `db_load` and `db_dump` are installed
(lmdb-utils and db-util), and any bytes go to them and come back too. Then: an output that nobody reads ends a list with status 0 and
nothing on standard error; updates of a few keys want no more segments; a full disk is
reported, if this process may mount a small one; and NUMBER pairs of 108 bytes are imported, a million if it is not given, with the
time and the memory that it took. What is not tried is said."""

import base64
import contextlib
import csv
import io
import json
import os
import random
import resource
import shutil
import subprocess
import sys
import tempfile

from checks import Wrong, expect

HERE = os.path.dirname(os.path.abspath(__file__))
BUILT = os.path.join(HERE, "..", "..", "crates", "bwlog", "out", "bwlog")
PACKAGES = 63000
# More than LMDB's map of 1 MiB holds.
MAPSIZE = str(1 << 30)


class Program:
    """The program, and the folder in which its stores stand."""

    def __init__(self, path, folder):
        self.path, self.folder = os.path.abspath(path), folder

    def run(self, *words, given=b""):
        return subprocess.run([self.path, *words], input=given, capture_output=True, cwd=self.folder, check=False)

    def do(self, *words, given=b""):
        """What it prints, once it ended well with nothing on standard error."""
        ended = self.run(*words, given=given)
        expect((ended.returncode, ended.stderr), (0, b""), " ".join(words))
        return ended.stdout


def packages():
    """Pairs as of a list of packages: names with a version, and a line of text."""
    drawn = random.Random(63)
    parts = ["lib", "python3-", "golang-", "ruby-", "fonts-", "node-", "", "r-cran-"]
    stems = ["%s%s" % (a, b) for a in ("foo", "net", "x11", "gtk", "data", "geo", "z", "qt5") for b in ("core", "utils", "tools", "io", "", "++")]
    pairs = {}
    while len(pairs) < PACKAGES:
        number = len(pairs)
        key = "%s%s-%d" % (drawn.choice(parts), drawn.choice(stems), number)
        pairs[key.encode()] = ("%d.%d-%d%s; %s" % (number % 9, number % 23, number % 5, "~é"[number % 2], "x" * drawn.randrange(200))).encode()
    return pairs


def any_bytes():
    """Pairs of any bytes, those among them that an escape could take for its own."""
    drawn = random.Random(7)
    odd = [b"0x", b"0x00", b"0X00", b"\\", b"\\\\", b"\\00", b" ", b"\t", b"\n", b"\r", b"\r\n", b"\x00", b"\xff", b"#", b"=", b"DATA=END", b"\x7f", b"\xc2\x80"]
    pairs = {key: value for key in odd for value in odd}
    pairs.update((key + tail, tail + key) for key in odd for tail in odd)
    pairs.update((bytes([byte]), bytes([byte]) * 512) for byte in range(256))
    for _ in range(2000):
        pairs[drawn.randbytes(drawn.randrange(1, 129))] = drawn.randbytes(drawn.randrange(513))
        pairs[b"0x" + drawn.randbytes(drawn.randrange(127))] = b"0x" + drawn.randbytes(drawn.randrange(511))
    return pairs


def raw_words(program):
    """Words that are their own bytes go in as these: any but a tab of a key and an end of line."""
    pairs = {key: value for key, value in any_bytes().items() if b"\t" not in key and b"\n" not in key + value and not value.endswith(b"\r")}
    lines = b"".join(b"%s\t%s\n" % pair for pair in pairs.items())
    expect(program.do("import", "--dir", "raw", "--raw", given=lines), b"imported %d\n" % len(pairs), "import --raw")
    expect(program.do("list", "--dir", "raw", "--hex"), in_hex(pairs), "list of raw words")


def forgotten(program):
    """What a script's history forgot, if segments were given up, and what it has are all records of the run."""
    script = b"".join(b"put 0 k%d %s\nflush\n" % (number % 7, b"v" * 100) for number in range(1500)) + b"history\nsettle\n"
    words = ["--take", "--segments=2", "--capacity=65560", "--m=4", "--most-segments=3"]
    ended = program.run("replay", "--dir", "forgetful", *words, given=script)
    expect(ended.returncode, 0, "replay")
    lines = ended.stdout.split(b"\n")
    at = next(number for number, line in enumerate(lines) if line.startswith(b"forgotten "))
    lost, kept = int(lines[at].split()[1]), int(lines[at + 1].removeprefix(b"history "))
    expect(lines[at + 2 + kept : -1], [b"settled %d" % (lost + kept)], "what stands behind the history")
    expect((lost + kept, lost > 0), (1500, True), "all records, and some that were forgotten")
    expect(lines[at + 2 + kept - 1], b"0 put k%d %s" % (1499 % 7, b"v" * 100), "the last record")


def in_hex(pairs):
    return b"".join(b"0x%s\t0x%s\n" % (key.hex().encode(), pairs[key].hex().encode()) for key in sorted(pairs))


def as_dump(pairs):
    data = b"".join(b" %s\n %s\n" % (key.hex().encode(), value.hex().encode()) for key, value in pairs.items())
    return b"VERSION=3\nformat=bytevalue\ntype=btree\nHEADER=END\n%sDATA=END\n" % data


def pipes(program, pairs):
    """Pairs go in by lines and by dumps, and out again in each form."""
    lines = in_hex(pairs)
    expect(program.do("import", "--dir", "by-lines", given=lines), b"imported %d\n" % len(pairs), "import")
    expect(program.do("import", "--dir", "by-dump", "--format", "dump", given=as_dump(pairs)), b"imported %d\n" % len(pairs), "import")
    for folder in ("by-lines", "by-dump"):
        expect(program.do("count", "--dir", folder), b"%d\n" % len(pairs), "count")
        expect(program.do("list", "--dir", folder, "--hex"), lines, "list")
        back = b"".join(reversed(lines.splitlines(True)))
        expect(program.do("list", "--dir", folder, "--hex", "--reverse"), back, "list --reverse")
    written = program.do("export", "--dir", "by-lines")
    for number, form in enumerate(("lines", "dump", "print")):
        folder = "again-%d" % number
        taken = program.do("export", "--dir", "by-lines", "--format", form)
        read = "lines" if form == "lines" else "dump"
        program.do("import", "--dir", folder, "--format", read, given=taken)
        expect(program.do("export", "--dir", folder), written, "export --format %s and back" % form)
    for key in random.Random(5).sample(sorted(pairs), 20):
        expect(program.do("get", "--dir", "by-lines", "--raw", "0x" + key.hex()), pairs[key], "get")


def as_member(name, word):
    """A member of an object: a text, or base64 if the bytes are no UTF-8."""
    try:
        return {name: word.decode()}
    except UnicodeDecodeError:
        return {name + "_base64": base64.b64encode(word).decode()}


def from_object(line):
    found = json.loads(line)
    read = {name.removesuffix("_base64"): base64.b64decode(text, validate=True) if name.endswith("_base64") else text.encode() for name, text in found.items()}
    expect((set(read), len(found)), ({"key", "value"}, 2), "the members of an object")
    return read["key"], read["value"]


def through_json(program, pairs):
    """What goes out as JSON is that for Python's json, and what that writes comes in."""
    out = program.do("export", "--dir", "by-lines", "--format", "json")
    expect([from_object(line) for line in out.split(b"\n")[:-1]], sorted(pairs.items()), "an export of JSON")
    for number, is_ascii in enumerate((False, True)):
        lines = [json.dumps({**as_member("value", value), **as_member("key", key)}, ensure_ascii=is_ascii) for key, value in pairs.items()]
        given = "".join(line + "\n" for line in lines if len(line.encode()) <= 4096).encode()
        taken = {key: pairs[key] for line, key in zip(lines, pairs) if len(line.encode()) <= 4096}
        folder = "by-json-%d" % number
        expect(program.do("import", "--dir", folder, "--format", "json", given=given), b"imported %d\n" % len(taken), "import of JSON")
        expect(program.do("list", "--dir", folder, "--hex"), in_hex(taken), "what came in as JSON")
        shutil.rmtree(os.path.join(program.folder, folder))


def from_field(field):
    return bytes.fromhex(field[2:]) if field.startswith("0x") else field.encode()


def through_csv(program, pairs):
    """What goes out as CSV is that for Python's csv, and what that writes comes in: texts, between quotes if it likes."""
    out = program.do("export", "--dir", "by-lines", "--format", "csv").decode()
    expect([tuple(map(from_field, row)) for row in csv.reader(io.StringIO(out, newline=""))], sorted(pairs.items()), "an export of CSV")
    texts = {}
    for key, value in pairs.items():
        with contextlib.suppress(UnicodeDecodeError):
            if not (set(key) | set(value)) & {10, 13}:
                texts[key.decode()] = value.decode()
    for number, quoting in enumerate((csv.QUOTE_ALL, csv.QUOTE_MINIMAL)):
        chosen = {key: value for key, value in texts.items() if number == 0 or not (key.startswith("0x") or value.startswith("0x"))}
        given = io.StringIO(newline="")
        csv.writer(given, quoting=quoting).writerows(chosen.items())
        folder = "by-csv-%d" % number
        expect(program.do("import", "--dir", folder, "--format", "csv", given=given.getvalue().encode()), b"imported %d\n" % len(chosen), "import of CSV")
        wanted = {key.encode(): value.encode() for key, value in chosen.items()}
        expect(program.do("list", "--dir", folder, "--hex"), in_hex(wanted), "what came in as CSV")
        shutil.rmtree(os.path.join(program.folder, folder))


def tool(*words, given=b""):
    ended = subprocess.run(words, input=given, capture_output=True, check=False)
    expect((ended.returncode, ended.stderr), (0, b""), " ".join(words))
    return ended.stdout


def through_lmdb(program, pairs):
    """Pairs go to LMDB in both formats, and come back in both. (mdb_dump -p of LMDB 0.9 writes a backslash as it is, which mdb_load does not
    read either, so pairs with one come back as bytevalue.)"""
    plain = [] if any(b"\\" in key + value for key, value in pairs.items()) else ["-p"]
    if not shutil.which("mdb_load") or not shutil.which("mdb_dump"):
        return "not tried: mdb_load and mdb_dump are not installed (lmdb-utils)"
    written = program.do("export", "--dir", "by-lines")
    for form, flags in (("dump", []), ("print", plain)):
        other = os.path.join(program.folder, "lmdb-" + form)
        os.mkdir(other)
        tool("mdb_load", other, given=program.do("export", "--dir", "by-lines", "--format", form, "--mapsize", MAPSIZE))
        folder = "from-lmdb-" + form
        told = program.do("import", "--dir", folder, "--format", "dump", given=tool("mdb_dump", *flags, other))
        expect(told, b"imported %d\n" % len(pairs), "import of mdb_dump")
        expect(program.do("export", "--dir", folder), written, "through LMDB")
    return "%d pairs went to LMDB as bytevalue and as print, and came back%s" % (len(pairs), " as both" if plain else "")


def through_berkeley(program, pairs):
    """Pairs go to Berkeley DB in both forms, and come back."""
    if not shutil.which("db_load") or not shutil.which("db_dump"):
        return "not tried: db_load and db_dump are not installed (db-util)"
    written = program.do("export", "--dir", "by-lines")
    for form, flags in (("dump", []), ("print", ["-p"])):
        other = os.path.join(program.folder, "berkeley-%s.db" % form)
        tool("db_load", other, given=program.do("export", "--dir", "by-lines", "--format", form))
        folder = "from-berkeley-" + form
        told = program.do("import", "--dir", folder, "--format", "dump", given=tool("db_dump", *flags, other))
        expect(told, b"imported %d\n" % len(pairs), "import of db_dump")
        expect(program.do("export", "--dir", folder), written, "through Berkeley DB")
    return "%d pairs went to Berkeley DB and came back, as bytevalue and as print" % len(pairs)


def closed_pipe(program, words):
    """The first line of a list, of which nobody reads the rest."""
    with subprocess.Popen([program.path, *words], stdout=subprocess.PIPE, stderr=subprocess.PIPE, cwd=program.folder) as child:
        line = child.stdout.readline()
        child.stdout.close()
        told = child.stderr.read()
        expect((child.wait(timeout=60), told), (0, b""), " ".join(words) + " | head -1")
    return line


def closed_pipes(program):
    first = program.do("list", "--dir", "by-lines", "--limit", "1")
    expect(closed_pipe(program, ["list", "--dir", "by-lines"]), first, "the first line")
    expect(closed_pipe(program, ["export", "--dir", "by-lines", "--format", "dump"]), b"VERSION=3\n", "the first line")
    # Nobody reads from the beginning.
    end, other = os.pipe()
    os.close(end)
    for words in (["list"], ["count"], ["get", "k"], ["export"]):
        program.do("put", "--dir", "small", "k", "v")
        ended = subprocess.run([program.path, *words, "--dir", "small"], stdout=other, stderr=subprocess.PIPE, cwd=program.folder, check=False)
        expect((ended.returncode, ended.stderr), (0, b""), words[0] + " into a closed pipe")
    os.close(other)
    return "an output that nobody reads ends a run with status 0"


def updates(program):
    """Updates of a hundred keys, of more bytes than the segments have room for at the beginning."""
    rounds, value = 4000, b"v" * 400
    lines = b"".join(b"k%d\t%s%d\n" % (key, value, turn) for turn in range(rounds) for key in range(100))
    expect(program.do("import", "--dir", "updated", given=lines), b"imported %d\n" % (100 * rounds), "import")
    expect(program.do("count", "--dir", "updated"), b"100\n", "count")
    wanted = b"".join(b"k%d\t%s%d\n" % (key, value, rounds - 1) for key in sorted(range(100), key=str))
    expect(program.do("list", "--dir", "updated"), wanted, "list")
    files = [name for name in os.listdir(os.path.join(program.folder, "updated")) if name.endswith(".bw")]
    if len(files) > 5:
        raise Wrong("updates left %d segments" % len(files))
    return "%d updates of 100 keys, %d MB, stand in %d segments" % (100 * rounds, len(lines) // 1000000, len(files))


@contextlib.contextmanager
def small_disk(folder, size):
    """A disk of so many bytes, if this process may mount one; else nothing."""
    os.mkdir(folder)
    mounted = subprocess.run(["mount", "-t", "tmpfs", "-o", "size=%d" % size, "tmpfs", folder], capture_output=True, check=False).returncode == 0
    try:
        yield mounted
    finally:
        if mounted:
            subprocess.run(["umount", folder], check=True)


def full_disk(program):
    """An import into a disk that gets full is refused, what was durable before stays, and a put goes in once there is room."""
    folder = os.path.join(program.folder, "disk")
    with small_disk(folder, 4 << 20) as is_there:
        if not is_there:
            return "a full disk is not tried: a tmpfs cannot be mounted here"
        program.do("put", "--dir", "disk/store", "before", "there")
        lines = b"".join(b"k%06d\t%s\n" % (key, b"v" * 200) for key in range(50000))
        ended = program.run("import", "--dir", "disk/store", given=lines)
        expect((ended.returncode, ended.stdout), (4, b""), "import into a full disk")
        if b"is its disk full?" not in ended.stderr:
            raise Wrong("a full disk was told as %r" % ended.stderr)
        expect(program.do("get", "--dir", "disk/store", "before"), b"there\n", "get on a full disk")
        listed = program.do("list", "--dir", "disk/store", "--prefix", "k")
        # Keys that ascend go in a few pages at a time: some first lines, and some of the next 70.
        there, all_lines = listed.splitlines(), lines.splitlines()
        first = next((place for place, (one, other) in enumerate(zip(there, all_lines)) if one != other), len(there))
        if not first or not set(there[first:]) <= set(all_lines[first : first + 70]):
            raise Wrong("other pairs stand on a full disk than the first ones")
        durable = int(ended.stderr.split(b"imported ")[1].split()[0])
        if not 0 < durable <= listed.count(b"\n"):
            raise Wrong("%d pairs were told as durable on a full disk, and %d stand there" % (durable, listed.count(b"\n")))
        ended = program.run("put", "--dir", "disk/store", "behind", "v" * 500)
        told = "%d of 50000 pairs stand on a full disk, and a put there ends with status %d" % (listed.count(b"\n"), ended.returncode)
        subprocess.run(["mount", "-o", "remount,size=%d" % (16 << 20), folder], check=True)
        program.do("put", "--dir", "disk/store", "behind", "there")
        expect(program.do("get", "--dir", "disk/store", "behind"), b"there\n", "get with room again")
    return told


def served_on_a_full_disk(program):
    """`serve` on a disk that gets full: each put is refused from then on, and `reopen` goes on with all that was durable once there is room."""
    folder = os.path.join(program.folder, "small")
    with small_disk(folder, 4 << 20) as is_there:
        if not is_there:
            return "serve on a full disk is not tried: a tmpfs cannot be mounted here"
        words = [program.path, "serve", "--dir", "small/store"]
        with subprocess.Popen(words, stdin=subprocess.PIPE, stdout=subprocess.PIPE, cwd=program.folder) as child:

            def one(line):
                child.stdin.write(line.encode() + b"\n")
                child.stdin.flush()
                return child.stdout.readline().decode().rstrip("\n")

            expect(child.stdout.readline(), b"ready frame 0 protocol 1\n", "the first line")
            flushed = put = 0
            answer = ""
            while not answer.startswith("refused"):
                for key in range(put, put + 100):
                    expect(one("put k%06d %s" % (key, "v" * 500)), "ok", "put")
                put += 100
                answer = one("flush")
                if answer.startswith("frame "):
                    flushed, last = put, int(answer.split()[1])
            expect(answer, "refused E6 Device lease 0", "the flush that found the disk full")
            for line in ("put more 1", "del k000000", "group put a 1 del b", "flush"):
                expect(one(line), "refused E7 Failed", line)
            if "failed" not in one("stats").split():
                raise Wrong("stats does not say that the log failed")
            expect(one("get k000000"), "value " + "v" * 500, "get")
            subprocess.run(["mount", "-o", "remount,size=%d" % (16 << 20), folder], check=True)
            expect(one("reopen"), "reopened frame %d lost %d" % (last, put - flushed), "reopen")
            if "failed" in one("stats").split():
                raise Wrong("stats says that the log failed, and it was opened again")
            expect(one("count"), "count %d" % flushed, "how many pairs")
            expect(one("put more 1"), "ok", "a put behind it")
            expect(one("flush"), "frame %d" % (last + 1), "a flush behind it")
            expect(one("quit"), "bye", "quit")
            expect(child.wait(timeout=60), 4, "the status")
        expect(program.do("count", "--dir", "small/store"), b"%d\n" % (flushed + 1), "count in a further run")
    return "%d pairs stand on a full disk, %d behind them were told as lost, and serve went on" % (flushed, put - flushed)


# Run by an interpreter of its own: the greatest resident set of a process is never reported below that of the one that began it.
TIMED = """
import os, subprocess, sys, time
begun = time.monotonic()
child = subprocess.Popen(sys.argv[1:], stdout=subprocess.PIPE)
text = child.stdout.read()
sys.stdout.write("" if sys.argv[2] == "export" else text.decode())
_, status, usage = os.wait4(child.pid, 0)
figures = (time.monotonic() - begun, usage.ru_utime + usage.ru_stime, usage.ru_maxrss >> 10)
sys.stderr.write("%.1f s, %.1f s of the processor, %d MiB" % figures)
sys.exit(os.waitstatus_to_exitcode(status))
"""


def timed(program, *words, given=None):
    """What a run printed, how long it took, its processor time, and the memory that it touched at most."""
    words = [sys.executable, "-c", TIMED, program.path, *words]
    ended = subprocess.run(words, stdin=given, capture_output=True, cwd=program.folder, check=False)
    expect(ended.returncode, 0, " ".join(words[3:]))
    return ended.stdout, ended.stderr.decode()


def import_many(program, number):
    """So many pairs of 8 and 100 bytes, in a drawn order."""
    keys = list(range(number))
    random.Random(1).shuffle(keys)
    path = os.path.join(program.folder, "many.txt")
    with open(path, "wb") as file:
        file.writelines(b"%08d\t%s\n" % (key, b"v" * 100) for key in keys)
    with open(path, "rb") as file:
        printed, imported = timed(program, "import", "--dir", "many", given=file)
    expect(printed, b"imported %d\n" % number, "import")
    printed, counted = timed(program, "count", "--dir", "many")
    expect(printed, b"%d\n" % number, "count")
    _, got = timed(program, "get", "--dir", "many", "00000007")
    _, exported = timed(program, "export", "--dir", "many")
    return "%d pairs of 108 bytes: import %s; count %s; get %s; export %s" % (number, imported, counted, got, exported)


def main():
    path = sys.argv[1] if len(sys.argv) > 1 else BUILT
    number = int(sys.argv[2]) if len(sys.argv) > 2 else 1000000
    if not os.path.isfile(path):
        print("there is no program: make run builds it")
        return 1
    resource.setrlimit(resource.RLIMIT_CORE, (0, 0))
    sets = {"packages": packages(), "any bytes": any_bytes()}
    try:
        for name, pairs in sets.items():
            with tempfile.TemporaryDirectory() as folder:
                program = Program(path, folder)
                pipes(program, pairs)
                through_json(program, pairs)
                through_csv(program, pairs)
                print("%s: %d pairs go in and out" % (name, len(pairs)))
                print(through_lmdb(program, pairs))
                print(through_berkeley(program, pairs))
                print(closed_pipes(program))
        with tempfile.TemporaryDirectory() as folder:
            program = Program(path, folder)
            raw_words(program)
            forgotten(program)
            for told in (updates(program), full_disk(program), served_on_a_full_disk(program), import_many(program, number)):
                print(told)
    except Wrong as wrong:
        print(wrong)
        return 1
    return 0


sys.exit(main())
