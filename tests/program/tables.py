#!/usr/bin/env python3
"""The commands of `bwlog` on tables: `tables`, and `--table` of put, get, del, list, count, import and export.

    tables.py [PROGRAM] [--full]

Without a program it takes the one that `make run` leaves. Each command answers in so many words; values of each length go in and come
out byte for byte; so do 3,000 pairs with values to 64 KiB, 300,000 with --full, in each format, and the databases of a dump, also through
LMDB and Berkeley DB if `mdb_load`, `mdb_dump`, `db_load` and `db_dump` are installed. An import is killed at moments that are drawn, and
the folder then opens and has whole calls only. Long values that are put over and over want no more segments than a few. With --full a
log gets full, too. What is not tried is said."""

import base64
import csv
import io
import json
import os
import random
import shutil
import signal
import subprocess
import sys
import tempfile
import time

from checks import BUILT, FAST, Wrong, ask, expect

MOST = 16777216
MAPSIZE = str(1 << 30)


class Program:
    """The program, and the folder in which its stores stand."""

    def __init__(self, path, folder):
        self.path, self.folder = os.path.abspath(path), folder

    def run(self, *words, given=b""):
        return subprocess.run([self.path, *words], input=given, capture_output=True, cwd=self.folder, check=False)

    def do(self, *words, given=b""):
        """What it prints, once it ended well with nothing on standard error."""
        ended = self.run(*words, given=given)
        expect((ended.returncode, ended.stderr), (0, b""), " ".join(words))
        return ended.stdout

    def says(self, words, status=0, prints="", tells="", given=b""):
        """It ends so, prints that, and has this on standard error."""
        ended = self.run(*words, given=given)
        found = (ended.returncode, ended.stdout.decode(), ended.stderr.decode())
        expect(found, (status, prints, tells), " ".join(words))

    def refuses(self, words, line):
        """The command line is none, and this is the first line that says so."""
        ended = self.run(*words)
        expect((ended.returncode, ended.stdout, ended.stderr.decode().split("\n")[0]), (2, b"", line), " ".join(words))

    def segments(self, name):
        """How many files of a folder have bytes."""
        folder = os.path.join(self.folder, name)
        return sum(1 for file in os.listdir(folder) if file.startswith("segment") and os.path.getsize(os.path.join(folder, file)) > 0)


# ---- words and statuses

NO_TABLE = "folder T: no table has this name: bwlog tables --create makes one\n"


def make_and_drop(program):
    """Tables come, are named in the order of their bytes, and go."""
    says = program.says
    says(["tables", "--dir", "T"], 6, tells="folder T: No such file or directory (os error 2)\n")
    says(["put", "--dir", "T", "--table", "users", "k", "v"], 6, tells="folder T: No such file or directory (os error 2)\n")
    ask(not os.path.exists(os.path.join(program.folder, "T")), "a folder was made")
    says(["tables", "--dir", "T", "--create", "users"])
    says(["tables", "--dir", "T"], prints="users\n")
    says(["tables", "--dir", "T", "--create", "users"], 4, tells="folder T: a table has this name already\n")
    for name in ("user", "users2", "0xff00", "a b", "0x" + "61" * 127):
        says(["tables", "--dir", "T", "--create", name])
    says(["tables", "--dir", "T"], prints="a b\n%s\nuser\nusers\nusers2\n0xff00\n" % ("a" * 127))
    says(["tables", "--dir", "T", "--drop", "a b"])
    says(["tables", "--dir", "T", "--drop", "a" * 127])
    says(["tables", "--dir", "T", "--drop", "a b"], 4, tells=NO_TABLE)
    says(["tables", "--dir", "T"], prints="user\nusers\nusers2\n0xff00\n")
    for name in ("", "0x", "0x" + "61" * 128):
        says(["tables", "--dir", "T", "--create", name], 2, tells="error: NAME: a name of a table has 1 to 127 bytes\n")
    says(["tables", "--dir", "T", "--create", "0xf"], 2, tells="error: NAME: bad hex\n")


def put_and_get(program):
    """Values come and go in the table that is named, and in no other."""
    says = program.says
    says(["put", "--dir", "T", "--table", "users", "k", "hello"])
    says(["get", "--dir", "T", "--table", "users", "k"], prints="hello\n")
    says(["get", "--dir", "T", "--table", "users", "k", "--raw"], prints="hello")
    says(["get", "--dir", "T", "--table", "users", "k", "--hex"], prints="0x68656c6c6f\n")
    says(["get", "--dir", "T", "--table", "user", "k"], 1)
    says(["get", "--dir", "T", "--table", "users2", "k"], 1)
    says(["put", "--dir", "T", "--table", "user", "k", "other"])
    says(["get", "--dir", "T", "--table", "users", "k"], prints="hello\n")
    says(["put", "--dir", "T", "--table", "users", "0x00ff", "0x"])
    says(["put", "--dir", "T", "--table", "users", "0x78", "0x78", "--raw"])
    says(["get", "--dir", "T", "--table", "users", "0x30783738"], prints="0x30783738\n")
    says(["get", "--dir", "T", "--table", "users", "k", "none", "0x00ff", "other"], 1, "hello\n\n", "no value: none\nno value: other\n")
    says(["list", "--dir", "T", "--table", "users"], prints="0x00ff\t\n0x30783738\t0x30783738\nk\thello\n")
    says(["list", "--dir", "T", "--table", "users", "--keys"], prints="0x00ff\n0x30783738\nk\n")
    says(["list", "--dir", "T", "--table", "users", "--values"], prints="\n0x30783738\nhello\n")
    says(["list", "--dir", "T", "--table", "users", "--limit", "1"], prints="0x00ff\t\n")
    says(["list", "--dir", "T", "--table", "users", "--from", "0x01", "--to", "k"], prints="0x30783738\t0x30783738\n")
    says(["list", "--dir", "T", "--table", "users", "--prefix", "k"], prints="k\thello\n")
    says(["list", "--dir", "T", "--table", "users", "--prefix", "k", "--format", "json"], prints='{"key":"k","value":"hello"}\n')
    says(["list", "--dir", "T", "--table", "users", "--format", "csv"], prints="0x00ff,\n0x30783738,0x30783738\nk,hello\n")
    says(["count", "--dir", "T", "--table", "users"], prints="3\n")
    says(["count", "--dir", "T", "--table", "users", "--prefix", "k"], prints="1\n")
    says(["count", "--dir", "T", "--table", "users2"], prints="0\n")
    says(["list", "--dir", "T", "--table", "users2"])
    says(["del", "--dir", "T", "--table", "users", "k"])
    says(["del", "--dir", "T", "--table", "users", "k"])
    says(["del", "--dir", "T", "--table", "users", "k", "0x00ff", "none"], prints="deleted 1\n")
    says(["del", "--dir", "T", "--table", "users", "--from", "0x30"], prints="deleted 1\n")
    says(["count", "--dir", "T", "--table", "users"], prints="0\n")
    says(["get", "--dir", "T", "--table", "user", "k"], prints="other\n")


def refusals(program):
    """What is not there, what is too long, and which options go with no table."""
    says = program.says
    for words in (["put", "k", "v"], ["get", "k"], ["get", "k", "l"], ["list"], ["count"], ["export"]):
        says([words[0], "--dir", "T", "--table", "none", *words[1:]], 4, tells=NO_TABLE)
    says(["del", "--dir", "T", "--table", "none", "k"], 4, tells=NO_TABLE)
    says(["import", "--dir", "T", "--table", "none", "--delete"], 4, tells=NO_TABLE, given=b"k\n")
    key = "0x" + "61" * 125
    says(["put", "--dir", "T", "--table", "users", key, "v"], 2, tells="error: KEY: a key of a table has 1 to 124 bytes\n")
    says(["get", "--dir", "T", "--table", "users", ""], 2, tells="error: KEY: a key of a table has 1 to 124 bytes\n")
    says(["list", "--dir", "T", "--table", "users", "--from", key], 2, tells="error: --from: a key of a table has 1 to 124 bytes\n")
    says(["put", "--dir", "T", "--table", "users", "k", "0x1"], 2, tells="error: VALUE: bad hex\n")
    says(["put", "--dir", "T", "--table", "users", "k", "-"], 2, tells="error: VALUE: a value of a table has 0 to 16777216 bytes\n", given=bytes(MOST + 1))
    says(["import", "--dir", "T", "--table", "users"], 3, tells="line 2: no tab behind a key\nimported 1 before that, which are durable\n", given=b"a\tb\nc\n")
    says(["get", "--dir", "T", "--table", "users", "a"], prints="b\n")
    says(["del", "--dir", "T", "--table", "users", "a"])
    program.refuses(["list", "--dir", "T", "--table", "users", "--reverse"], "error: the argument '--table <NAME>' cannot be used with '--reverse'")
    program.refuses(["list", "--dir", "T", "--table", "users", "--last", "1"], "error: the argument '--table <NAME>' cannot be used with '--last <NUMBER>'")
    program.refuses(["import", "--dir", "T", "--table", "users", "--dry-run"], "error: the argument '--table <NAME>' cannot be used with '--dry-run'")
    program.refuses(["import", "--dir", "T", "--table", "users", "--named"], "error: the argument '--table <NAME>' cannot be used with '--named'")
    program.refuses(["export", "--dir", "T", "--named", "--prefix", "a"], "error: the argument '--named' cannot be used with '--prefix <BYTES>'")
    program.refuses(["tables", "--dir", "T", "--create", "a", "--drop", "b"], "error: the argument '--create <NAME>' cannot be used with '--drop <NAME>'")
    says(["import", "--dir", "T", "--named"], 2, tells="error: --named: only --format dump and print have names\n")
    says(["export", "--dir", "T", "--named", "--format", "csv"], 2, tells="error: --named: only --format dump and print have names\n")


def apart(program):
    """A folder of tables takes no plain pair, and one of plain pairs no table."""
    says = program.says
    tells = "folder T: it has tables: --table says which one is meant\n"
    says(["put", "--dir", "T", "k", "v"], 4, tells=tells)
    says(["del", "--dir", "T", "0x00"], 4, tells=tells)
    says(["del", "--dir", "T", "--prefix", ""], 4, tells=tells)
    says(["import", "--dir", "T"], 4, tells=tells, given=b"k\tv\n")
    says(["import", "--dir", "T", "--dry-run"], 4, tells=tells, given=b"k\tv\n")
    says(["import", "--dir", "T", "--delete"], 4, tells=tells, given=b"k\n")
    says(["get", "--dir", "T", "k"], 1)
    # Who looks at the pairs of the store sees the mark and the names of the tables.
    says(["get", "--dir", "T", "0x00"], prints="\n")
    says(["list", "--dir", "T", "--prefix", "0x01", "--keys"], prints="0x0175736572\n0x017573657273\n0x01757365727332\n0x01ff00\n")
    says(["put", "--dir", "P", "k", "v"])
    tells = "folder P: it has pairs that are no table's\n"
    says(["tables", "--dir", "P", "--create", "t"], 4, tells=tells)
    says(["tables", "--dir", "P"], 4, tells=tells)
    says(["put", "--dir", "P", "--table", "t", "k", "v"], 4, tells=tells)
    says(["import", "--dir", "P", "--table", "t"], 4, tells=tells, given=b"k\tv\n")
    says(["list", "--dir", "P"], prints="k\tv\n")
    # One without a pair may become either.
    says(["del", "--dir", "P", "k"])
    says(["tables", "--dir", "P"])
    says(["tables", "--dir", "P", "--create", "t"])
    says(["put", "--dir", "P", "--table", "t", "k", "v"])
    says(["put", "--dir", "P", "k", "v"], 4, tells="folder P: it has tables: --table says which one is meant\n")


# ---- values of each length


def lengths(program):
    """Values of each length, at each edge of a chunk, come out as they went in, also over longer and shorter ones."""
    drawn = random.Random(85)
    counts = [0, 1, 511, 512, 513, 1023, 1024, 1025, 2048, 70000, 200000]
    program.do("tables", "--dir", "L", "--create", "t")
    for count in counts:
        value = drawn.randbytes(count)
        program.do("put", "--dir", "L", "--table", "t", "k%d" % count, "-", given=value)
        ask(program.do("get", "--dir", "L", "--table", "t", "k%d" % count, "--raw") == value, "a value of", count)
    for old, new in ((70000, 0), (0, 70000), (1025, 1024), (512, 511), (511, 512), (200000, 1)):
        value = drawn.randbytes(new)
        program.do("put", "--dir", "L", "--table", "t", "k%d" % old, "-", given=value)
        ask(program.do("get", "--dir", "L", "--table", "t", "k%d" % old, "--raw") == value, "a value of", new, "over one of", old)
    expect(program.do("count", "--dir", "L", "--table", "t"), b"%d\n" % len(counts), "count")
    expect(program.do("list", "--dir", "L", "--table", "t", "--keys"), b"".join(b"k%d\n" % it for it in sorted(counts, key=str)), "keys")
    # What the old values had is free: no chunk is left but those of values that stand.
    chunks = program.do("count", "--dir", "L", "--prefix", "0x07")
    left = [70000, 512, 513, 1023, 1024, 1024, 2048]
    expect(chunks, b"%d\n" % sum((it + 511) // 512 for it in left), "chunks")
    program.do("tables", "--dir", "L", "--drop", "t")
    rest = program.do("list", "--dir", "L", "--keys", "--hex").split()
    ask(all(it == b"0x00" or it.startswith(b"0x04") for it in rest), "behind a drop stand", rest[:5])
    # The longest value, and one byte less.
    program.do("tables", "--dir", "L", "--create", "long")
    for count in (MOST - 1, MOST):
        value = drawn.randbytes(count)
        program.do("put", "--dir", "L", "--table", "long", "k%d" % count, "-", given=value)
        ask(program.do("get", "--dir", "L", "--table", "long", "k%d" % count, "--raw") == value, "a value of", count)


# ---- whole sets


def pairs_of(number):
    """So many pairs of any bytes; some values are long, to 64 KiB, but most are short."""
    drawn = random.Random(number)
    pairs = {}
    while len(pairs) < number:
        key = drawn.randbytes(drawn.randrange(1, 125)) if drawn.random() < 0.5 else b"key %d" % len(pairs)
        top = drawn.choice([8, 100, 511, 512, 513, 600, 2000]) if drawn.random() < 0.98 else 65536
        pairs[key] = drawn.randbytes(drawn.randrange(top + 1)) if drawn.random() < 0.5 else b"text %d \\ \" , \xc3\xa9 " % len(pairs) * (top // 40)
    return pairs


def dump_of(pairs, name=None, mapsize=None):
    """A dump of these, as `mdb_dump` writes it."""
    lines = [b"VERSION=3", b"format=bytevalue"]
    if name is not None:
        lines.append(b"database=" + name)
    lines.append(b"type=btree")
    if mapsize is not None:
        lines.append(b"mapsize=" + mapsize.encode())
    lines.append(b"HEADER=END")
    for key in sorted(pairs):
        lines += [b" " + key.hex().encode(), b" " + pairs[key].hex().encode()]
    return b"\n".join(lines + [b"DATA=END", b""])


def printed(data):
    """Bytes as `db_dump -p` prints them."""
    return b"".join(bytes([it]) if 0x20 <= it <= 0x7E and it != 0x5C else b"\\%02x" % it for it in data)


def print_of(pairs, name=None):
    lines = [b"VERSION=3", b"format=print"]
    if name is not None:
        lines.append(b"database=" + printed(name))
    lines += [b"type=btree", b"HEADER=END"]
    for key in sorted(pairs):
        lines += [b" " + printed(key), b" " + printed(pairs[key])]
    return b"\n".join(lines + [b"DATA=END", b""])


def whole(program, number):
    """A dump goes in and comes out byte for byte."""
    pairs = pairs_of(number)
    dump = dump_of(pairs)
    began = time.time()
    expect(program.do("import", "--dir", "W", "--table", "all", "--format", "dump", given=dump), b"imported %d\n" % number, "import")
    took = time.time() - began
    ask(program.do("export", "--dir", "W", "--table", "all", "--format", "dump") == dump, "the dump of", number, "pairs")
    ask(program.do("export", "--dir", "W", "--table", "all", "--format", "print") == print_of(pairs), "the printed dump")
    expect(program.do("count", "--dir", "W", "--table", "all"), b"%d\n" % number, "count")
    return pairs, dump, took


def formats(program, pairs, dump):
    """Each format goes out and comes in again, and Python's own modules read it."""
    for name, more in (("lines", []), ("json", ["--format", "json"]), ("csv", ["--format", "csv"]), ("print", ["--format", "print"])):
        text = program.do("export", "--dir", "W", "--table", "all", *more)
        back = ["--format", "dump"] if name == "print" else more
        expect(program.do("import", "--dir", "F", "--table", name, *back, given=text), b"imported %d\n" % len(pairs), name)
        ask(program.do("export", "--dir", "F", "--table", name, "--format", "dump") == dump, name)
    read = {}
    for line in program.do("export", "--dir", "W", "--table", "all", "--format", "json").splitlines():
        it = json.loads(line)
        key, value = (it[what].encode() if what in it else base64.b64decode(it[what + "_base64"], validate=True) for what in ("key", "value"))
        read[key] = value
    ask(read == pairs, "JSON by Python")
    text = program.do("export", "--dir", "W", "--table", "all", "--format", "csv").decode()
    csv.field_size_limit(1 << 20)
    fields = [[bytes.fromhex(it[2:]) if it.startswith("0x") else it.encode() for it in row] for row in csv.reader(io.StringIO(text, newline=""))]
    ask(len(fields) == len(pairs) and all(len(row) == 2 for row in fields), "CSV by Python")
    expect(program.do("tables", "--dir", "F"), b"csv\njson\nlines\nprint\n", "names")


def effects(program):
    """Imports that only add, delete, or read over what is no pair."""
    program.do("import", "--dir", "E", "--table", "t", given=b"a\t1\nb\t2\n")
    expect(program.do("import", "--dir", "E", "--table", "t", "--keep-old", given=b"b\t3\nc\t4\n"), b"imported 1 kept 1\n", "kept")
    expect(program.do("list", "--dir", "E", "--table", "t"), b"a\t1\nb\t2\nc\t4\n", "list")
    expect(program.do("import", "--dir", "E", "--table", "t", "--delete", given=b"a\nd\nc\tx\n"), b"deleted 2 missing 1\n", "deleted")
    program.says(
        ["import", "--dir", "E", "--table", "t", "--skip"], prints="imported 2\n", tells="skipped 2, the first at line 1: no tab behind a key\n", given=b"x\nb\t5\n%s\tv\ny\t\n" % (b"k" * 125)
    )
    expect(program.do("list", "--dir", "E", "--table", "t"), b"b\t5\ny\t\n", "list")
    expect(program.do("import", "--dir", "E", "--table", "raw", "--raw", given=b"0x61\t0x62\n"), b"imported 1\n", "raw")
    expect(program.do("list", "--dir", "E", "--table", "raw"), b"0x30783631\t0x30783632\n", "raw")


def named(program):
    """The databases of a dump go into tables of their names, and come out as they were."""
    sets = {b"a": {b"k": b"v" * 3000}, b"ab": {}, b"b \\ c": {b"x": b"", b"y": b"2"}, b"\xff\x01": {bytes([it]): bytes([it]) * 600 for it in range(256)}}
    spelled = {name: printed(name) for name in sets}
    dump = b"".join(dump_of(sets[name], spelled[name]) for name in sorted(sets))
    expect(program.do("import", "--dir", "N", "--format", "dump", "--named", given=dump), b"imported 259\n", "import")
    expect(program.do("tables", "--dir", "N"), b"a\nab\nb \\ c\n0xff01\n", "names")
    ask(program.do("export", "--dir", "N", "--format", "dump", "--named") == dump, "the named dump")
    ask(program.do("export", "--dir", "N", "--format", "print", "--named") == b"".join(print_of(sets[name], name) for name in sorted(sets)), "the named print")
    # Once more over what is there; a backslash that is no escape is that of LMDB, which writes names as they are.
    expect(program.do("import", "--dir", "N", "--format", "dump", "--named", given=dump + dump_of({b"k": b"v"}, b"l\\m")), b"imported 260\n", "again")
    expect(program.do("get", "--dir", "N", "--table", "l\\m", "k"), b"v\n", "a name with a backslash")
    program.says(["import", "--dir", "N", "--format", "dump", "--named"], 3, tells="line 4: a database without a name\n", given=dump_of({b"k": b"v"}))
    program.says(
        ["import", "--dir", "N", "--table", "a", "--format", "dump"], 3, tells="line 9: a second database in one dump\nimported 1 before that, which are durable\n",
        given=dump_of({b"k": b"v"}, b"a") + dump_of({b"k": b"v"}, b"b"),
    )


def others(program):
    """All tables go to LMDB and to Berkeley DB and come back."""
    tried = []
    dump = program.do("export", "--dir", "N", "--format", "dump", "--named", "--mapsize", MAPSIZE)
    if shutil.which("mdb_load") and shutil.which("mdb_dump"):
        # LMDB takes the names as the bytes of their line.
        subprocess.run(["mdb_load", "-n", "-f", "/dev/stdin", "lmdb"], input=dump, cwd=program.folder, check=True)
        back = subprocess.run(["mdb_dump", "-n", "-a", "lmdb"], capture_output=True, cwd=program.folder, check=True).stdout
        program.do("import", "--dir", "M", "--format", "dump", "--named", given=back)
        ask(program.do("export", "--dir", "M", "--format", "dump", "--named") == program.do("export", "--dir", "N", "--format", "dump", "--named"), "LMDB")
        tried.append("LMDB")
    if shutil.which("db_load") and shutil.which("db_dump"):
        plain = program.do("export", "--dir", "N", "--format", "dump", "--named")
        subprocess.run(["db_load", "other.db"], input=plain, cwd=program.folder, check=True)
        back = subprocess.run(["db_dump", "other.db"], capture_output=True, cwd=program.folder, check=True).stdout
        program.do("import", "--dir", "B", "--format", "dump", "--named", given=back)
        ask(program.do("export", "--dir", "B", "--format", "dump", "--named") == plain, "Berkeley DB")
        tried.append("Berkeley DB")
    return tried


# ---- a log that grows, and stops


def over_and_over(program):
    """Long values that take each other's place want few segments, and small segments enough of them."""
    drawn = random.Random(3)
    value = drawn.randbytes(150000)
    lines = b"".join(b"k%d\t0x%s\n" % (it % 3, (value[it:] + value[:it]).hex().encode()) for it in range(100))
    expect(program.do("import", "--dir", "O", "--table", "t", given=lines), b"imported 100\n", "over and over")
    for it in (97, 98, 99):
        ask(program.do("get", "--dir", "O", "--table", "t", "k%d" % (it % 3), "--raw") == value[it:] + value[:it], "value", it)
    many = program.segments("O")
    ask(many <= 12, many, "segments for three values of 150,000 bytes")
    lines = b"".join(b"k%d\t0x%s\n" % (it, (value[it:] + value[:it]).hex().encode()) for it in range(12))
    expect(program.do("import", "--dir", "S", "--table", "t", "--capacity", "65560", given=lines), b"imported 12\n", "small segments")
    for it in (0, 11):
        ask(program.do("get", "--dir", "S", "--table", "t", "k%d" % it, "--raw") == value[it:] + value[:it], "value", it)
    program.do("tables", "--dir", "S", "--drop", "t")
    expect(program.do("count", "--dir", "S", "--prefix", "0x07"), b"0\n", "chunks behind a drop")
    return many


def in_proportion(program):
    """Four times as many rows, or a value four times as long, go away in less than ten times as much time of the processor."""
    took = []
    for number in (8000, 32000):
        program.do("import", "--dir", "R", "--table", "rows", given=b"".join(b"%07d\tv\n" % it for it in range(number)))
        program.do("put", "--dir", "R", "--table", "rows", "long", "-", given=bytes(number * 128))
        before = os.times().children_user
        program.do("tables", "--dir", "R", "--drop", "rows")
        took.append(os.times().children_user - before)
    ask(took[1] < 10 * max(took[0], 0.05), "a drop took", took)


def filled(program):
    """A log that gets full ends an import, which says how many pairs are durable; deletes then go, and puts after them."""
    lines = b"".join(b"k%03d\t%s\n" % (it, b"v" * 1000000) for it in range(220))
    ended = program.run("import", "--dir", "U", "--table", "t", "--capacity", "65560", given=lines)
    tells = ended.stderr.decode().split("\n")
    count = int(tells[2].split(" ")[1])
    expect((ended.returncode, ended.stdout, tells[:3]), (4, b"", ["refused E5 NoSegment", "folder U: the log is full, with segments 4096", "imported %d before that, which are durable" % count]), "full")
    expect(program.do("count", "--dir", "U", "--table", "t"), b"%d\n" % count, "count in a full log")
    expect(program.do("del", "--dir", "U", "--table", "t", "--prefix", "k05"), b"deleted 10\n", "deletes in a full log")
    program.do("put", "--dir", "U", "--table", "t", "long", "-", given=b"w" * 1000000)
    ask(program.do("get", "--dir", "U", "--table", "t", "k%03d" % (count - 1), "--raw") == b"v" * 1000000, "the last value of a full log")
    ask(program.do("get", "--dir", "U", "--table", "t", "long", "--raw") == b"w" * 1000000, "a value behind the deletes")


def killed(program, rounds):
    """Behind a kill in an import the folder opens, and its table has the first pairs of the input, whole, and no other."""
    drawn = random.Random(9)
    wanted = [(b"%06d" % it, drawn.randbytes(drawn.choice([0, 100, 511, 512, 3000, 40000]))) for it in range(1500)]
    text = b"".join(b"%s\t0x%s\n" % (key, value.hex().encode()) for key, value in wanted)
    most = 0
    for number in range(rounds):
        folder = "K%d" % number
        child = subprocess.Popen([program.path, "import", "--dir", folder, "--table", "t"], stdin=subprocess.PIPE, stdout=subprocess.DEVNULL, stderr=subprocess.DEVNULL, cwd=program.folder)
        cut = drawn.randrange(len(text) // 20, len(text))
        try:
            child.stdin.write(text[:cut])
            child.stdin.flush()
        except BrokenPipeError:
            raise Wrong("the import ended by itself")
        child.send_signal(signal.SIGKILL)
        child.wait()
        child.stdin.close()
        ended = program.run("export", "--dir", folder, "--table", "t", "--format", "dump")
        if ended.returncode != 0:
            # The table itself was not durable.
            ask(ended.returncode in (4, 6) and ended.stdout == b"", "export ended", ended.returncode, ended.stderr)
            continue
        lines = ended.stdout.split(b"\n")
        data = [bytes.fromhex(it[1:].decode()) for it in lines[lines.index(b"HEADER=END") + 1 : -2]]
        found = list(zip(data[::2], data[1::2]))
        ask(found == wanted[: len(found)], "round", number, "found", len(found), "pairs")
        most = max(most, len(found))
        # Whoever goes on finds nothing half done.
        program.do("put", "--dir", folder, "--table", "t", "next", "v")
        left = program.do("list", "--dir", folder, "--keys", "--hex", "--from", "0x02", "--to", "0x04")
        expect(left, b"", "what is left half done")
        shutil.rmtree(os.path.join(program.folder, folder))
    ask(most > 0, "no pair was durable in any round")
    return most


def main():
    words = [it for it in sys.argv[1:] if it != "--full"]
    is_full = "--full" in sys.argv
    with tempfile.TemporaryDirectory(dir=FAST) as folder:
        program = Program(words[0] if words else BUILT, folder)
        make_and_drop(program)
        put_and_get(program)
        refusals(program)
        apart(program)
        lengths(program)
        pairs, dump, took = whole(program, 300000 if is_full else 3000)
        print("tables: %d pairs, %.1f MB as a dump, imported in %.1f s" % (len(pairs), len(dump) / 1e6, took), flush=True)
        formats(program, pairs, dump)
        effects(program)
        named(program)
        tried = others(program)
        in_proportion(program)
        many = over_and_over(program)
        if is_full:
            filled(program)
        most = killed(program, 40 if is_full else 5)
        print("tables: %d segments over and over, up to %d pairs behind a kill; %s" % (many, most, " and ".join(tried) or "LMDB and Berkeley DB are not installed"))


if __name__ == "__main__":
    try:
        main()
    except Wrong as wrong:
        sys.exit("tables: %s" % wrong)
