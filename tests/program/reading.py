#!/usr/bin/env python3
"""Folders that the built program made, each read back in the process of a C, a Python and a Rust program, beside a map.

    reading.py

It needs `make run` and `make lib`. Folders are made by `import` and by `serve`: keys of 1 and 128 bytes and values of 0 and 512 among
others, keys that begin one another, deletes and groups, cleanings, one pair, none, a cut tail. Of each folder every key is asked for,
absent keys, the first pair at or above each, and walks of prefixes; C is compiled as C11 and as C++14, with a sanitizer if there is
one, and run under valgrind if it is there; Rust if cargo is there. Refused have to be: a folder that is not there, has no store,
has other files, or has one byte changed; and each allocation of an opening is refused in turn. Folders that `serve` writes meanwhile are
read as one of their frames. No file is changed by a reader. The two examples of EMBED run.
It prints one line with counts; what is left out is said."""

import bisect
import concurrent.futures
import os
import random
import re
import shutil
import struct
import subprocess
import sys
import tempfile
import threading

HERE = os.path.dirname(os.path.abspath(__file__))
TOP = os.path.abspath(os.path.join(HERE, "..", ".."))
PROGRAM = os.path.join(TOP, "crates", "bwlog", "out", "bwlog")
OUT = os.path.join(TOP, "out")
ARCHIVE, SHARED = (os.path.join(OUT, "libhechdoram_read." + end) for end in ("a", "so"))
ASK = os.path.join(HERE, "reading", "ask")
PAGE = os.path.join(TOP, "docs", "EMBED.md")
# Where a sync takes no time, if there is such a place.
FAST = "/dev/shm" if os.path.isdir("/dev/shm") else None
STRICT = ["-O1", "-Wall", "-Wextra", "-Wpedantic", "-Wconversion", "-Werror", "-I", os.path.join(TOP, "include")]
NO_STORE, DAMAGED, SYSTEM, IN_USE = -12, -13, -15, -16
# What Python raises for these errors, by their kinds.
KINDS = {"NoStore": NO_STORE, "Damaged": DAMAGED, "InUse": IN_USE}
SEED = 66

sys.path.insert(0, os.path.join(TOP, "clients", "python"))
import hechdoram  # noqa: E402
from checks import Wrong, expect  # noqa: E402


def run(*words, given=b"", **how):
    return subprocess.run(words, input=given, capture_output=True, check=False, timeout=600, **how)


def do(*words, given=b"", **how):
    """What a program prints that ends well with nothing on standard error."""
    ended = run(*words, given=given, **how)
    expect((ended.returncode, ended.stderr), (0, b""), " ".join(words))
    return ended.stdout


# ---- programs that ask


def built(folder):
    """The programs that answer questions, by name, as the words that run them; and what is left out."""
    programs, left = {}, []
    ways = {"C": ["cc", "-std=c11"], "C++": ["c++", "-std=c++14"], "C, sanitized": ["cc", "-std=c11", "-g", "-fsanitize=address,undefined", "-fno-sanitize-recover"]}
    for name, words in ways.items():
        path = os.path.join(folder, "ask-%d" % len(programs))
        kind = "c++" if words[0] == "c++" else "c"
        made = run(*words, "-x", kind, *STRICT, ASK + ".c", "-x", "none", ARCHIVE, "-o", path)
        if made.returncode == 0:
            programs[name] = [path]
        elif name == "C" or b"sanitize" not in made.stderr and shutil.which(words[0]):
            raise Wrong("%s: %s" % (name, made.stderr.decode()))
        else:
            left.append(name)
    if shutil.which("valgrind"):
        programs["valgrind"] = ["valgrind", "-q", "--leak-check=full", "--error-exitcode=9", *programs["C"]]
    else:
        left.append("valgrind")
    if shutil.which("cargo"):
        programs["Rust"] = [rust(folder)]
    else:
        left.append("Rust")
    return programs, left


def rust(folder):
    """The Rust program, over the crate of clients/rust as a dependency."""
    crate = os.path.join(folder, "ask")
    os.makedirs(os.path.join(crate, "src"))
    shutil.copy(ASK + ".rs", os.path.join(crate, "src", "main.rs"))
    with open(os.path.join(crate, "Cargo.toml"), "w", encoding="utf-8") as file:
        file.write('[package]\nname = "ask"\nversion = "0.1.0"\nedition = "2021"\n[dependencies]\nhechdoram = { path = "%s", features = ["read"] }\n[workspace]\n'
                   % os.path.join(TOP, "clients", "rust"))
    target = os.path.join(folder, "target")
    made = run("cargo", "build", "--offline", "--release", "-q", cwd=crate, env={**os.environ, "CARGO_TARGET_DIR": target, "RUSTFLAGS": "-D warnings"})
    expect((made.returncode, made.stderr), (0, b""), "cargo build --offline")
    return os.path.join(target, "release", "ask")


# ---- a map, and what is asked of it


def first(keys, pairs, key):
    at = bisect.bisect_left(keys, key)
    return (keys[at], pairs[keys[at]]) if at < len(keys) else None


def last(keys, pairs, key):
    at = bisect.bisect_left(keys, key)
    return (keys[at - 1], pairs[keys[at - 1]]) if at else None


def near(drawn, keys):
    """Keys that are there, that are not, and some beside them."""
    found = {b"\0", b"\xff", b"\xff" * 128, b"\0" * 128, b"a" * 127}
    for key in drawn.sample(keys, min(len(keys), 400)):
        found |= {key, key[:-1] or b"\0", key + b"\0", key[:-1] + bytes([key[-1] ^ 1]), key[:3] + b"~"}
    found |= {drawn.randbytes(drawn.randrange(1, 129)) for _ in range(100)}
    return sorted(key for key in found if 0 < len(key) <= 128)


def prefixes(drawn, keys):
    return [b""] + [key[: drawn.randrange(1, len(key) + 1)] for key in drawn.sample(keys, min(len(keys), 20))] + [b"no such prefix"]


def told(pair):
    return "none\n" if pair is None else "pair %s %s\n" % (pair[0].hex(), pair[1].hex())


def questions(drawn, pairs, is_short):
    """Lines to ask, and the lines that have to be answered."""
    keys = sorted(pairs)
    asked, wanted = ["count\n"], ["count %d\n" % len(pairs)]
    for key in keys[: 300 if is_short else None]:
        asked.append("get %s\n" % key.hex())
        wanted.append("value %s\n" % pairs[key].hex())
    for key in near(drawn, keys)[:: 20 if is_short else 1]:
        asked += ["get %s\n" % key.hex(), "at %s\n" % key.hex(), "below %s\n" % key.hex()]
        wanted += ["value %s\n" % pairs[key].hex() if key in pairs else "none\n", told(first(keys, pairs, key)), told(last(keys, pairs, key))]
    for prefix in prefixes(drawn, keys)[1:4] if is_short else prefixes(drawn, keys):
        asked.append("walk %s\n" % prefix.hex())
        wanted += [told((key, pairs[key])) for key in keys if key.startswith(prefix)] + ["end\n"]
    return "".join(asked).encode(), "".join(wanted).encode(), len(asked)


def ask_python(drawn, folder, pairs):
    """Asks the Python class, as a mapping, and a second reader beside it."""
    keys, asked = sorted(pairs), 0
    with hechdoram.read(folder, SHARED) as reader, hechdoram.read(folder, SHARED) as other:
        expect((len(reader), list(reader), dict(reader)), (len(pairs), keys, pairs), "%s as a mapping" % folder)
        expect(list(other.items()), [(key, pairs[key]) for key in keys], "a second reader of %s" % folder)
        for key in keys:
            expect((reader[key], key in reader), (pairs[key], True), "%s at %r" % (folder, key))
        # Threads ask one reader at once, and each is answered what it asked for.
        with concurrent.futures.ThreadPoolExecutor(4) as pool:
            expect(list(pool.map(reader.get, keys * 3)), [pairs[key] for key in keys] * 3, "%s by threads" % folder)
            walks = list(pool.map(lambda prefix: list(reader.scan(prefix)), [b""] * 4))
            expect(walks, [[(key, pairs[key]) for key in keys]] * 4, "walks of %s by threads" % folder)
        for key in near(drawn, keys) + [b"", b"k" * 129, b"\xff" * 200]:
            expect((reader.get(key), key in reader), (pairs.get(key), key in pairs), "%s at %r" % (folder, key))
            expect(reader.at_or_above(key), first(keys, pairs, key), "%s from %r" % (folder, key))
            expect(reader.below(key), last(keys, pairs, key), "%s below %r" % (folder, key))
        for prefix in prefixes(drawn, keys):
            start, found = prefix + b"m", [(key, pairs[key]) for key in keys if key.startswith(prefix)]
            expect(list(reader.scan(prefix)), found, "%s of %r" % (folder, prefix))
            expect(list(reader.scan(prefix, reverse=True)), found[::-1], "%s of %r, backwards" % (folder, prefix))
            expect(list(reader.scan(prefix, start=start)), [pair for pair in found if pair[0] >= start], "from %r" % start)
            expect(list(reader.scan(prefix, stop=start, reverse=True)), [pair for pair in found if pair[0] < start][::-1], "below %r" % start)
        asked += 3 * len(keys) + 105
    reader.close()
    for call in (lambda: reader[b"k"], lambda: len(reader), lambda: reader.at_or_above(b"k")):
        try:
            call()
        except hechdoram.Ended:
            continue
        raise Wrong("a closed reader answered")
    return asked


# ---- folders


def drawn_pairs(drawn):
    """Pairs of any bytes: the shortest and the longest among them, and keys that begin one another."""
    long = bytes(range(128))
    pairs = {bytes([byte]): bytes([byte]) * (2 * byte) for byte in range(256)}
    pairs.update({long[:size]: b"" for size in range(1, 129)})
    pairs.update({b"\xff" * size: b"\xff" * 512 for size in (2, 127, 128)})
    pairs.update({long[:127] + bytes([byte]): bytes([byte]) * 512 for byte in range(256)})
    pairs.update({b"k" * 127 + b"\xff": b"last", b"k" * 126 + b"\xff\xff": b"later", b"l": b"behind"})
    for _ in range(3000):
        pairs[drawn.randbytes(drawn.randrange(1, 129))] = drawn.randbytes(drawn.randrange(513))
    return pairs


def imported(folder, pairs):
    lines = b"".join(b"0x%s\t0x%s\n" % (key.hex().encode(), value.hex().encode()) for key, value in pairs.items())
    do(PROGRAM, "import", "--dir", folder, given=lines)
    return pairs


def served(drawn, folder):
    """A folder of `serve`: puts, deletes, groups and cleanings; what was put last is not flushed, and so is not there."""
    pairs, lines = {}, []
    for turn in range(3000):
        key, value = b"%03d" % drawn.randrange(700), b"turn %d %s" % (turn, b"x" * drawn.randrange(100))
        if drawn.random() < 0.25:
            lines.append("del 0x%s" % key.hex())
            pairs.pop(key, None)
        elif drawn.random() < 0.2:
            other = key + b"+"
            lines.append("group put 0x%s 0x%s del 0x%s" % (key.hex(), value.hex(), other.hex()))
            pairs[key] = value
            pairs.pop(other, None)
        else:
            lines.append("put 0x%s 0x%s" % (key.hex(), value.hex()))
            pairs[key] = value
        lines += ["flush"] if turn % 97 == 0 else ["clean"] if turn % 611 == 0 else []
    lines += ["flush", "put late unseen"]
    ended = run(PROGRAM, "serve", "--dir", folder, "--m", "4", "--capacity", "65560", given="".join(line + "\n" for line in lines).encode())
    others = {line for line in ended.stdout.splitlines() if line.startswith((b"fault", b"refused"))} - {b"refused E11 NothingOld"}
    expect((ended.returncode in (0, 4), others), (True, set()), "serve")
    return pairs


def cut(folder, whole):
    """A copy of a folder whose last frame lost its end. Its newest segment may stand in any of the files, since they are used again."""
    shutil.copytree(whole, folder)
    last = re.findall(rb"^segment \d+ lease (\d+) ", do(PROGRAM, "stats", "--dir", whole), re.M)[-1]
    path = os.path.join(folder, "segment-%04d." % int(last))
    os.truncate(path + "bw", os.path.getsize(path + "bw") - 1)
    os.remove(path + "sum")


def listed(folder):
    """What the program says that a folder holds."""
    rows = [line.split("\t") for line in do(PROGRAM, "list", "--dir", folder, "--hex").decode().splitlines()]
    return {bytes.fromhex(key[2:]): bytes.fromhex(value[2:]) for key, value in rows}


def folders(drawn, room):
    """Folders by name, each with what it holds."""
    made = {name: os.path.join(room, name) for name in ("drawn", "many", "served", "one", "none", "cut")}
    found = {"drawn": imported(made["drawn"], drawn_pairs(drawn))}
    found["many"] = imported(made["many"], {b"key%06d" % drawn.randrange(10**6): b"%d" % number for number in range(20000)})
    found["served"] = served(drawn, made["served"])
    found["one"] = imported(made["one"], {b"k": b""})
    expect(run(PROGRAM, "serve", "--dir", made["none"], given=b"put k v\n").returncode, 0, "serve")
    found["none"] = {}
    cut(made["cut"], made["served"])
    found["cut"] = listed(made["cut"])
    expect(len(found["cut"]) > 300 and found["cut"] != found["served"], True, "the cut folder lost something")
    return [(made[name], found[name]) for name in made]


def state(folder):
    """The files of a folder: their bytes, and when they were written."""
    found = {}
    for name in sorted(os.listdir(folder)):
        path = os.path.join(folder, name)
        with open(path, "rb") as file:
            found[name] = file.read(), os.stat(path).st_mtime_ns
    return found


def read_all(drawn, programs, made):
    """How many questions were answered."""
    asked = 0
    for folder, pairs in made:
        before = state(folder)
        expect(listed(folder), pairs, "list of %s" % folder)
        for name, words in programs.items():
            given, wanted, count = questions(drawn, pairs, name == "valgrind")
            expect(do(*words, folder, given=given), wanted, "%s over %s" % (name, folder))
            asked += count
        asked += ask_python(drawn, folder, pairs)
        expect(state(folder), before, "what a reader left of %s" % folder)
    return asked


# ---- what is refused


def refused(programs, folder, answer):
    for name, words in programs.items():
        ended = run(*words, folder)
        expect((ended.returncode, ended.stdout, ended.stderr), (3, b"refused %d\n" % answer, b""), "%s over %s" % (name, folder))
    try:
        hechdoram.read(folder, SHARED)
    except hechdoram.Error as error:
        expect(KINDS.get(type(error).__name__), answer, "Python over %s" % folder)
    except OSError as error:
        expect((answer, error.errno != 0), (SYSTEM, True), "Python over %s" % folder)
    else:
        raise Wrong("Python read %s" % folder)
    return len(programs) + 1


def no_stores(programs, room):
    """Folders that are none, or hold no store."""
    for name in ("bare", "foreign", "garbage", "pipe"):
        os.mkdir(os.path.join(room, name))
    for folder, name, data in (("foreign", "notes.txt", b"k\tv\n"), ("garbage", "segment-0000.bw", b"no segment" * 9), ("file", "", b"k")):
        with open(os.path.join(room, folder, name) if name else os.path.join(room, folder), "wb") as file:
            file.write(data)
    os.mkfifo(os.path.join(room, "pipe", "segment-0000.bw"))
    count = 0
    for name, answer in (("missing", NO_STORE), ("bare", NO_STORE), ("foreign", NO_STORE), ("garbage", DAMAGED), ("pipe", DAMAGED), ("file", SYSTEM)):
        count += refused(programs, os.path.join(room, name), answer)
    return count


def damaged(drawn, programs, folder):
    """One byte of a segment is another, at drawn places; and then it is right again."""
    names = [name for name in sorted(os.listdir(folder)) if name.endswith(".bw") and os.path.getsize(os.path.join(folder, name))]
    count = 0
    for turn in range(12):
        path = os.path.join(folder, drawn.choice(names))
        with open(path, "r+b") as file:
            at = drawn.randrange(os.path.getsize(path)) if turn else 0
            file.seek(at)
            byte = file.read(1)
            file.seek(at)
            file.write(bytes([byte[0] ^ 1 << drawn.randrange(8)]))
            file.flush()
            expect(run(PROGRAM, "count", "--dir", folder).returncode != 0, True, "the program refuses the folder too")
            count += refused(programs, folder, DAMAGED)
            file.seek(at)
            file.write(byte)
    return count


def serving(folder, *options):
    """`serve` over a folder, which is ready."""
    writer = subprocess.Popen([PROGRAM, "serve", "--dir", folder, *options], stdin=subprocess.PIPE, stdout=subprocess.PIPE)
    expect(writer.stdout.readline()[:6], b"ready ", "serve over %s" % folder)
    return writer


def asked_of(writer, *requests):
    """What `serve` answers, of one request after the other."""
    answers = []
    for request in requests:
        writer.stdin.write(request + b"\n")
        writer.stdin.flush()
        answers.append(writer.stdout.readline())
    return answers


def never_durable(programs, room):
    """A folder in which somebody writes, and nothing was ever durable."""
    folder = os.path.join(room, "begun")
    with serving(folder) as writer:
        return refused(programs, folder, IN_USE)


def beside(programs, folder, pairs):
    """A writer keeps no reader out, and a reader keeps no writer out. What is seen is what was durable, and no more of it is than was asked for."""
    wanted = dict(pairs)
    with hechdoram.read(folder, SHARED) as reader:
        with serving(folder) as writer:
            for number in range(8):
                key, value = b"beside-%d" % number, b"seen-%d" % number
                asked_of(writer, b"put " + key + b" " + value, b"flush")
                wanted[key] = value
                for name, words in programs.items():
                    expect(do(*words, folder, given=b"count\n"), b"count %d\n" % len(wanted), "%s beside a writer" % name)
                expect(dict(hechdoram.read(folder, SHARED)), wanted, "Python beside a writer")
            expect((dict(reader), reader.get(b"beside-0")), (pairs, None), "a reader that was open before")
            before = state(folder)
            reader.refresh()
            expect(dict(reader), wanted, "a reader that read once more beside a writer")
            expect(state(folder), before, "what readers left of a folder that is written")
    expect(dict(hechdoram.read(folder, SHARED)), wanted, "a reader after the writer")
    return 8 * (len(programs) + 1)


def turned(number):
    """What one more round changes: the last value, and that of one or two more keys."""
    value = b"%d" % number + b"x" * 180
    return {b"last": value, b"k%04d" % (number % 300): value, b"k%04d" % (number * 7 % 300): value}


def turning(folder, readings=60):
    """Readings of a folder whose segments are given up and used again meanwhile: each is the whole of one round, and rounds rise."""
    seen, in_use, is_over = [0], 0, threading.Event()
    with serving(folder, "--segments", "4", "--capacity", "131100", "--frame", "65536") as writer:
        def write():
            number = 0
            while not is_over.is_set():
                number += 1
                asked_of(writer, b"group " + b" ".join(b"put %s %s" % pair for pair in turned(number).items()), b"flush")

        thread = threading.Thread(target=write)
        thread.start()
        try:
            while len(seen) <= readings:
                try:
                    pairs = dict(hechdoram.read(folder, SHARED))
                except hechdoram.InUse:
                    in_use += 1
                    expect(in_use < 4 * readings, True, "a folder that is written is in use too often")
                    continue
                number = int(pairs[b"last"].rstrip(b"x")) if pairs else 0
                held = {}
                for earlier in range(1, number + 1):
                    held.update(turned(earlier))
                expect(pairs, held, "the pairs of round %d" % number)
                expect(seen[-1] <= number, True, "rounds rise: %d, and then %d" % (seen[-1], number))
                seen.append(number)
        finally:
            is_over.set()
            thread.join()
    expect(len(set(seen)) > 10, True, "rounds that were seen")
    return readings


def ways_in(programs, folder, pairs):
    """By a link, by a path that ends in a slash, and if the files may only be read."""
    link = folder + "-link"
    os.symlink(folder, link)
    wanted = b"count %d\n" % len(pairs)
    for path in (link, link + "/", folder + "/", os.path.join(folder, "..", os.path.basename(folder))):
        for name, words in programs.items():
            expect(do(*words, path, given=b"count\n"), wanted, "%s over %s" % (name, path))
    for name in os.listdir(folder):
        os.chmod(os.path.join(folder, name), 0o444)
    # To the system's administrator nothing may only be read.
    nobody = {"user": 65534, "group": 65534} if os.geteuid() == 0 else {}
    for name, words in programs.items():
        if name != "valgrind":
            expect(do(*words, folder, given=b"count\n", **nobody), wanted, "%s over files that may only be read" % name)


def together(programs, folder, pairs):
    """All programs over one folder at once."""
    given = b"walk \n"
    wanted = "".join(told((key, pairs[key])) for key in sorted(pairs)).encode() + b"end\n"
    ran = [subprocess.Popen([*words, folder], stdin=subprocess.PIPE, stdout=subprocess.PIPE) for words in list(programs.values()) * 3]
    for one in ran:
        one.stdin.write(given)
        one.stdin.flush()
    for one in ran:
        expect(one.communicate()[0], wanted, "many readers at once")


def refused_memory(program, room, folder, pairs):
    """Each allocation is refused in turn: it is reported, or the answer is right all the same. How many were reported."""
    shim, count = os.path.join(room, "refuse.so"), os.path.join(room, "refused")
    do("cc", "-O2", "-shared", "-fPIC", "-o", shim, os.path.join(TOP, "tools", "refuse.c"))
    wanted, tellings = b"count %d\n" % len(pairs), 0
    for number in range(1, 100000):
        ended = run(*program, folder, given=b"count\n", env={"LD_PRELOAD": shim, "REFUSE": str(number), "REFUSE_COUNT": count})
        expect((ended.returncode, ended.stdout) in ((0, wanted), (3, b"refused -1\n")), True, "allocation %d refused: %r" % (number, ended))
        tellings += ended.returncode == 3
        with open(count, "rb") as file:
            if struct.unpack("4q", file.read(32))[1] == 0:
                break
    expect(tellings > 20, True, "refused memory is told")
    return tellings


# ---- the examples


def examples(room):
    """Those of EMBED, over a folder that they name."""
    with open(PAGE, encoding="utf-8") as file:
        part = re.search(r"^## Reading a folder from C, Python or Rust\n(.*?)(?=^## |\Z)", file.read(), re.M | re.S)[1]
    shown = dict(re.findall(r"^```(c|python)\n(.*?)^```$", part, re.M | re.S))
    expect(sorted(shown), ["c", "python"], "the examples of EMBED")
    for text in shown.values():
        expect(text.count("\n") <= 20, True, "an example has at most twenty lines")
    imported(os.path.join(room, "store"), {b"greeting": b"hello", b"lib/a": b"1", b"lib/b": b"2", b"other": b"3"})
    source, program = os.path.join(room, "example.c"), os.path.join(room, "example")
    with open(source, "w", encoding="utf-8") as file:
        file.write(shown["c"])
    flags = do("pkg-config", "--cflags", "--libs", os.path.join(OUT, "hechdoram_read.pc")).decode().split() if shutil.which("pkg-config") else ["-L" + OUT, "-lhechdoram_read"]
    do("cc", *STRICT, source, "-o", program, *flags, "-Wl,-rpath," + OUT)
    env = {**os.environ, "PYTHONPATH": os.path.join(TOP, "clients", "python"), "HECHDORAM_READ": SHARED}
    wanted = b"greeting=hello\nlib/a=1\nlib/b=2\n"
    expect(do(program, cwd=room), wanted, "the C example")
    expect(do(sys.executable, "-c", shown["python"], cwd=room, env=env), wanted, "the Python example")
    listing = os.path.join(room, "list")
    do("cc", *STRICT, os.path.join(TOP, "clients", "c", "list.c"), ARCHIVE, "-o", listing)
    expect(do(listing, "store", "lib/", cwd=room), b"lib/a\t1\nlib/b\t2\n", "clients/c/list.c")
    return 3


def main():
    for path in (PROGRAM, ARCHIVE, SHARED):
        if not os.path.isfile(path):
            print(path + " is not built: make run, make lib")
            return 1
    drawn = random.Random(SEED)
    with tempfile.TemporaryDirectory(dir=FAST, prefix="bwlog-reading-") as room:
        try:
            os.chmod(room, 0o755)
            programs, left = built(room)
            made = folders(drawn, room)
            asked = read_all(drawn, programs, made)
            kept_out = no_stores(programs, room) + damaged(drawn, programs, made[0][0]) + never_durable(programs, room)
            alongside = beside(programs, *made[2]) + turning(os.path.join(room, "turning"))
            ways_in(programs, *made[3])
            together(programs, *made[1])
            kept_out += refused_memory(programs["C"], room, *made[3])
            ran = examples(room)
        except Wrong as wrong:
            print("seed %d: %s" % (SEED, wrong))
            return 1
    print("%d folders, %d questions answered by %s and Python as by a map; %d openings refused, %d beside a writer; %d examples%s"
          % (len(made), asked, ", ".join(programs), kept_out, alongside, ran, "; left out: " + ", ".join(left) if left else ""))
    return 0


if __name__ == "__main__":
    sys.exit(main())
