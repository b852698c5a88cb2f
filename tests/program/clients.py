#!/usr/bin/env python3
"""The clients of clients/, each over the built program, asked by one table of cases (tests/program/clients/table.toml, and tables.toml of
tables): a program in each language, ask.*, answers requests by its client, and each answer is compared with what the table says.

    clients.py [COUNT [LANGUAGE..]]

The table has the longest keys and values, and longer ones; walks both ways; groups and batches; refusals in a burst; a folder in use,
damaged or missing; a full log; a log that failed, by tools/failing.c, and goes on; calls that are left between question and answer, many
times; four threads over one store; programs of another protocol, and answers that are none. After it each client keeps COUNT records over
a stop, 100,000 if nothing is said, and answers a drawn list of requests as a map does. What is installed is looked at too.

A language whose compiler is not there is left out, and that is said; so are readers if `make lib` was not run."""

import os
import random
import re
import shutil
import subprocess
import sys
import tempfile
import time
import tomllib

from checks import BUILT, FAST, Wrong, ask, expect, shim_of

HERE = os.path.dirname(os.path.abspath(__file__))
TOP = os.path.abspath(os.path.join(HERE, "..", ".."))
ASK = os.path.join(HERE, "clients", "ask")
CASES = [os.path.join(HERE, "clients", name) for name in ("table.toml", "tables.toml")]
PROGRAM = os.path.abspath(BUILT)
PYTHON, CRATE, MODULE = (os.path.join(TOP, "clients", name) for name in ("python", "rust", "go"))
CLIENT_IN_C = [os.path.join(TOP, "clients", "c", name) for name in ("hechdoram.c", "hechdoram_scan.c", "hechdoram_tables.c")]
PAGE = os.path.join(TOP, "docs", "EMBED.md")
OUT = os.path.join(TOP, "out")
SEED = 84
# Keys whose requests are more than a pipe takes at once.
MANY = " ".join("0x%02x%s" % (number, "00" * 127) for number in range(60))
# Pairs of more than one line, by their number and by their bytes. One of seven is deleted again.
VALUES = [b"", b"=", b"none", b"\x00" * 500, b"v" * 500, b"0x"]
PAIRS = [("0x" + (b"n%03d" % number).hex(), "0x" + VALUES[number % 6].hex()) for number in range(400)]
SOME = {"keys": " ".join(key for key, _ in PAIRS), "values": " ".join(value for _, value in PAIRS),
        "pairs": " ".join(key + " " + value for key, value in PAIRS), "gone": " ".join("del " + key for key, _ in PAIRS[::7]),
        "left": " ".join(value if at % 7 else "none" for at, (_, value) in enumerate(PAIRS)), "none60": " ".join(["none"] * 60)}
# How long a client may take for a case.
LIMIT = 300
# Programs that say another first line, and then answer nothing.
OTHERS = {"other": "ready frame 0 protocol 2", "further": "ready frame 0 protocol 1 tomorrow 7", "none": "ready frame 0"}
# Programs that greet as they have to, and then answer as no store does: by a refusal among others, by no text, by too long a line, by
# an answer to another request, by two, late, or never.
FAKES = {
    "mixed": 'while read verb key more; do case "$verb $key" in get*" 0x0f"*) echo refused E6 Device lease 0;; get*" 0x1e"* | put*" 0x07"*) echo refused E7 Failed;;'
             ' put*" 0x04"*) echo refused E5 NoSegment after 2;; gets*) printf "values ="; for word in $more; do printf " ="; done; echo;;'
             ' get*) echo value 1;; *) echo ok;; esac; done',
    "unfit": 'while read verb key more; do case "$key" in a) echo values =;; b) echo values = = =;; c) echo values = 0xz;; d) echo "values =  0x";; e) echo values;;'
             ' *) echo value 1;; esac; done',
    "no_text": "read line; printf 'value \\377\\n'; while read line; do echo value v; done",
    "long": "read line; head -c 4000000 /dev/zero | tr '\\0' x; echo; exec cat > /dev/null",
    "odd": "while read verb more; do case $verb in get | gets) echo value 0xzz;; next) echo pair a;; scan) echo pairs 2 a=b;; count) echo count x;;"
           " *) echo reopened frame 1;; esac; done",
    "wrong": "while read line; do echo ok; done",
    "twice": "while read line; do printf 'ok\\nok\\n'; done",
    "slow": "while read line; do sleep 0.4; echo value 0x7374616c65; done",
    "dies": "read line; echo of its own accord >&2; exit 3",
}


# ---- programs


def script_in(folder, name, text):
    """A program of this name that stands in the folder."""
    path = os.path.join(folder, name)
    with open(path, "w", encoding="ascii") as file:
        file.write("#!/bin/sh\n%s\n" % text)
    os.chmod(path, 0o755)
    return path


def fakes_in(folder):
    """All programs of another kind, by their names."""
    found = {name: "echo %s\nexec cat > /dev/null" % line for name, line in OTHERS.items()}
    found.update({name: "echo ready frame 0 protocol 1\n" + text for name, text in FAKES.items()})
    found["mute"] = "exit 7"
    # The program itself, which says first by which number it is killed.
    found["killed"] = 'for word in "$@"; do case $word in --dir=*) echo $$ > "${word#--dir=}.pid";; esac; done\nexec "%s" "$@"' % PROGRAM
    return {name: script_in(folder, name, text) for name, text in found.items()}


def calls_before(shim, room):
    """How many calls on the files of a folder the program made by the end of its first frame."""
    folder, count = os.path.join(room, "counted"), os.path.join(room, "count")
    os.mkdir(folder)
    env = dict(os.environ, LD_PRELOAD=shim, FAILING=folder, FAILING_BUT="times", FAILING_AT="0", FAILING_COUNT=count)
    with subprocess.Popen([PROGRAM, "serve", "--dir=" + folder], stdin=subprocess.PIPE, stdout=subprocess.PIPE, env=env) as child:
        child.stdin.write(b"put a 1\nflush\n")
        child.stdin.flush()
        expect([child.stdout.readline() for _ in range(3)], [b"ready frame 0 protocol 1\n", b"ok\n", b"frame 1\n"], "serve under the shim")
        with open(count, "rb") as cell:
            made = int.from_bytes(cell.read(8), sys.byteorder)
        child.stdin.close()
    return made


def failing_in(room, folder):
    """The program with a call that fails: the first one on the folder's files after the first frame."""
    shim = shim_of("failing", room)
    at = calls_before(shim, room) + 1
    # The folder has to be there when the program begins.
    return script_in(room, "failing", 'mkdir -p "%s"\nLD_PRELOAD="%s" FAILING="%s" FAILING_BUT=times FAILING_AT=%d exec "%s" "$@"' % (folder, shim, folder, at, PROGRAM))


def damaged_in(room):
    """A folder with a changed byte in its first frame, and one whose last byte is lost."""
    found = {name: os.path.join(room, name) for name in ("bad", "cut")}
    for folder in found.values():
        subprocess.run([PROGRAM, "put", "--dir=" + folder, "a", "1"], check=True)
    with open(os.path.join(found["bad"], "segment-0000.bw"), "r+b") as file:
        file.seek(40)
        byte = file.read(1)
        file.seek(40)
        file.write(bytes([byte[0] ^ 1]))
    cut = os.path.join(found["cut"], "segment-0000.bw")
    os.truncate(cut, os.path.getsize(cut) - 1)
    return found


# ---- clients


def do(*words, **how):
    ended = subprocess.run(words, capture_output=True, text=True, check=False, **how)
    if ended.returncode != 0:
        raise Wrong("%s\n%s%s" % (" ".join(words), ended.stdout, ended.stderr))
    return ended.stdout


def python_in(_room):
    return [sys.executable, "-W", "error", ASK + ".py", PROGRAM]


def c_in(room, compiler, *flags):
    """The program of C or C++, over the client as C, with readers if their library is there."""
    path = os.path.join(room, "ask")
    parts = [os.path.join(room, os.path.basename(source)[:-1] + "o") for source in CLIENT_IN_C]
    library = os.path.join(OUT, "libhechdoram_read.a")
    more = ["-DHAS_READER", "-x", "none", library] if os.path.isfile(library) else ["-x", "none"]
    for source, part in zip(CLIENT_IN_C, parts):
        do("cc", "-std=c11", *STRICT, *flags[1:], "-c", source, "-o", part)
    do(compiler, flags[0], "-D_DEFAULT_SOURCE", *STRICT, *flags[1:], "-pthread", "-x", "c++" if compiler == "c++" else "c", ASK + ".c", *more, *parts, "-o", path)
    return [path, PROGRAM]


def cargo_in(room, source, has_reader):
    """A program over the crate of clients/rust."""
    crate, target = os.path.join(room, "ask"), os.path.join(room, "target")
    os.makedirs(os.path.join(crate, "src"))
    shutil.copy(source, os.path.join(crate, "src", "main.rs"))
    with open(os.path.join(crate, "Cargo.toml"), "w", encoding="utf-8") as file:
        file.write('[package]\nname = "ask"\nversion = "0.1.0"\nedition = "2021"\n[features]\nread = ["hechdoram/read"]\n[dependencies]\n'
                   'hechdoram = { path = "%s" }\n[workspace]\n' % CRATE)
    env = {**os.environ, "CARGO_TARGET_DIR": target, "RUSTFLAGS": "-D warnings"}
    do("cargo", "build", "--offline", "--release", "-q", *["--features", "read"] * has_reader, cwd=crate, env=env)
    return os.path.join(target, "release", "ask")


def rust_in(room):
    """The program of Rust. The crate's own examples are compiled too."""
    do("cargo", "test", "--offline", "--doc", "-q", cwd=CRATE, env={**os.environ, "CARGO_TARGET_DIR": os.path.join(room, "doc")})
    return [cargo_in(room, ASK + ".rs", os.path.isfile(os.path.join(OUT, "libhechdoram_read.a"))), PROGRAM]


def go_of(room, source):
    """A program over the module of clients/go."""
    folder, path = os.path.join(room, "asks"), os.path.join(room, "ask")
    os.makedirs(folder)
    shutil.copy(source, os.path.join(folder, "main.go"))
    with open(os.path.join(folder, "go.mod"), "w", encoding="utf-8") as file:
        file.write("module ask\n\ngo 1.18\n\nrequire hechdoram v0.0.0\n\nreplace hechdoram => %s\n" % MODULE)
    env = {"GOCACHE": os.path.join(room, "cache"), **os.environ, "GOFLAGS": "-mod=mod", "GOPROXY": "off"}
    do("go", "vet", "./...", cwd=MODULE, env=env)
    do("go", "build", "-o", path, ".", cwd=folder, env=env)
    return path


def go_in(room):
    return [go_of(room, ASK + ".go"), PROGRAM]


# How the program of each language is made, and by what.
STRICT = ["-O1", "-Wall", "-Wextra", "-Wpedantic", "-Wconversion", "-Werror", "-I", os.path.join(TOP, "include")]
LANGUAGES = {
    "Python": ("python3", python_in),
    "C": ("cc", lambda room: c_in(room, "cc", "-std=c11")),
    "C++": ("c++", lambda room: c_in(room, "c++", "-std=c++14")),
    "C, sanitized": ("cc", lambda room: c_in(room, "cc", "-std=c11", "-g", "-fsanitize=address,undefined", "-fno-sanitize-recover")),
    "Rust": ("cargo", rust_in),
    "Go": ("go", go_in),
}


# ---- the table


def hexed(found):
    """A word of the table as hex."""
    text, digits, times = found.groups()
    data = bytes.fromhex(digits) if text is None else text.encode()
    return "0x" + (data * int(times or 1)).hex()


def plain(text, names):
    """A request or an answer of the table: its words in hex, its names filled in."""
    return re.sub(r'(?:"([^"]*)"|0x([0-9a-f]*))(?:\*(\d+))?', hexed, text.strip()).format(**names)


def cases_in(path):
    with open(path, "rb") as file:
        return tomllib.load(file)["cases"]


def rows_of(case, names):
    """The requests of a case, and their answers."""
    for line in case["lines"].strip().splitlines():
        asked, wanted = re.split(r"\s+-> ", line)
        yield plain(asked, names), plain(wanted, names)


def is_as(found, wanted):
    """Whether an answer is that of the table, which may leave out the words of an error, or its end after a star."""
    if wanted.endswith(" *"):
        return found.startswith(wanted[:-1])
    return found == wanted or (re.fullmatch(r"error \w+", wanted) and found.startswith(wanted + " "))


def answers_to(words, asked, env):
    """What a client's program answers to these requests."""
    ended = subprocess.run(words, input="\n".join(asked) + "\n", capture_output=True, text=True, timeout=LIMIT, check=False, env=env)
    if ended.returncode != 0 or ended.stderr:
        raise Wrong("status %d after %d answers\n%s\n%s" % (ended.returncode, ended.stdout.count("\n"), ended.stdout[-500:], ended.stderr))
    return ended.stdout.splitlines()


def compare(words, rows, env, name):
    """Asks the requests of some rows."""
    rows = list(rows)
    found = answers_to(words, [asked for asked, _ in rows], env)
    for (asked, wanted), answer in zip(rows, found):
        ask(is_as(answer, wanted), "%s: %.200s is answered\n  %.400s\nin place of\n  %.400s" % (name, asked, answer, wanted))
    expect(len(found), len(rows), "answers of " + name)


def run_case(words, language, case, room, env):
    """Asks the requests of a case in a room of their own."""
    names = {"folder": os.path.join(room, "store"), "program": PROGRAM, "many": MANY, **SOME, **fakes_in(room), **damaged_in(room)}
    if "{failing}" in case["lines"]:
        names["failing"] = failing_in(room, names["folder"])
    compare(words, rows_of(case, names), env, "%s, %s" % (language, case["name"]))


# ---- requests that are drawn


class Map:
    """What a store answers: a map in order, by the words of the table."""

    def __init__(self, drawn):
        self.drawn, self.pairs = drawn, {}
        letters = [bytes([byte]) for byte in b"\x00\x01ab\xfe\xff"]
        self.keys = sorted({b"".join(drawn.choices(letters, k=drawn.randrange(1, 5))) for _ in range(120)})

    def word(self, data):
        return "0x" + data.hex()

    def key(self):
        return self.drawn.choice(self.keys)

    def value(self):
        return self.drawn.randbytes(self.drawn.choice((0, 1, 7, 40, 512)))

    def changes(self, most):
        """Up to so many changes, as words, made."""
        words = []
        for _ in range(self.drawn.randrange(1, most + 1)):
            key, value = self.key(), self.value()[:200]
            if self.drawn.random() < 0.3:
                self.pairs.pop(key, None)
                words += ["del", self.word(key)]
            else:
                self.pairs[key] = value
                words += ["put", self.word(key), self.word(value)]
        return words

    def told(self, keys):
        return " ".join(["pairs", *("%s=%s" % (self.word(key), self.word(self.pairs[key])) for key in keys)])

    def scan(self):
        """A walk within drawn bounds."""
        bounds = {name: self.key()[: self.drawn.randrange(5)] for name in ("prefix", "start", "stop") if self.drawn.random() < 0.5}
        is_back = self.drawn.random() < 0.5
        words = ["scan", *("%s=%s" % (name, self.word(bound)) for name, bound in bounds.items()), *["reverse"] * is_back]
        found = [key for key in sorted(self.pairs, reverse=is_back) if key.startswith(bounds.get("prefix", b"")) and key >= bounds.get("start", b"")]
        if "stop" in bounds:
            found = [key for key in found if key < bounds["stop"]]
        return " ".join(words), self.told(found)

    def near(self):
        """The pair next to a key."""
        kind, key = self.drawn.choice(("next", "prev", "below")), self.key()
        keys = sorted(self.pairs)
        found = {"next": [it for it in keys if it >= key][:1], "prev": [it for it in keys if it <= key][-1:], "below": [it for it in keys if it < key][-1:]}[kind]
        return "%s %s" % (kind, self.word(key)), self.told(found).replace("pairs", "pair", 1) if found else "none"

    def row(self):
        """A request and its answer."""
        kind = self.drawn.choice(("put", "put", "get", "gets", "del", "group", "batch", "scan", "scan", "near", "near", "count"))
        key, value = self.key(), self.value()
        if kind in ("scan", "near"):
            return getattr(self, kind)()
        if kind == "put":
            self.pairs[key] = value
            return "put %s %s" % (self.word(key), self.word(value)), "ok"
        if kind == "del":
            self.pairs.pop(key, None)
            return "del " + self.word(key), "ok"
        if kind in ("group", "batch"):
            return " ".join([kind, *self.changes(4 if kind == "group" else 30)]), "ok"
        if kind == "count":
            return "count", "count %d" % len(self.pairs)
        keys = [self.key() for _ in range(1 if kind == "get" else 20)]
        values = [self.word(self.pairs[it]) if it in self.pairs else "none" for it in keys]
        if kind == "get":
            return "get " + self.word(keys[0]), values[0] if values[0] == "none" else "value " + values[0]
        return " ".join(["gets", *map(self.word, keys)]), " ".join(["values", *values])


def drawn_rows(folder, count):
    """Requests that are drawn, with what a map answers; the store is closed and opened in between."""
    model = Map(random.Random(SEED))
    yield "open " + folder, "opened"
    for number in range(count):
        if number % 500 == 499:
            yield "close", "closed"
            yield "open " + folder, "opened"
        yield model.row()
    yield "close", "closed"


# ---- the examples of the page


def example_in(room, language, source):
    """The words that run an example, or nothing if its compiler is not there."""
    if not shutil.which({"python": "python3", "c": "cc", "rust": "cargo", "go": "go"}[language]):
        return None
    if language == "python":
        return [sys.executable, source]
    if language == "rust":
        return [cargo_in(room, source, False)]
    if language == "go":
        return [go_of(room, source)]
    path = os.path.join(room, "example")
    do("cc", "-std=c11", *STRICT, "-x", "c", source, *CLIENT_IN_C, "-o", path)
    return [path]


def try_examples(room):
    """Each example of EMBED prints what it has to, and its store has what was kept."""
    with open(PAGE, encoding="utf-8") as file:
        part = re.search(r"^## Clients: Python, C, Rust, Go\n(.*?)(?=^## |\Z)", file.read(), re.M | re.S)[1]
    shown = re.findall(r"^```(\w+)\n(.*?)^```$", part, re.M | re.S)
    expect([language for language, _ in shown], ["python", "c", "rust", "go"], "the examples of EMBED")
    ran = []
    for language, text in shown:
        own = os.path.join(room, language)
        os.mkdir(own)
        source = os.path.join(own, "example.txt")
        with open(source, "w", encoding="utf-8") as file:
            file.write(text)
        words = example_in(own, language, source)
        if words:
            env = {**os.environ, "PATH": os.path.dirname(PROGRAM) + os.pathsep + os.environ["PATH"], "PYTHONPATH": PYTHON}
            expect(do(*words, cwd=own, env=env), "lib/b=2\nlib/a=1\n", "the example of " + language)
            expect(do(PROGRAM, "list", "--dir", "store", cwd=own), "greeting\thello\nlib/a\t1\nlib/b\t2\n", "what it kept")
            ran.append(language)
    return "the examples of EMBED run: " + ", ".join([*ran, try_tables(room)])


def try_tables(room):
    """The example of tables prints what it has to, and its folder has what was kept."""
    with open(PAGE, encoding="utf-8") as file:
        text = re.search(r"^## Tables in the clients\n\n```python\n(.*?)^```$", file.read(), re.M | re.S)[1]
    env = {**os.environ, "PATH": os.path.dirname(PROGRAM) + os.pathsep + os.environ["PATH"], "PYTHONPATH": PYTHON}
    expect(do(sys.executable, "-c", text, cwd=room, env=env), "names 1\nusers 2\n18=Bob, Paris\n", "the example of tables")
    with subprocess.Popen([PROGRAM, "serve", "--tables", "--dir=" + os.path.join(room, "shop")], stdin=subprocess.PIPE, stdout=subprocess.PIPE, text=True) as child:
        found = child.communicate("count users\nget users 18\nscan names 0x00 9\n")[0].splitlines()[1:]
    expect(found, ["count 2", "value 0x426f622c205061726973", "pairs 1 0x426f62203138=0x"], "what it kept")
    return "tables"


# ---- what is installed

# What `make install` puts below its prefix, and what it has of readers, if `make lib` was run.
INSTALLED = ["bin/bwlog", "include/hechdoram.h", "include/hechdoram_read.h", "lib/libhechdoram.a", "lib/libhechdoram.so", "lib/pkgconfig/hechdoram.pc",
             "share/bash-completion/completions/bwlog", "share/man/man1/bwlog.1"]
OF_READERS = ["lib/libhechdoram_read.a", "lib/libhechdoram_read.so", "lib/pkgconfig/hechdoram_read.pc"]


def files_in(folder):
    return sorted(os.path.relpath(os.path.join(inner, name), folder) for inner, _, names in os.walk(folder) for name in names)


def try_install(room):
    """The example over what is installed, by pkg-config if it is there; and nothing is left."""
    prefix, program, folder = (os.path.join(room, name) for name in ("prefix", "example", "store"))
    lib = os.path.join(prefix, "lib")
    is_read = os.path.isfile(os.path.join(OUT, "libhechdoram_read.so"))
    do("make", "-s", "install", "PREFIX=" + prefix, cwd=TOP)
    expect(files_in(prefix), sorted(INSTALLED + OF_READERS * is_read), "what is installed")
    flags = ["-I" + os.path.join(prefix, "include"), "-L" + lib, "-lhechdoram"]
    if shutil.which("pkg-config"):
        found = do("pkg-config", "--cflags", "--libs", "hechdoram", env={**os.environ, "PKG_CONFIG_PATH": os.path.join(lib, "pkgconfig")}).split()
        expect(sorted(found), sorted(flags), "the words of pkg-config")
    do("cc", "-std=c11", *STRICT[:-2], os.path.join(TOP, "clients", "c", "example.c"), "-o", program, *flags, "-Wl,-rpath," + lib)
    env = {**os.environ, "PATH": os.path.join(prefix, "bin") + os.pathsep + os.environ["PATH"]}
    expect(do(program, folder, "greeting", "hello", env=env), "greeting\thello\n", "the example")
    expect(do(program, folder, "lib/a", "1", "lib/", env=env), "lib/a\t1\n", "the example with a prefix")
    do("make", "-s", "uninstall", "PREFIX=" + prefix, cwd=TOP)
    expect(files_in(prefix), [], "what is left of what was installed")
    root = os.path.join(room, "root")
    do("make", "-s", "install", "PREFIX=/usr", cwd=TOP, env={**os.environ, "DESTDIR": root})
    expect(files_in(os.path.join(root, "usr")), sorted(INSTALLED + OF_READERS * is_read), "what is installed below DESTDIR")
    with open(os.path.join(root, "usr", "lib", "pkgconfig", "hechdoram.pc"), encoding="ascii") as file:
        expect(file.readline(), "prefix=/usr\n", "the prefix of pkg-config's file")
    return "installed and removed again"


def try_package(room):
    """The Python package as setuptools builds it, with its types, over the program."""
    source, target = os.path.join(room, "source"), os.path.join(room, "target")
    shutil.copytree(PYTHON, source, ignore=shutil.ignore_patterns("__pycache__"))
    words = [sys.executable, "-c", "import setuptools; setuptools.setup()", "-q", "build_py", "--build-lib", target]
    made = subprocess.run(words, capture_output=True, text=True, check=False, cwd=source)
    if "No module named 'setuptools'" in made.stderr:
        return "the Python package was not built: there is no setuptools"
    expect(made.returncode, 0, "setuptools: " + made.stderr)
    names = [os.path.join("hechdoram", name) for name in os.listdir(os.path.join(PYTHON, "hechdoram")) if name.endswith((".py", ".typed"))]
    expect(files_in(target), sorted(names), "what the Python package has")
    script = ("import hechdoram, sys\nwith hechdoram.open(sys.argv[2], sys.argv[1]) as store:\n    store[b'key'] = b'value'\n"
              "with hechdoram.open(sys.argv[2], sys.argv[1]) as store:\n    print(dict(store), hechdoram.__file__.startswith(sys.argv[3]))\n")
    env = {**os.environ, "PYTHONPATH": target}
    expect(do(sys.executable, "-c", script, PROGRAM, os.path.join(room, "store"), target, env=env), "{b'key': b'value'} True\n", "the package")
    return "the Python package is built"


# ---- all of it


def tried(language, words, cases, count, env):
    """Asks one client all of it; how many cases there were, and how long its records took."""
    asked = 0
    for case in cases:
        name = language.split(",")[0]
        if name in case.get("only", [name]) and (case.get("needs") != "library" or "HECHDORAM_READ" in env):
            with tempfile.TemporaryDirectory(dir=FAST, prefix="bwlog-client-") as room:
                run_case(words, language, case, room, env)
            asked += 1
    with tempfile.TemporaryDirectory(dir=FAST, prefix="bwlog-client-") as room:
        compare(words, drawn_rows(os.path.join(room, "store"), 2000), env, language + ", drawn requests")
        begun = time.time()
        many = [("open %s/many" % room, "opened"), ("many %d" % count, "kept %d" % count), ("close", "closed")]
        compare(words, many, env, language + ", many records")
    return asked, time.time() - begun


def main():
    count = int(sys.argv[1]) if len(sys.argv) > 1 else 100000
    languages = {name: LANGUAGES[name] for name in sys.argv[2:]} or LANGUAGES
    if not os.path.isfile(PROGRAM):
        print(PROGRAM + " is not built: make run")
        return 1
    cases = [case for path in CASES for case in cases_in(path)]
    env = {**os.environ, "PYTHONPATH": PYTHON, "PYTHONDONTWRITEBYTECODE": "1"}
    env.pop("HECHDORAM_READ", None)
    library = os.path.join(OUT, "libhechdoram_read.so")
    if os.path.isfile(library):
        env["HECHDORAM_READ"] = library
    else:
        print("readers are left out: make lib makes their library")
    failed = False
    for language, (compiler, made_in) in languages.items():
        if not shutil.which(compiler):
            print("%s: left out, there is no %s" % (language, compiler))
            continue
        with tempfile.TemporaryDirectory(prefix="bwlog-client-") as room:
            try:
                asked, took = tried(language, made_in(room), cases, count, env)
                print("%s: %d cases, 2000 drawn requests, and %d records kept and walked in %.1f s" % (language, asked, count, took))
            except (Wrong, subprocess.TimeoutExpired) as wrong:
                print(wrong)
                failed = True
    if languages is LANGUAGES:
        for attempt in (try_examples, try_install, try_package):
            with tempfile.TemporaryDirectory(prefix="bwlog-client-") as room:
                try:
                    print(attempt(room))
                except Wrong as wrong:
                    print(wrong)
                    failed = True
    return 1 if failed else 0


if __name__ == "__main__":
    sys.exit(main())
