#!/usr/bin/env python3
"""What the built program, and tools/shown.py beside a proof, say on a terminal of work that takes longer than a second, by a pseudo-terminal;
and that they say nothing of it if standard error is none.

    terminal.py [PROGRAM]

An input that comes slowly makes an import as long as is wanted; a store of more than 32 MiB makes what goes over all of it long, if the
program is held back: it is stopped most of the time until it has printed something, so that a fast machine does not end the work within a
second. Of each mode the line on the terminal is written over, is gone at the end, and names the work."""

import os
import pty
import re
import shutil
import signal
import subprocess
import sys
import tempfile
import threading
import time

HERE = os.path.dirname(os.path.abspath(__file__))
PROGRAM = os.path.abspath(sys.argv[1]) if len(sys.argv) > 1 else os.path.join(HERE, "..", "..", "crates", "bwlog", "out", "bwlog")
FAST = "/dev/shm" if os.path.isdir("/dev/shm") else None
# So many pairs of some 108 bytes are more than 32 MiB in a log.
LARGE = 330000
BYTES = r"(\d+ bytes|\d+(\.\d)? [KM]iB)"
IMPORTING = r"importing: %s( of %s)?, %s a second(, \d+ s left)?" % (BYTES, BYTES, BYTES)
AMOUNT = r"%s(, %s a second)?"


class Wrong(Exception):
    pass


def ask(condition, *what):
    if not condition:
        raise Wrong(" ".join(str(it) for it in what))


def read_all(end, into):
    """Reads a terminal until nobody has its other end open."""
    while True:
        try:
            more = os.read(end, 65536)
        except OSError:
            return
        if not more:
            return
        into.append(more)


def hold_back(child, told):
    """Lets a program run a sixth of the time, until it has printed something or has ended."""
    while not told and child.poll() is None:
        child.send_signal(signal.SIGSTOP)
        time.sleep(0.1)
        child.send_signal(signal.SIGCONT)
        time.sleep(0.02)


def on_terminal(words, shown=False, feed=None, source=subprocess.DEVNULL, start=(PROGRAM,), wanted=0, held=False):
    """Runs the program, or another, with standard error on a terminal, and standard output too if it is shown; what it printed to a pipe,
    and what the terminal got."""
    ours, theirs = pty.openpty()
    told = []
    reader = threading.Thread(target=read_all, args=(ours, told))
    child = subprocess.Popen([*start, *words], stdin=subprocess.PIPE if feed else source, stdout=theirs if shown else subprocess.PIPE, stderr=theirs)
    os.close(theirs)
    reader.start()
    if held:
        threading.Thread(target=hold_back, args=(child, told)).start()
    if feed:
        feed(child.stdin)
        child.stdin.close()
    printed = b"" if shown else child.stdout.read()
    status = child.wait(timeout=300)
    reader.join(timeout=30)
    os.close(ours)
    ask(status == wanted, words[0], "ended with", status, b"".join(told))
    return printed, b"".join(told).decode()


def lines_of(told):
    """The lines that were written over, and what stands on the terminal at the end."""
    over, standing = [], []
    for line in told.replace("\r\n", "\n").split("\n"):
        parts = line.split("\r")
        over += [part.removesuffix("\x1b[K") for part in parts[:-1] if part.removesuffix("\x1b[K")]
        standing.append(parts[-1].removeprefix("\x1b[K"))
    return over, "\n".join(standing)


def pair_line(number):
    return "key%08d\t%s\n" % (number, "v" * 97)


def slowly(file):
    """Three bursts of pairs, with more than a second before each but the first."""
    for burst in range(3):
        if burst:
            time.sleep(1.2)
        file.write("".join(pair_line(burst * 4000 + number) for number in range(4000)).encode())
        file.flush()


def check_slow(folder):
    store = os.path.join(folder, "slow")
    printed, told = on_terminal(["import", "--dir", store], feed=slowly)
    over, standing = lines_of(told)
    ask(printed == b"imported 12000\n", "a slow import printed", printed)
    ask(standing == "", "a slow import left", standing)
    ask(over and all(re.fullmatch(IMPORTING, it) for it in over), "a slow import told", over)
    # Of a pipe nobody knows how much there is.
    ask(all(" of " not in it for it in over), "a slow import told", over)
    # It is no work of a second if the input comes at once.
    printed, told = on_terminal(["import", "--dir", store], feed=lambda file: file.write(pair_line(1).encode()))
    ask(told == "", "a short import told", told)
    ran = subprocess.run([PROGRAM, "import", "--dir", store + "2"], input="".join(map(pair_line, range(10))).encode(), capture_output=True, check=False)
    ask((ran.returncode, ran.stdout, ran.stderr) == (0, b"imported 10\n", b""), "without a terminal it told", ran.stderr)


def check_silent(folder):
    """If standard error is no terminal, a slow import says nothing there."""
    child = subprocess.Popen([PROGRAM, "import", "--dir", os.path.join(folder, "silent")], stdin=subprocess.PIPE, stdout=subprocess.PIPE, stderr=subprocess.PIPE)
    slowly(child.stdin)
    child.stdin.close()
    printed, told = child.stdout.read(), child.stderr.read()
    ask((child.wait(), printed, told) == (0, b"imported 12000\n", b""), "without a terminal it told", told)


def load(folder):
    """A store of more than 32 MiB, of a file, whose length is known."""
    file = os.path.join(folder, "pairs")
    with open(file, "w", encoding="ascii") as pairs:
        pairs.writelines(pair_line(number * 7919 % LARGE) for number in range(LARGE))
    store = os.path.join(folder, "store")
    with open(file, "rb") as source:
        printed, told = on_terminal(["import", "--dir", store], source=source, held=True)
    over, standing = lines_of(told)
    added = ["folder %s: a segment was added, %d in all" % (store, 5 + number) for number in range(len(standing.splitlines()))]
    ask(printed == b"imported %d\n" % LARGE and standing.splitlines() == added, "a large import printed", printed, standing)
    ask(over and all(re.fullmatch(IMPORTING, it) and " of " in it for it in over), "a large import told", over)
    return store


def check_mode(words, works, shown=False):
    """A mode over the store: each line that is written over is of one of these works, and none is left; what it printed."""
    printed, told = on_terminal(words, shown, held=True)
    over, standing = lines_of(told)
    wanted = re.compile(r"(%s): (%s|\d+ (pairs|pages)).*" % ("|".join(works), BYTES))
    ask(over and all(wanted.fullmatch(it) for it in over), words[0], "told", over)
    ask(shown or standing == "", words[0], "left", standing)
    return standing if shown else printed


def check_large(folder):
    store = load(folder)
    words = ["--dir", store]
    ask(check_mode(["count", *words], ["reading", "recovering"]) == b"%d\n" % LARGE, "count is wrong")
    ask(check_mode(["get", *words, "key00000007"], ["reading", "recovering"]) == b"v" * 97 + b"\n", "get is wrong")
    ask(check_mode(["put", *words, "key", "1"], ["opening", "importing"]) == b"", "put is wrong")
    ask(check_mode(["verify", *words], ["reading", "recovering"]).startswith(b"verified segments "), "verify is wrong")
    ask(check_mode(["export", *words], ["reading", "recovering", "listing"]).count(b"\n") == LARGE + 1, "export is wrong")
    copying = ["reading", "recovering", "writing"]
    ask(check_mode(["copy", *words, "--to", store + " copy"], copying).startswith(b"copied frame "), "copy is wrong")
    saving = copying + ["loading"]
    ask(check_mode(["salvage", *words, "--to", store + " saved"], saving).startswith(b"salvaged frame "), "salvage is wrong")
    ask(check_mode(["copy", "--compact", *words, "--to", store + " full"], saving).startswith(b"copied frame "), "copy --compact is wrong")
    ask(check_mode(["replay", *words], ["opening"]).startswith(b"segments "), "replay is wrong")
    # A listing on the same terminal stands there as it is, and nothing is printed in between.
    shown = check_mode(["list", *words, "--limit", "3"], ["reading", "recovering"], shown=True)
    ask(shown == "key\t1\nkey00000000\t%s\nkey00000001\t%s\n" % ("v" * 97, "v" * 97), "list shows", shown[:500])


def check_added(folder):
    """A segment that was added is reported, on a terminal or not."""
    store = os.path.join(folder, "added")
    script = "put 0 a 1\nflush\n".encode()
    words = ["replay", "--dir", store, "--segments=2", "--capacity=65560", "--most-segments=3"]
    printed, told = on_terminal(words, feed=lambda file: file.write(script))
    ask((printed, told) == (b"ok\nframe 1\n", "folder %s: a segment was added, 3 in all\r\n" % store), "an added segment told", printed, told)


# Lines as `rt ci` prints them. Of a crate that an earlier run proved no time is kept.
PROVING = """
import time
print("rt: bw_record is kept: an earlier run proved it")
time.sleep(1.3)
print("rt: bw_lows is kept: an earlier run proved it")
print("1 passed, 1 failed")
raise SystemExit(3)
"""


def check_typed(folder):
    """A mode that reads a terminal says so, and one that reads none does not."""
    for words, typed, begins in ((["import", "--dir", os.path.join(folder, "typed")], b"a\tb\n", True), (["replay"], b"flush\n", True),
                                 (["put", "--dir", os.path.join(folder, "typed"), "k", "v"], b"", False)):
        ours, theirs = pty.openpty()
        os.write(ours, typed + b"\x04")
        _, told = on_terminal(words, source=theirs)
        os.close(ours)
        os.close(theirs)
        ask(told == ("reading the terminal, up to an end of input (Ctrl-D)\r\n" if begins else ""), words[0], "told", repr(told))


def check_shell(folder):
    """A shell on a terminal has a prompt there, and serve says on one that it is no shell."""
    words, store = [PROGRAM, "shell", "--dir", os.path.join(folder, "shell")], os.path.join(folder, "shell")
    ours, theirs = pty.openpty()
    told = []
    reader = threading.Thread(target=read_all, args=(ours, told))
    child = subprocess.Popen(words, stdin=theirs, stdout=theirs, stderr=theirs)
    os.close(theirs)
    reader.start()
    for line in (b"put k v\n", b"get k\n", b"\x04"):
        deadline = time.time() + 60
        while not b"".join(told).endswith(b"bwlog> ") and time.time() < deadline:
            time.sleep(0.02)
        os.write(ours, line)
        time.sleep(0.2)
    status = child.wait(timeout=60)
    reader.join(timeout=30)
    os.close(ours)
    lines = b"".join(told).decode().replace("\r\n", "\n")
    wanted = "help lists the commands; quit, or Ctrl-D, ends\nbwlog> put k v\nok\nbwlog> get k\nv\nbwlog> \n"
    ask((status, lines) == (0, wanted), "a shell told", repr(lines), status)
    ran = subprocess.run([PROGRAM, "get", "--dir", store, "k"], capture_output=True, check=False)
    ask((ran.returncode, ran.stdout) == (0, b"v\n"), "behind a shell", ran)
    # What was put is kept before the next line is waited for, so a kill takes none of it.
    child = subprocess.Popen(words, stdin=subprocess.PIPE, stdout=subprocess.PIPE)
    child.stdin.write(b"put k w\n")
    child.stdin.flush()
    said = child.stdout.readline()
    child.kill()
    child.communicate()
    ran = subprocess.run([PROGRAM, "get", "--dir", store, "k"], capture_output=True, check=False)
    ask((said, ran.returncode, ran.stdout) == (b"ok\n", 0, b"w\n"), "behind a shell that was killed", said, ran)
    ours, theirs = pty.openpty()
    os.write(ours, b"quit\n\x04")
    _, told = on_terminal(["serve"], source=theirs)
    os.close(ours)
    os.close(theirs)
    ask("these are the requests of a program; for people there is bwlog shell\r\n" in told, "serve told", repr(told))


def check_proving(_folder):
    """What tools/shown.py says of a run that proves: the lines and the exit status are the run's."""
    lines = "rt: bw_record is kept: an earlier run proved it\nrt: bw_lows is kept: an earlier run proved it\n1 passed, 1 failed\n"
    start = (sys.executable, os.path.join(HERE, "..", "..", "tools", "shown.py"))
    printed, told = on_terminal([sys.executable, "-c", PROVING], start=start, wanted=3)
    over, standing = lines_of(told)
    ask((printed.decode(), standing) == (lines, ""), "shown.py printed", printed, standing)
    wanted = re.compile(r"crate [012] of \d+, \d+ s so far(, about \d+ (s|min) left)?")
    ask(all(wanted.fullmatch(it) for it in over), "shown.py told", over)
    ask([[it.split()[1] for it in over].count(number) > 0 for number in "12"] == [True] * 2, "shown.py told", over)
    ran = subprocess.run([*start, sys.executable, "-c", PROVING], capture_output=True, text=True, check=False)
    ask((ran.returncode, ran.stdout, ran.stderr) == (3, lines, ""), "without a terminal shown.py told", ran)


def main():
    with tempfile.TemporaryDirectory(dir=FAST) as folder:
        try:
            for check in (check_proving, check_typed, check_shell, check_slow, check_silent, check_added, check_large):
                check(folder)
        except Wrong as wrong:
            print("terminal: %s" % wrong)
            return 1
        finally:
            shutil.rmtree(folder, ignore_errors=True)
            os.makedirs(folder, exist_ok=True)
    print("terminal: long work is told on a terminal, by one line, and nowhere else")
    return 0


sys.exit(main())
