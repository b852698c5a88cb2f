#!/usr/bin/env python3
"""Runs the built program over the cases of cases/*.toml, and compares its exit status and all that it prints, on both streams.

It takes the programs to run (none: those that `rt ci` or `make run` leaves under out/, one of each compiler). Each file of cases is run in an
empty folder of its own, from its first case to its last, by each program; what a run leaves there, the next one finds. The first
case that goes otherwise ends the whole with status 1.

A file's keys before its first case stand for each case that does not give them. A case is a run:

  words          the words of the command line, each a text, or a table with its bytes in hex, as { hex = "ff" }
  script         what is read: a text, or pieces that follow each other
  lines          as a script, with an end of the line after each piece
  status         the exit status (0 if it is not given)
  prints         what stands on standard output, to the last byte (nothing where it is not given)
  prints_last    how that ends, in place of `prints`
  prints_either  a list of texts, one of which it is, in place of `prints`
  tells          what stands on standard error, to the last byte (nothing where it is not given)
  is_told        true: something stands there, in place of `tells`
  beside         a folder, whose lock is held while the program runs
  memory         how many MB of addresses the process may have
  stack          how many of them a thread's stack wants
  resident       how many MB of memory the process may have touched at most
  as_owner       true: who runs it may do with files what their owner may, and no more, also if that is root
  fails_behind   what is read ends in an error of the system after so many bytes of the script
  goes_on        what is read does not end after the script: this text comes again and again (nothing, if it is empty)
  takes          standard output is a file, and the system refuses bytes after so many: `prints` is what it took
  errors_take    the same of standard error, and `tells`

or a step of one who stands outside:

  make           a folder that is made
  write, text    a file that is written, and what it then holds
  write, hex     the same by the digits of its bytes, a piece
  lengthen, bytes  a file that gets this length
  pipe           a pipe that is made under this name
  link, to       a link that is made under this name, and where it leads
  mode, bits     a file or folder that gets these permissions
  file, holds    a file, and what it has to hold
  missing        a name that nothing has
  note           a folder, of which is noted what it holds and when each part was changed last
  unchanged      a folder that was noted, and has to be as it was

A piece is a text, or a table:

  text, times              a text so many times
  line, times              a line so many times; {0} in it is its number, from 0 on
  of, times                a text that the file's table `texts` names, once or so many times
  of, first                of such a text, which is bytes in hex, so many bytes
  of, at, with             such bytes, with others from the byte at an offset on
  of, behind               such bytes, with others after them
"""

import contextlib
import ctypes
import fcntl
import os
import resource
import signal
import socket
import subprocess
import sys
import tempfile
import threading
import tomllib

HERE = os.path.dirname(os.path.abspath(__file__))
CASES = os.path.join(HERE, "cases")
PROGRAM = os.path.join(HERE, "..", "..", "crates", "bwlog")
BUILT = [os.path.join(PROGRAM, "out", name) for name in ("bwlog", "bwlog.by-rattle")]
LIMIT = 60
RUN = {"words", "script", "lines", "status", "prints", "prints_last", "prints_either", "tells", "is_told", "beside", "memory", "stack", "fails_behind", "takes", "errors_take", "resident", "as_owner", "goes_on"}
OUTSIDE = [{"make"}, {"write", "text"}, {"write", "hex"}, {"lengthen", "bytes"}, {"pipe"}, {"link", "to"}, {"mode", "bits"}, {"file", "holds"}, {"missing"},
           {"note"}, {"unchanged"}]
# Of prctl: a right that no program gets that the process begins; and by which root reads and writes what its mode forbids.
DROP, OVERRIDES = 24, (1, 2)


def changed(text, piece):
    """A named text, as a piece wants it. An offset and a length in bytes are two digits each."""
    keys = set(piece) - {"of"}
    if keys == {"first"}:
        return text[: 2 * piece["first"]]
    if keys == {"at", "with"}:
        at = 2 * piece["at"]
        return text[:at] + piece["with"] + text[at + len(piece["with"]) :]
    if keys == {"behind"}:
        return text + piece["behind"]
    if keys - {"times"}:
        raise ValueError("no such piece: %s" % piece)
    return text * piece.get("times", 1)


def text_of(piece, texts):
    """The text of a piece, or of pieces that follow each other."""
    if isinstance(piece, str):
        return piece
    if isinstance(piece, list):
        return "".join(text_of(it, texts) for it in piece)
    if "of" in piece:
        return changed(texts[piece["of"]], piece)
    if set(piece) == {"line", "times"}:
        return "".join(piece["line"].format(number) + "\n" for number in range(piece["times"]))
    if set(piece) == {"text", "times"}:
        return piece["text"] * piece["times"]
    raise ValueError("no such piece: %s" % piece)


def script_of(case, texts):
    if "lines" in case:
        return "".join(ended(piece, texts) for piece in case["lines"])
    return text_of(case.get("script", ""), texts)


def ended(piece, texts):
    """A piece with an end of the line after it; lines have theirs."""
    has_ends = isinstance(piece, dict) and "line" in piece
    return text_of(piece, texts) + ("" if has_ends else "\n")


def is_printed(case, output, texts):
    if "prints_last" in case:
        return output.endswith(case["prints_last"].encode())
    if "prints_either" in case:
        return output in [text.encode() for text in case["prints_either"]]
    return output == text_of(case.get("prints", ""), texts).encode()


def is_told(case, errors):
    if case.get("is_told", False):
        return errors != b""
    return errors == case.get("tells", "").encode()


def set_limits(case):
    """What the process may have: so many MB of addresses, so many for the stack of a thread, and files of so many bytes."""
    if case.get("as_owner", False):
        for right in OVERRIDES:
            # (refused to one who is not root, and has no such right)
            ctypes.CDLL(None).prctl(DROP, right, 0, 0, 0)
    if "stack" in case:
        resource.setrlimit(resource.RLIMIT_STACK, (case["stack"] << 20, case["stack"] << 20))
    if "memory" in case:
        most = case["memory"] << 20
        resource.setrlimit(resource.RLIMIT_AS, (most, most))
    for key in ("takes", "errors_take"):
        if key in case:
            signal.signal(signal.SIGXFSZ, signal.SIG_IGN)
            resource.setrlimit(resource.RLIMIT_FSIZE, (case[key], case[key]))


def failing(text):
    """A stream that has this text and then fails: an end of a pair whose other end was closed while it had bytes that nobody read."""
    end, other = socket.socketpair()
    end.sendall(b"unread")
    other.sendall(text)
    other.close()
    return end


def pour(end, text, again):
    """Writes a text into an end, and then another again and again, until nobody reads it."""
    with contextlib.suppress(OSError):
        end.sendall(text)
        while again:
            end.sendall(again)


@contextlib.contextmanager
def endless(text, again):
    """A stream that has this text and then another again and again, and does not end."""
    end, other = socket.socketpair()
    with end, other:
        thread = threading.Thread(target=pour, args=(other, text, again))
        thread.start()
        yield end
        # (who waits for room learns that nobody reads any more)
        other.shutdown(socket.SHUT_RDWR)
        thread.join()


def given_to(case, text, stack):
    """What a process reads."""
    if "fails_behind" in case:
        return stack.enter_context(failing(text[: case["fails_behind"]]))
    if "goes_on" in case:
        return stack.enter_context(endless(text, case["goes_on"].encode()))
    file = stack.enter_context(tempfile.TemporaryFile())
    file.write(text)
    file.seek(0)
    return file


def ended_run(program, case, texts, folder):
    """A run that has ended: its exit status, what it printed on each stream, and how many KB of memory it had touched at most."""
    words = [it if isinstance(it, str) else bytes.fromhex(it["hex"]) for it in case["words"]]
    text = script_of(case, texts).encode()
    with contextlib.ExitStack() as stack:
        source = given_to(case, text, stack)
        # A limit is one of all files, so beside one that has it the other stream is a pipe; nobody prints more than that holds then.
        limited = [key in case for key in ("takes", "errors_take")]
        files = [stack.enter_context(tempfile.TemporaryFile()) if is_it or not any(limited) else None for is_it in limited]
        streams = {key: file or subprocess.PIPE for key, file in zip(("stdout", "stderr"), files)}
        process = stack.enter_context(
            subprocess.Popen([program, *words], stdin=source, cwd=folder, preexec_fn=lambda: set_limits(case), **streams)
        )
        timer = threading.Timer(LIMIT, process.kill)
        timer.start()
        _, status, usage = os.wait4(process.pid, 0)
        timer.cancel()
        process.returncode = os.waitstatus_to_exitcode(status)
        for file in filter(None, files):
            file.seek(0)
        printed, told = [(file or pipe).read() for file, pipe in zip(files, (process.stdout, process.stderr))]
    return process.returncode, printed, told, usage.ru_maxrss


def run(program, case, texts, folder):
    """What went otherwise in a run, or nothing."""
    status, output, errors, touched = ended_run(program, case, texts, folder)
    told = []
    if status == -signal.SIGKILL:
        told.append("it did not end within %d s" % LIMIT)
    if status != case.get("status", 0):
        told.append("its status is %d" % status)
    if not is_printed(case, output, texts):
        told.append("it printed %r" % output)
    if not is_told(case, errors):
        told.append("it told %r" % errors)
    if touched > case.get("resident", touched) << 10:
        told.append("it touched %d KB" % touched)
    return told


def run_beside(program, case, texts, folder):
    """Runs a case while somebody holds the folder's lock."""
    with open(os.path.join(folder, case["beside"], "lock"), "rb") as lock:
        fcntl.flock(lock, fcntl.LOCK_EX | fcntl.LOCK_NB)
        return run(program, case, texts, folder)


def noted(folder):
    """What a folder holds: of each name its kind, its bytes and when it was changed last, and when the folder was."""
    found = {"": os.stat(folder).st_mtime_ns}
    for entry in os.scandir(folder):
        state = entry.stat(follow_symlinks=False)
        held = None
        if entry.is_file(follow_symlinks=False):
            with open(entry.path, "rb") as file:
                held = file.read()
        found[entry.name] = (state.st_mode, state.st_mtime_ns, held)
    return found


def put_outside(case, texts, folder):
    """Makes or changes what a step says."""
    path = {key: os.path.join(folder, case[key]) for key in ("make", "write", "lengthen", "pipe", "link", "mode") if key in case}
    if "make" in case:
        os.mkdir(path["make"])
    elif "write" in case:
        text = case["text"].encode() if "text" in case else bytes.fromhex(text_of(case["hex"], texts))
        with open(path["write"], "wb") as file:
            file.write(text)
    elif "lengthen" in case:
        os.truncate(path["lengthen"], case["bytes"])
    elif "pipe" in case:
        os.mkfifo(path["pipe"])
    elif "link" in case:
        os.symlink(case["to"], path["link"])
    elif "mode" in case:
        os.chmod(path["mode"], case["bits"])


def stand_outside(case, texts, folder, notes):
    """A step that is no run: what went otherwise, or nothing."""
    if "note" in case:
        notes[case["note"]] = noted(os.path.join(folder, case["note"]))
    elif "unchanged" in case:
        name = case["unchanged"]
        found = noted(os.path.join(folder, name))
        parts = {*found, *notes[name]}
        return ["%s/%s is not as it was" % (name, it) for it in sorted(parts) if found.get(it) != notes[name].get(it)]
    elif "missing" in case:
        if os.path.lexists(os.path.join(folder, case["missing"])):
            return ["there is %s" % case["missing"]]
    elif "file" in case:
        with open(os.path.join(folder, case["file"]), "rb") as file:
            held = file.read()
        if held != case["holds"].encode():
            return ["the file holds %r" % held]
    else:
        put_outside(case, texts, folder)
    return []


def walk(program, given):
    """Goes through a file's cases. What went otherwise in the first that did, with its number from 1 on, or nothing."""
    cases, texts = given.pop("cases"), given.pop("texts", {})
    notes = {}
    with tempfile.TemporaryDirectory() as folder:
        for number, case in enumerate(cases, 1):
            if set(case) in OUTSIDE:
                told = stand_outside(case, texts, folder, notes)
            else:
                case = {**given, **case}
                if set(case) - RUN:
                    raise ValueError("no such key: %s" % (set(case) - RUN))
                told = (run_beside if "beside" in case else run)(program, case, texts, folder)
            if told:
                return ["case %d: %s" % (number, "; ".join(told)), *("  %s = %r" % it for it in case.items())], number
    return [], len(cases)


def main():
    programs = sys.argv[1:] or [it for it in BUILT if os.path.isfile(it)]
    if not programs:
        print("there is no program under out/: make run builds it")
        return 1
    count = 0
    for name in sorted(os.listdir(CASES)):
        for program in programs:
            with open(os.path.join(CASES, name), "rb") as file:
                told, walked = walk(os.path.abspath(program), tomllib.load(file))
            if told:
                print("%s, %s, %s" % (os.path.basename(program), name, "\n".join(told)))
                return 1
            count += walked
    print("cases: %d went as told, by %s" % (count, " and ".join(os.path.basename(it) for it in programs)))
    return 0


sys.exit(main())
