#!/usr/bin/env python3
"""Each call on a file fails in turn, in each mode of the program that opens a folder: `tools/failing.c` stands before the system's calls, and says
that the device is at fault.

The program is run once for each call that it makes below its folders. It has to end by itself, and

- a folder that is only read stays as it was, to the byte;
- a new folder (`copy`, `copy --compact`, `follow`, `salvage`, `restore`, `backup`) is not there, or holds what it holds if nothing fails; that of a salvage
  that named a file as not read holds nothing else, and that of a restore may be no store;
- of a folder that is written each frame that was answered is there, a further run goes on from it, and what it answers was put;
- the answer is the one that is given if nothing fails, or it ends with the folder's fault, a refusal, or what a salvage lost.

With a number N after the program every N-th call fails.
"""

import concurrent.futures
import os
import re
import shutil
import subprocess
import sys
import tempfile

from checks import BUILT, FAST, held_in, shim_of

PROGRAM = os.path.abspath(sys.argv[1]) if len(sys.argv) > 1 else BUILT
EVERY = int(sys.argv[2]) if len(sys.argv) > 2 else 1
LIMIT = 60


def run(words, text="", env=None):
    ended = subprocess.run([PROGRAM, *words], input=text.encode(), capture_output=True, timeout=LIMIT, check=False, env=env)
    return ended.returncode, ended.stdout.decode(), ended.stderr.decode()


def beside(shim, words, text, folder, number):
    """A run of which this call on a file fails: its answer, and how many calls there were."""
    count = os.path.join(os.path.dirname(folder), "count-" + os.path.basename(folder))
    env = dict(os.environ, LD_PRELOAD=shim, FAILING=folder, FAILING_AT=str(number), FAILING_COUNT=count)
    try:
        answer = run(words, text, env)
    except subprocess.TimeoutExpired:
        answer = None
    with open(count, "rb") as cell:
        made = int.from_bytes(cell.read(8), sys.byteorder)
    os.remove(count)
    return answer, made


def pairs_of(folder):
    """The pairs of a folder, or what the program said."""
    status, printed, told = run(["list", "--dir=" + folder])
    return dict(line.split("\t") for line in printed.splitlines()) if status == 0 else (status, printed, told)


# ---- modes that only read a folder, and those that make a new one


class Reads:
    """A mode over a folder `from`, which stays as it is; TO is made by some."""

    def __init__(self, name, *words, damaged=False):
        self.name, self.words, self.text, self.damaged = name, words, "", damaged

    def begin(self, folder, made):
        shutil.copytree(made, os.path.join(folder, "from"))
        if self.damaged:
            with open(os.path.join(folder, "from", "segment-0001.bw"), "r+b") as file:
                file.seek(60)
                byte = file.read(1)
                file.seek(60)
                file.write(bytes([byte[0] ^ 1]))
        self.before = held_in(os.path.join(folder, "from"))

    def left_wrong(self, folder, answer, whole):
        if held_in(os.path.join(folder, "from")) != self.before:
            return "the folder that is read has changed"
        new = os.path.join(folder, "to")
        if not os.path.exists(new):
            return None if answer[0] != 0 or "--to={}/to" not in self.words else "it was told, and is not there"
        status, printed, told = run(["verify", "--dir=" + new])
        if status != 0:
            # A restore writes its sums last, so its bytes may have none; and no part of its files is a store.
            return None if self.words[0] == "restore" and answer[0] == 6 else "the new folder is not whole: %r" % ((status, printed, told),)
        pairs = pairs_of(new)
        if self.words[0] == "salvage" and " not read: " in answer[1]:
            return None if pairs.items() <= whole.items() else "the new folder has %r" % (pairs,)
        return None if pairs == whole else "the new folder has %r" % (pairs,)

    def whole(self, folder):
        new = os.path.join(folder, "to")
        return pairs_of(new) if os.path.exists(new) else None


# ---- modes that write a folder


class Writes:
    """A mode over a folder `from` that it changes, by a script of puts. `told` finds in its answers how many of the puts are durable."""

    def __init__(self, name, words, text, puts, told=None, backup=False):
        self.name, self.words, self.text, self.puts, self.told, self.backup = name, words, text, puts, told, backup

    def begin(self, folder, made):
        shutil.copytree(made, os.path.join(folder, "from"))

    def left_wrong(self, folder, answer, _whole):
        """Each put that is durable is there, the others are there from the first on or not at all, and the next run goes on."""
        store = os.path.join(folder, "from")
        there = pairs_of(store)
        if isinstance(there, tuple):
            # A file that could not be emptied or removed is named, and nothing of the store is lost by it.
            return "the folder is not opened: %r" % (there,)
        there = {key: value for key, value in there.items() if key in dict(self.puts)}
        count = len(there)
        wanted = dict(self.puts[:count])
        if there != wanted:
            return "the folder has %r" % (there,)
        durable = self.told(answer) if self.told else (len(self.puts) if answer[0] == 0 else 0)
        if count < durable:
            return "%d puts are durable, and %d are there" % (durable, count)
        if self.backup and os.path.exists(os.path.join(folder, "to")):
            status, printed, told = run(["verify", "--dir=" + os.path.join(folder, "to")])
            if status != 0:
                return "the backup is not whole: %r" % ((status, printed, told),)
        status, printed, told = run(["put", "--dir=" + store, "next", "1"])
        if status != 0:
            return "the next put is refused: %r" % ((status, printed, told),)
        return None

    def whole(self, _folder):
        return None


def frames_told(answer):
    """The puts that were flushed, each by a flush of its own."""
    return len(re.findall(r"^frame \d+$", answer[1], re.M))


PUTS = [("new%d" % it, "v%d" % it) for it in range(4)]
FLUSHED = "".join("put 0 %s %s\nflush\n" % it for it in PUTS)
ASKED = "".join("put %s %s\nflush\n" % it for it in PUTS)
MODES = [
    Reads("verify", "verify", "--dir={}/from"),
    Reads("verify of a damaged folder", "verify", "--dir={}/from", damaged=True),
    Reads("copy", "copy", "--dir={}/from", "--to={}/to"),
    Reads("copy --compact", "copy", "--dir={}/from", "--to={}/to", "--compact"),
    Reads("follow", "follow", "--dir={}/from", "--to={}/to", "--once"),
    Reads("salvage", "salvage", "--dir={}/from", "--to={}/to"),
    Reads("salvage of a damaged folder", "salvage", "--dir={}/from", "--to={}/to", damaged=True),
    Reads("restore", "restore", "--dir={}/from", "--to={}/to", "--frame=9"),
    Reads("list", "list", "--dir={}/from"),
    Reads("count", "count", "--dir={}/from"),
    Reads("export", "export", "--dir={}/from"),
    Reads("scan", "scan", "--dir={}/from"),
    Reads("stats", "stats", "--dir={}/from"),
    Writes("put", ["put", "--dir={}/from", *PUTS[0]], "", PUTS[:1]),
    Writes("import", ["import", "--dir={}/from"], "".join("%s\t%s\n" % it for it in PUTS), PUTS),
    Writes("replay", ["replay", "--dir={}/from"], FLUSHED + "clean\nsettle\n", PUTS, frames_told),
    Writes("replay --reuse", ["replay", "--dir={}/from", "--reuse"], FLUSHED + "clean\nclean\n", PUTS, frames_told),
    Writes("serve", ["serve", "--dir={}/from"], ASKED + "clean\n", PUTS, frames_told),
    Writes("backup", ["serve", "--dir={}/from"], ASKED + "backup {}/to\n", PUTS, frames_told, backup=True),
]


def one(shim, mode, made, number, whole_answer, whole):
    """A run of a mode of which this call fails: what it answered, how many calls there were, and what is wrong."""
    with tempfile.TemporaryDirectory(dir=FAST) as outer:
        folder = os.path.join(outer, "all")
        os.mkdir(folder)
        # (a mode keeps what it saw of its folder)
        here = type(mode).__new__(type(mode))
        here.__dict__.update(mode.__dict__)
        here.begin(folder, made)
        answer, calls = beside(shim, [it.format(folder) for it in mode.words], mode.text.format(folder), folder, number)
        if answer is None:
            return answer, calls, "no end within %d seconds" % LIMIT, None
        plain = tuple(it.replace(folder, "{}") if isinstance(it, str) else it for it in answer)
        if number == 0:
            return plain, calls, here.left_wrong(folder, answer, here.whole(folder)), here.whole(folder)
        wrong = here.left_wrong(folder, answer, whole)
        if wrong is None and plain != whole_answer and not is_refusal(plain, whole_answer):
            wrong = "the answer is %r" % (plain,)
        return plain, calls, wrong, None


def is_refusal(answer, whole):
    """What was answered before, and then a word why it ends: the folder's fault (status 6), a refusal or a loss (4). A backup that is not made is reported
    in a line of its own, and the store goes on."""
    status, printed, told = answer
    if status == 0:
        return bool(re.search(r"^fault .*\n", printed, re.M)) and whole[1].startswith(printed[: printed.index("fault ")])
    return status == 6 and told.startswith("folder {}/") and told.endswith("\n") or status == 4 and "refused E" in printed + told or status == 4 and " not read: " in printed


def made_folder(outer):
    """A folder of seven live segments, more than a run begins with, with pages that were split, whose files have digests. A listing that fails and
    is passed over would leave the last ones out."""
    folder = os.path.join(outer, "made")
    script = ""
    for at in range(40):
        script += "put 0 key%02d value%02d\nflush\n" % (at, at)
        if at % 6 == 5:
            script += "roll\n"
    status, printed, told = run(["replay", "--dir=" + folder, "--segments=8", "--m=4", "--capacity=65560"], script)
    assert status == 0, (printed, told)
    return folder


def main():
    wrong = count = 0
    with tempfile.TemporaryDirectory(dir=FAST) as outer:
        shim = shim_of("failing", outer)
        made = made_folder(outer)
        with concurrent.futures.ThreadPoolExecutor(min(4, os.cpu_count() or 1)) as pool:
            for mode in MODES:
                whole_answer, calls, told, whole = one(shim, mode, made, 0, None, None)
                if told or whole_answer is None or calls == 0:
                    print("%s goes otherwise where nothing fails: %r, %s" % (mode.name, whole_answer, told))
                    wrong += 1
                    continue
                numbers = range(1, calls + 3, EVERY)
                others = 0
                for number, (_, _, told, _) in zip(numbers, pool.map(lambda it: one(shim, mode, made, it, whole_answer, whole), numbers)):
                    if told:
                        others += 1
                        print("%s, call %d of %d: %s" % (mode.name, number, calls, told))
                wrong += others
                count += len(numbers)
                print("%s: %d of %d calls failed, %d runs went otherwise" % (mode.name, len(numbers), calls, others), flush=True)
    print("failing: %d runs, %d of them went otherwise" % (count, wrong))
    return 1 if wrong else 0


if __name__ == "__main__":
    sys.exit(main())
