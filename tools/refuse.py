"""Refuses allocations, one after the other, of the tests of refused memory and of the built program.

The tests sweep by themselves: a test says by marks (crates/test_kit/src/marks.rt) which allocation of which call is to be refused, asks the
call again and again until it needs no more, and compares what each refusal left. One run of each test, beside the shim (refuse.c), is
all of it.

The program is run over the worked scripts once for each allocation that it makes. It has to end with status 5, after
`refused E1 NoMemory` and the answers of the lines before it; or it answers as with memory, if what is only there to be fast was left
out. A folder that it leaves has to show the frames that were answered, and the next run has to go on from it.

    refuse.py [--every N] [--tests FILE] [--program FILE] [--jobs N]

`--every 5` refuses every fifth of the program's allocations: the sample of `make test`. FILE is a program of tests, or bwlog; those that
`rt ci`, `rt test` and `make run` leave under out/ if none is named.
"""

import argparse
import concurrent.futures
import os
import re
import resource
import signal
import subprocess
import sys
import tempfile

HERE = os.path.dirname(os.path.abspath(__file__))
CRATES = os.path.join(HERE, "..", "crates")
# Crates whose tests are all of refused memory, and those with a module of them.
ALL = ("memory_tests", "without_tests")
SOME = ("log_tests", "drive_tests", "folder_tests")
TESTS = [os.path.join(CRATES, it, "out", it + "_tests") for it in ALL + SOME]
PROGRAM = os.path.join(CRATES, "bwlog", "out", "bwlog")
REFUSED = b"refused E1 NoMemory\n"
LIMIT = 60


def beside(shim, words, number, folder, **more):
    """A run beside the shim that refuses this allocation: its status, what it printed on each stream, and the shim's counts."""
    count = os.path.join(folder, "count")
    env = {"LD_PRELOAD": shim, "REFUSE": str(number), "REFUSE_COUNT": count}
    try:
        ended = subprocess.run(words, env=env, capture_output=True, timeout=LIMIT, check=False, **more)
    except subprocess.TimeoutExpired:
        return "no end within %d seconds" % LIMIT, b"", b"", [0] * 4
    with open(count, "rb") as cells:
        counts = [int.from_bytes(cells.read(8), sys.byteorder) for _ in range(4)]
    return ended.returncode, ended.stdout, ended.stderr, counts


# ---- tests


def names_in(tests):
    """The tests of refused memory: all of some crates, and the module memory of others."""
    listed = subprocess.run([tests, "--list"], capture_output=True, check=True).stdout.decode().split("\n")
    names = [line.removesuffix(": test") for line in listed if line.endswith(": test")]
    return names if any(it in tests for it in ALL) else [it for it in names if "::memory::" in it]


def is_tested(shim, tests, name, folder):
    """Whether a test passes, and asked the shim."""
    status, printed, told, counts = beside(shim, [tests, name], 0, folder, cwd=folder)
    made, refused, windows, without = counts
    if status != 0 or windows == 0:
        print("%s: status %s, %d windows\n%s" % (name, status, windows, (printed + told).decode(errors="replace")))
        return False
    print("%s: %d allocations refused in %d windows, of which %d without any memory; %d counted" % (name, refused, windows, without, made))
    return True


# ---- the program


class Case:
    """A worked script: its command line and input, the records that its frames hold, how many bytes a file may have,
    a segment that stands in the folder "from", if one does, and whether a refusal is printed on standard error. "{}" in a word is the
    folder of the run."""

    def __init__(self, name, words, text, records=None, file_bytes=None, segment=None, tells=False):
        self.name, self.words, self.text, self.records, self.file_bytes = name, words, text.encode(), records, file_bytes
        self.segment, self.tells = segment, tells

    def words_in(self, folder):
        if self.segment:
            os.mkdir(os.path.join(folder, "from"))
            with open(os.path.join(folder, "from", "segment-0000.bw"), "wb") as file:
                file.write(bytes.fromhex(self.segment))
        return [it.format(folder) for it in self.words]

    def set_limit(self):
        if self.file_bytes is not None:
            signal.signal(signal.SIGXFSZ, signal.SIG_IGN)
            resource.setrlimit(resource.RLIMIT_FSIZE, (self.file_bytes, self.file_bytes))


FIVE = "".join("put 0 %s %d\nflush\n" % it for it in zip("abcde", range(1, 6)))
THREE = "put 0 k 1\nflush\nroll\nput 0 j 2\nflush\nroll\nput 0 k 3\nflush\n"
OF_THREE = [("k", "1"), ("j", "2"), ("k", "3")]
ASKED = "page 1\ncuts\nsegments\nleases\nhistory\n"
FIRST = "42574c4f475347310100000000000000040000000040000046524d31010000000000000020000000020000000201000000000000010100000001000000000000000000000001" + "0001016b0176"
CASES = [
    Case("five puts", ["replay"], FIVE + "page 1\npage 2\npage 3\nsegments\ndump 1\n", list(zip("abcde", "12345"))),
    Case("a cleaning", ["replay"], THREE + "clean\n" + ASKED, OF_THREE),
    Case("two cleanings", ["replay"], THREE + "clean\nleases\nsegments\nclean\nclean\nadd\n" + ASKED, OF_THREE),
    Case("room that is made", ["replay", "--segments=2", "--most-segments=5"], THREE + "get j\n"),
    Case("an eviction", ["replay"], "put 0 k v\nturn 1\nevict 1\nflush\nevict 1\nevict 1\npage 1\nget k\nevict 1\nput 0 l w\nsettle\n", [("k", "v"), ("l", "w")]),
    Case("an append that fails", ["replay"], "put 0 k v\nflush\nput 0 j 2\nflush\nflush\npage 1\ncuts\n", [("k", "v")], file_bytes=80),
    Case("writers", ["threads", "--limit=2", "--flush-every=1"], "".join("put %d %s%d %d\n" % (w, "ab"[w], it, it) for it in range(4) for w in range(2))),
    Case("readers", ["threads", "--readers=2"], "put 0 a 1\nput 1 b 2\ngroup 0 put a 3 put c 4\ndel 1 b\n"),
    Case("requests", ["serve", "--places=2"], "put k v\nput l w\nput m x\nget k\nnext l\nflush\nevict 1\nnext l\npage 1\nstats\nclean\nzap\n"),
    Case("pages that leave", ["serve", "--memory=0", "--m=4"],
         "".join("put k%d v\n" % it for it in range(9)) + "flush\nget k1\nput k1 w\nget k1\nget k7\nnext k4\nflush\nget k1\nscan k0 9\nprev k3\ndel k7\ncount\nflush\nget k7\n"),
    Case("requests on tables", ["serve", "--tables", "--places=2"],
         "create t\ncreate u\nput t k v\nput t l 0x" + "07" * 1100 + "\nget t l\nbatch 3\nput t a 1\ndel t k\nput u b 0x" + "08" * 700 + "\n"
         "scan t 0x00 8\nabove t a 1\nnext t b\ncount u\ntables\ndrop t\nflush\nget u b\nbatch 1\nget\n"),
    Case("room that requests want", ["serve", "--segments=2", "--most-segments=5", "--capacity=65560", "--m=4"],
         "".join("put k%d %s\n" % (it, "v" * 500) + "flush\n" * (it % 40 == 39) for it in range(160)) + "flush\nstats\n"),
    Case("a scan", ["scan"], "\n" + FIRST + "\n42574c\n"),
    Case("a print", ["print"], "\n" + FIRST + "\n42574c\n"),
    Case("counts in JSON", ["stats", "--format=json"], "\n" + FIRST + "\n42574c\n"),
    Case("counts", ["stats"], "\n" + FIRST + "\n42574c\n"),
    Case("a picture", ["picture"], "\n" + FIRST + "\n42574c\n"),
    Case("an upgrade", ["upgrade"], "\n" + FIRST + "\n42574c\n"),
    Case("limits that a folder does not heed", ["replay", "--dir={}/from", "--m=9", "--frame=65537"], "get k\n", segment=FIRST),
    Case("a put of a key", ["put", "--dir={}/store", "k", "v"], "", tells=True),
    Case("a value that is read", ["put", "--dir={}/store", "k", "-"], "v", tells=True),
    Case("a key that is deleted", ["del", "--dir={}/from", "k"], "", segment=FIRST, tells=True),
    Case("a key that is got", ["get", "--dir={}/from", "k"], "", segment=FIRST, tells=True),
    Case("keys that are got", ["get", "--dir={}/from", "k", "k"], "", segment=FIRST, tells=True),
    Case("keys that are deleted", ["del", "--dir={}/from", "k", "l"], "", segment=FIRST, tells=True),
    Case("a stretch that is deleted", ["del", "--dir={}/from", "--prefix=k"], "", segment=FIRST, tells=True),
    Case("keys that are counted", ["count", "--dir={}/from"], "", segment=FIRST, tells=True),
    Case("a list", ["list", "--dir={}/from", "--from=a", "--to=z", "--prefix=k", "--reverse"], "", segment=FIRST, tells=True),
    Case("the last of a list", ["list", "--dir={}/from", "--last=1", "--format=json"], "", segment=FIRST, tells=True),
    Case("an export", ["export", "--dir={}/from", "--format=print"], "", segment=FIRST, tells=True),
    Case("an import", ["import", "--dir={}/store", "--skip"], "a\t1\nb\nc\t0x32\n", tells=True),
    Case("an import in order", ["import", "--dir={}/store"], "".join("k%02d\t%d\n" % (it, it) for it in range(80)), tells=True),
    Case("an import that only adds", ["import", "--dir={}/store", "--keep-old"], "a\t1\na\t2\n", tells=True),
    Case("an import that deletes", ["import", "--dir={}/from", "--delete"], "k\nl\n", segment=FIRST, tells=True),
    Case("what an import would do", ["import", "--dir={}/from", "--dry-run"], "k\tv\nl\t1\n", segment=FIRST, tells=True),
    Case("an import of JSON", ["import", "--dir={}/store", "--format=json"], '{"key":"a","value":"1"}\n', tells=True),
    Case("a shell", ["shell", "--dir={}/from"], "put l 'v w'\nget l\nlist\nscan a 1\nzap\ndel k\n", segment=FIRST),
    Case("an import of a dump", ["import", "--dir={}/store", "--format=dump"], "VERSION=3\nHEADER=END\n 61\n 31\nDATA=END\n", tells=True),
    Case("a table that is made", ["tables", "--dir={}/store", "--create=t"], "", tells=True),
    Case("pairs that go into a table", ["import", "--dir={}/store", "--table=t", "--skip"], "a\t1\nb\nc\t0x%s\n" % ("32" * 600), tells=True),
    Case("databases that go into tables", ["import", "--dir={}/store", "--format=dump", "--named"], "VERSION=3\ndatabase=t\nHEADER=END\n 61\n 31\nDATA=END\n", tells=True),
    Case("a folder as of a frame", ["restore", "--dir={}/from", "--to={}/to", "--frame=1"], "", segment=FIRST),
    Case("a folder that is verified", ["verify", "--dir={}/from"], "", segment=FIRST),
    Case("a copy", ["copy", "--dir={}/from", "--to={}/to"], "", segment=FIRST),
    Case("a compacted copy", ["copy", "--dir={}/from", "--to={}/to", "--compact"], "", segment=FIRST),
    Case("a salvage", ["salvage", "--dir={}/from", "--to={}/to"], "", segment=FIRST),
    Case("a backup", ["serve", "--dir={}/from"], "put l w\nbackup {}/to\nget l\n", segment=FIRST),
]
# Modes that look at segments, and keep none.
LOOKS = ("scan", "print", "stats", "picture", "restore", "upgrade")


def pairs_in(printed):
    """The pairs of the pages that a scan printed."""
    return dict(it.split("=") for line in printed.decode().splitlines() if line.startswith("page ") for it in line.split(" ")[6:])


def frames_told(case, printed):
    """How many frames the answers name."""
    told = [int(it) for it in re.findall(r"^frame (\d+)$", printed.decode(), re.M)]
    return max(told, default=0)


def left_wrong(program, case, folder, printed):
    """What is wrong with the folder that a run left; nothing if the frames that were answered are there, and another run goes on."""
    store = os.path.join(folder, "store")
    told = frames_told(case, printed)
    if not os.path.isdir(store):
        return None if told == 0 else "there is no folder"
    scan = subprocess.run([program, "scan", "--dir=" + store], capture_output=True, check=False)
    found = re.search(rb"^frames \d+ (\d+) tail ", scan.stdout, re.M)
    if scan.returncode != 0 or not found:
        if told == 0 and (scan.returncode, scan.stdout) == (4, b"refused E12 Empty\n"):
            return goes_on(program, store, {})
        return "scan of the folder answers %r" % ((scan.returncode, scan.stdout, scan.stderr),)
    if int(found[1]) < told:
        return "%d frames were told, and the folder has %r" % (told, scan.stdout)
    if case.records is None:
        return goes_on(program, store, pairs_in(scan.stdout))
    # Each put is flushed by itself; after them come the cleaner's frames.
    wanted = dict(case.records[: int(found[1])])
    if pairs_in(scan.stdout) != wanted:
        return "the folder has %r, and the frames %r" % (scan.stdout, wanted)
    return goes_on(program, store, wanted)


def goes_on(program, store, pairs):
    """What is wrong with a run that follows."""
    text = "put 0 z 9\nsettle\n" + "".join("get %s\n" % it for it in pairs)
    ended = subprocess.run([program, "replay", "--segments=9", "--dir=" + store], input=text.encode(), capture_output=True, check=False)
    wanted = "ok\nsettled 1\n" + "".join("value %s\n" % it for it in pairs.values())
    if ended.returncode != 0 or not ended.stdout.endswith(wanted.encode()):
        return "the next run answers %r" % ((ended.returncode, ended.stdout, ended.stderr),)
    return None


def run_of(shim, program, case, number, in_folder):
    """A run of a case that is refused this allocation: what it answered, how many it made, and what is wrong with what it left."""
    with tempfile.TemporaryDirectory() as folder:
        words = [program, *case.words_in(folder)] + ["--dir=" + os.path.join(folder, "store")] * in_folder
        text = case.text.replace(b"{}", folder.encode())
        status, printed, told, counts = beside(shim, words, number, folder, input=text, preexec_fn=case.set_limit)
        wrong = left_wrong(program, case, folder, printed) if in_folder else None
        if case.tells:
            wrong = goes_on(program, os.path.join(folder, "from" if case.segment else "store"), {})
    return (status, printed, told.replace(folder.encode(), b"{}")), counts[0], wrong


def is_answered(case, answer, whole):
    """Whether a run that was refused an allocation ended as it may."""
    status, printed, told = answer
    if answer == whole:
        return True
    if case.tells:
        # An import says how much of it is durable.
        told = re.sub(rb"^(imported|deleted) \d+ before that, which are durable\n", b"", told, flags=re.M)
        # (before the words are read no mode is known, and all is printed)
        return status == 5 and (told == REFUSED and whole[1].startswith(printed) or (printed, told) == (REFUSED, b""))
    if status != 5 or not whole[2].startswith(told):
        return False
    return printed.endswith(REFUSED) and whole[1].startswith(printed.removesuffix(REFUSED))


def case_wrong(shim, program, case, in_folder, every, pool):
    """How many runs of a case went otherwise, and how many there were."""
    # Of writers in threads two runs print the same, whatever the schedule; how many allocations they make differs.
    whole, made, wrong = run_of(shim, program, case, 0, in_folder)
    if wrong or whole[0] not in (0, 4, 7) or made == 0:
        print("%s goes otherwise with memory: %r, %s" % (case.name, whole, wrong))
        return 1, 1
    numbers = range(1, made + made // 8 + 1, every)
    runs = pool.map(lambda number: run_of(shim, program, case, number, in_folder), numbers)
    count = 0
    for number, (answer, _, wrong) in zip(numbers, runs):
        if wrong or not is_answered(case, answer, whole):
            count += 1
            print("%s, allocation %d: %r, %s" % (case.name, number, answer, wrong))
    print("bwlog, %s%s: %d of %d allocations refused, %d runs went otherwise" % (case.name, " in a folder" * in_folder, len(numbers), made, count))
    return count, len(numbers)


def main():
    given = argparse.ArgumentParser(description=__doc__.split("\n", maxsplit=1)[0])
    given.add_argument("--every", type=int, default=1)
    given.add_argument("--tests", action="append")
    given.add_argument("--program", default=PROGRAM)
    given.add_argument("--jobs", type=int, default=min(2, os.cpu_count() or 1))
    given = given.parse_args()
    wrong, count = 0, 0
    with tempfile.TemporaryDirectory() as folder, concurrent.futures.ThreadPoolExecutor(given.jobs) as pool:
        shim = os.path.join(folder, "refuse.so")
        subprocess.run(["cc", "-O2", "-shared", "-fPIC", "-o", shim, os.path.join(HERE, "refuse.c")], check=True)
        for tests in given.tests or TESTS:
            names = names_in(os.path.abspath(tests))
            if not names:
                print("%s has no test of refused memory" % tests)
                wrong += 1
            wrong += sum(not is_tested(shim, os.path.abspath(tests), name, folder) for name in names)
        program = os.path.abspath(given.program)
        for case in CASES:
            for in_folder in (False, True):
                if (case.words[0] in LOOKS or case.segment or case.tells) and in_folder or case.file_bytes is not None and not in_folder:
                    continue
                other, runs = case_wrong(shim, program, case, in_folder, given.every, pool)
                wrong += other
                count += runs
    print("refuse: %d runs of the program, %d of them and of the tests went otherwise" % (count, wrong))
    return 1 if wrong else 0


if __name__ == "__main__":
    sys.exit(main())
