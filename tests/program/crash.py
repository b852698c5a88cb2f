#!/usr/bin/env python3
"""make crash: kills the built `bwlog threads --dir` at random moments, and looks at what is left.

A round has a folder of its own and three runs of the same writers over it. Two are killed (SIGKILL), the third one goes to its
end. After each, `bwlog scan --dir` has to find lawful pages that hold, of each writer, what it had before and a beginning of the
script that it was given, and nothing else; or, before the first whole frame, no frame (E12) and at most one file with bytes. A
process that is killed loses nothing that it gave the system: a loss of power is not tried here."""

import os
import random
import re
import shutil
import signal
import subprocess
import sys
import tempfile
import time

from checks import Wrong, ask

HERE = os.path.dirname(os.path.abspath(__file__))
PROGRAM = os.path.join(HERE, "..", "..", "crates", "bwlog", "out", "bwlog")
ROUNDS = int(sys.argv[1]) if len(sys.argv) > 1 else 100
WRITERS, RECORDS, M = 4, 1000, 4
OPTIONS = ["--writers", str(WRITERS), "--segments", "64", "--capacity", "65560", "--m", str(M)]


def records(writer, run):
    """A writer's script. Each record changes what the ones before it left, so each beginning leaves something else. The keys
    begin with the writer's letter."""
    letter = chr(ord("a") + writer)
    for i in range(RECORDS):
        if i % 4 == 3:
            yield "del", letter + "%d%04d" % (run, i - 2), None
        elif i % 4 == 2:
            yield "put", letter + "last", "%d-%d" % (run, i)
        else:
            yield "put", letter + "%d%04d" % (run, i), "%d" % i


def script(run):
    """The scripts of all writers, as lines."""
    lines = []
    for row in zip(*(records(writer, run) for writer in range(WRITERS))):
        for writer, (word, key, value) in enumerate(row):
            lines.append(" ".join([word, str(writer), key] + [value] * (value is not None)))
    return "\n".join(lines) + "\n"


def beginning(before, found, writer, run):
    """How many records of its script a writer's pairs show after what it had before; None if they show no beginning."""
    pairs, count = dict(before), 0
    for word, key, value in records(writer, run):
        if pairs == found:
            return count
        if word == "put":
            pairs[key] = value
        else:
            del pairs[key]
        count += 1
    return count if pairs == found else None


def pages_of(lines):
    """The pairs of all pages, if these are lawful: numbers and counts, keys within their page and in order."""
    pages = []
    for number, line in enumerate(lines, 1):
        words = line.split(" ")
        pairs = [tuple(word.split("=")) for word in words[6:]]
        ask(words[:3] == ["page", str(number), "low"] and words[4:6] == ["pairs", str(len(pairs))], "line " + line)
        pages.append(("" if words[3] == "0x" else words[3], pairs))
    pages.sort()
    for at, (low, pairs) in enumerate(pages):
        keys = [key for key, _ in pairs]
        above = pages[at + 1][0] if at + 1 < len(pages) else None
        ask(len(keys) <= M and keys == sorted(set(keys)), "page of low " + low)
        ask(all(low <= key and (above is None or key < above) for key in keys), "keys of the page of low " + low)
    ask(pages and pages[0][0] == "" and len(set(low for low, _ in pages)) == len(pages), "lows")
    return {key: value for _, pairs in pages for key, value in pairs}


def filled(folder):
    """How many segments have bytes."""
    names = [name for name in os.listdir(folder) if name.endswith(".bw")] if os.path.isdir(folder) else []
    return sum(1 for name in names if os.path.getsize(os.path.join(folder, name)))


def scan(folder):
    """What recovery finds: the number of frames that stand and all pairs; 0 and none before the first frame."""
    ran = subprocess.run([PROGRAM, "scan", "--dir", folder], capture_output=True, text=True)
    if ran.returncode == 6 and not os.path.isdir(folder):
        return 0, {}
    if ran.returncode == 4:
        ask(ran.stdout == "refused E12 Empty\n" and filled(folder) <= 1, "scan: " + ran.stdout)
        return 0, {}
    ask(ran.returncode == 0 and not ran.stderr, "scan: " + ran.stdout + ran.stderr)
    lines = ran.stdout.splitlines()
    live = re.fullmatch(r"segments (\d+) spares \d+ dropped ([01])", lines[0])
    frames = re.fullmatch(r"frames (\d+) (\d+) tail \d+", lines[1])
    ask(live and frames, "scan: " + ran.stdout)
    ask(int(live[1]) + int(live[2]) == filled(folder), "files with bytes that are no segments")
    return int(frames[2]) - int(frames[1]) + 1, pages_of(lines[2:])


def run_writers(folder, run, seconds):
    """Runs the writers, kills them after so many seconds, and answers the status and what was printed."""
    with tempfile.TemporaryFile("w+") as given:
        given.write(script(run))
        given.seek(0)
        ran = subprocess.Popen([PROGRAM, "threads", "--dir", folder] + OPTIONS, stdin=given, stdout=subprocess.PIPE, text=True)
        if seconds is not None:
            time.sleep(seconds)
            ran.send_signal(signal.SIGKILL)
        printed = ran.communicate()[0]
    return ran.returncode, printed


def look(folder, had, run):
    """What the folder holds after a run: frames, the pairs of each writer, and how many records of its script these show."""
    frames, pairs = scan(folder)
    found = [{k: v for k, v in pairs.items() if k[0] == chr(ord("a") + writer)} for writer in range(WRITERS)]
    ask(sum(map(len, found)) == len(pairs), "keys of no writer")
    counts = [beginning(had[writer], found[writer], writer, run) for writer in range(WRITERS)]
    ask(None not in counts, "no beginning: %s" % counts)
    return frames, found, counts


def told_all(printed, found):
    """Whether a run says that all was accepted, and prints all pairs in order."""
    lines = printed.splitlines()
    at = lines.index("entries %d" % (WRITERS * RECORDS))
    lines = lines[at + 1 :]
    accepted = ["writer %d %d of %d" % (writer, RECORDS, RECORDS) for writer in range(WRITERS)]
    pairs = sorted(key + "=" + value for of_writer in found for key, value in of_writer.items())
    return lines == accepted + ["pairs %d" % len(pairs)] + pairs


def one_round(folder, longest, seen):
    """Two runs that are killed, and one that is not."""
    had = [{}] * WRITERS
    for run in range(3):
        status, printed = run_writers(folder, run, random.uniform(0, longest) if run < 2 else None)
        if printed.startswith("segments 0 "):
            # Some file had bytes, and no frame was whole: the run began anew.
            ask(run > 0 and seen["frames"][-1] == 0, "begun anew over frames")
            seen["anew"] += 1
        ask(status in (0, -signal.SIGKILL) and (run < 2 or status == 0), "status %d: %s" % (status, printed))
        frames, had, counts = look(folder, had, run)
        if status == 0:
            ask(counts == [RECORDS] * WRITERS and told_all(printed, had), "a run that ended lacks records")
            seen["ended"] += 1
        else:
            seen["killed"] += 1
            seen["empty"] += frames == 0
            seen["frames"].append(frames)
            seen["records"].append(sum(counts))


def main():
    ask(os.path.exists(PROGRAM), PROGRAM + " is not built: make run")
    seen = {"killed": 0, "ended": 0, "empty": 0, "anew": 0, "frames": [], "records": []}
    room = tempfile.mkdtemp(prefix="bwlog-crash-")
    began = time.time()
    ask(run_writers(os.path.join(room, "whole"), 0, None)[0] == 0, "a run that is not killed fails")
    longest = 1.1 * (time.time() - began)
    wrong = []
    for number in range(ROUNDS):
        folder = os.path.join(room, "round-%d" % number)
        try:
            one_round(folder, longest, seen)
            shutil.rmtree(folder, ignore_errors=True)
        except Wrong as fault:
            wrong.append("%s: %s" % (folder, fault))
    print("rounds %d killed %d ended %d" % (ROUNDS, seen["killed"], seen["ended"]))
    print("no frame %d, begun anew over a beginning %d" % (seen["empty"], seen["anew"]))
    print("frames found %d to %d, records of the killed run %d to %d" % (
        min(seen["frames"]), max(seen["frames"]), min(seen["records"]), max(seen["records"])))
    print("failed %d" % len(wrong))
    for line in wrong:
        print(line)
    if not wrong:
        shutil.rmtree(room, ignore_errors=True)
    return 1 if wrong else 0


sys.exit(main())
