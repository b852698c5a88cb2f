#!/usr/bin/env python3
"""The third part of make crash: damage is reported, and no loss of power is reported as damage.

Runs of `bwlog replay --dir` over drawn scripts go under a library that notes each write, cut and sync of the folder's files
(tools/watch.c). Then folders are put together as a loss of power could leave them. Of a segment's file stands all that was synced, and of a
write in flight its first bytes. Of a file of sums, for whose writes nobody waits, stands any choice of what was written and cut since it was
last synced: each of these wholly, in part or not at all, a lost one with bytes of 0 in its place, or with what an earlier time had there.
None of these folders may be damaged, by a check that is written here from docs/FORMAT.md; drawn ones are looked at by `bwlog scan` too. And
before each append to a file that was emptied none of its old sums may come back.

Last, of the folder that each run leaves, each of many drawn bits is changed: in a segment's file `bwlog scan` has to report the damage, by the
file and by where its piece begins; in a file of sums it has to say what it said before. And each segment's file is cut, at and beside the end of
each piece and at drawn lengths, and removed: `scan` and `put` have to say what is missing, and `put` leaves the folder as it is.

    sums.py [STATES [SEED [WHOLE]]]

WHOLE is how many small folders are asked in full (one if it is not given): each bit of each file is changed, and each file is cut at each length,
with the files of sums and without them. With them each change of a segment is reported, and none of the sums changes an answer. Without them no byte
has a digest: a change may go unseen then, as docs/FORMAT.md says, but the program ends by itself, with an answer or a refusal, and `verify` says
that the bytes have none.
"""

import concurrent.futures
import os
import random
import shutil
import struct
import subprocess
import sys
import tempfile

from checks import BUILT as PROGRAM, FAST, Wrong, ask, held_in, notes_of, shim_of, write

STATES = int(sys.argv[1]) if len(sys.argv) > 1 else 20000
SEED = int(sys.argv[2]) if len(sys.argv) > 2 else 1
WHOLE = int(sys.argv[3]) if len(sys.argv) > 3 else 1
OPTIONS = ["--places", "64", "--m", "4", "--segments", "3", "--capacity", "65560"]
# The status of a run that is refused for damage.
DAMAGED = 4
SUM, WORD = 24, (1 << 64) - 1
# How many states one is looked at by the program, and how many bits are changed of what a run leaves.
EACH, BITS = 200, 40


# ---- sums, as docs/FORMAT.md has them


def turned(number, by):
    return (number << by | number >> (64 - by)) & WORD


def digest(data):
    """SipHash-1-3 with both keys 0."""
    v0, v1, v2, v3 = 0x736F6D6570736575, 0x646F72616E646F6D, 0x6C7967656E657261, 0x7465646279746573
    whole = len(data) // 8
    words = list(struct.unpack_from("<%dQ" % whole, data))
    words.append(int.from_bytes(data[8 * whole :], "little") | (len(data) & 255) << 56)
    for step, word in enumerate(words + [None, None, None]):
        if word is None:
            v2 ^= 255 if step == len(words) else 0
        else:
            v3 ^= word
        v0, v2 = (v0 + v1) & WORD, (v2 + v3) & WORD
        v1, v3 = turned(v1, 13) ^ v0, turned(v3, 16) ^ v2
        v0 = turned(v0, 32)
        v2, v0 = (v2 + v1) & WORD, (v0 + v3) & WORD
        v1, v3 = turned(v1, 17) ^ v2, turned(v3, 21) ^ v0
        v2 = turned(v2, 32)
        v0 ^= word or 0
    return v0 ^ v1 ^ v2 ^ v3


def pieces(data, sums):
    """Where the pieces begin and end whose sums count, and their digests."""
    begin, mark, found = 0, 0, []
    for at in range(0, len(sums) - SUM + 1, SUM):
        end, told, its = struct.unpack_from("<QQQ", sums, at)
        if not begin < end <= len(data) or its != digest(struct.pack("<QQQ", mark, end, told)):
            break
        found.append((begin, end, told))
        begin, mark = end, its
    return found


def damage(data, sums):
    """Where the first piece begins that does not fit, or None."""
    for begin, end, told in pieces(data, sums):
        if digest(data[begin:end]) != told:
            return begin
    return None


def told_end(sums):
    """Where the last piece ends that has a sum, be it there or not."""
    begin, mark = 0, 0
    for at in range(0, len(sums) - SUM + 1, SUM):
        end, told, its = struct.unpack_from("<QQQ", sums, at)
        if not begin < end or its != digest(struct.pack("<QQQ", mark, end, told)):
            break
        begin, mark = end, its
    return begin


def missing(data, sums):
    """Where the bytes end, and where the sums say that they did, or None."""
    end = told_end(sums)
    return (len(data), end) if end > len(data) else None


# ---- a run, and what it asked of the system


def script(draw):
    lines = []
    for step in range(draw.randrange(12, 24)):
        for _ in range(draw.randrange(1, 6)):
            lines.append("put 0 k%d v%d%s" % (draw.randrange(24), step, "x" * draw.choice((0, 3, 90))))
        lines.append(draw.choice(("flush", "flush", "settle", "turn 40")))
        lines += draw.choice((["roll"], ["roll"], ["clean"], ["clean", "add"], ["clean", "add"], []))
    return "\n".join(lines + ["settle"]) + "\n"


def run(shim, room, folder, draw):
    log = os.path.join(room, "notes")
    if os.path.exists(log):
        os.remove(log)
    ran = subprocess.run(
        [PROGRAM, "replay", "--dir", folder] + OPTIONS + draw.choice(([], ["--reuse"])), input=script(draw), capture_output=True, text=True,
        check=False, env={"LD_PRELOAD": shim, "WATCH": folder, "WATCH_LOG": log},
    )
    ask(ran.returncode in (0, 4), "status", ran.returncode, ran.stdout[-300:], ran.stderr)
    return notes_of(log)


# ---- folders as a loss of power could leave them


def changed(data, note):
    letter, offset, length, _, piece = note
    if letter == "t":
        return data[:length].ljust(length, b"\0")
    return data.ljust(offset, b"\0")[:offset] + piece + data[offset + len(piece) :]


class Disk:
    """What stands of each file for certain, what the system shows, and what was asked of each file of sums since its last sync."""

    def __init__(self, files):
        self.stands, self.now = dict(files), dict(files)
        self.waits = {}

    def ask(self, note):
        letter, _, _, name, _ = note
        if letter == "o":
            self.now.setdefault(name, b"")
            self.stands.setdefault(name, b"")
        elif letter in "wt":
            self.now[name] = changed(self.now[name], note)
            self.waits.setdefault(name, []).append(note)
        elif letter == "s":
            self.stands[name] = self.now[name]
            self.waits[name] = []

    def sums(self, name, draw):
        """A file of sums as it may be: some of what it waits for is done, in any part."""
        data, chance = self.stands[name], draw.random()
        for note in self.waits.get(name, []):
            if draw.random() < chance:
                continue
            letter, offset, length, _, piece = note
            if letter == "w" and draw.random() < 0.2:
                cut = draw.randrange(len(piece))
                piece = piece[:cut] if draw.random() < 0.5 else bytes(cut) + piece[cut:]
            data = changed(data, (letter, offset, length, name, piece))
        if draw.random() < 0.2:
            data = data[: draw.randrange(len(data) + 1)]
        return data

    def segment(self, name, draw):
        """A segment's file as it may be: of the writes for which nobody waited yet the first bytes of one, or none."""
        data = self.stands[name]
        for note in self.waits.get(name, []):
            letter, offset, length, _, piece = note
            if draw.random() < 0.3:
                break
            if letter == "w" and offset == len(data) and draw.random() < 0.5:
                return changed(data, (letter, offset, length, name, piece[: draw.randrange(len(piece) + 1)]))
            data = changed(data, note)
        return data

    def left(self, draw):
        return {name: (self.sums if name.endswith(".sum") else self.segment)(name, draw) for name in self.stands}


def segments_of(files):
    """The files of segments, those too of which only the sums are there."""
    beside = {name[: -len(".sum")] + ".bw" for name in files if name.endswith(".sum")}
    return sorted(beside | {name for name in files if name.endswith(".bw")})


def sums_of(files, name):
    return files.get(name[: -len(".bw")] + ".sum", b"")


def scan(folder):
    ran = subprocess.run([PROGRAM, "scan", "--dir", folder], capture_output=True, text=True, check=False)
    return ran.returncode, ran.stdout, ran.stderr


def look(files, image, draw):
    """Such a folder is not damaged."""
    for name in segments_of(files):
        data, sums = files.get(name, b""), sums_of(files, name)
        ask(damage(data, sums) is None, "a loss of power is told as damage of", name, "at", damage(data, sums))
        ask(missing(data, sums) is None, "a loss of power is told as bytes that are missing of", name, missing(data, sums))
    if draw.randrange(EACH) == 0:
        write(image, files)
        status, out, errors = scan(image)
        ask("damaged" not in errors and "missing" not in errors and (status == 0 or out == "refused E12 Empty\n"), "a loss of power:", status, out, errors)


def states_of(notes, disk, draw, many, image):
    """How many were looked at."""
    seen = 0
    for note in notes:
        disk.ask(note)
        if note[0] not in "wt":
            continue
        for _ in range(many):
            look(disk.left(draw), image, draw)
            seen += 1
    return seen


# ---- changed bits


def is_beside(name):
    """Whether a file says nothing of a segment's bytes by itself: the digests, and the times of frames."""
    return name.endswith(".sum") or name == "times"


def with_bit(data, bit):
    return data[: bit // 8] + bytes([data[bit // 8] ^ 1 << bit % 8]) + data[bit // 8 + 1 :]


def flipped(files, image, draw):
    """How many changed bits were reported."""
    write(image, files)
    before = scan(image)
    ask(before[0] == 0, "what a run left is refused:", before)
    names = [name for name in files if files[name] and name != "lock"]
    for _ in range(BITS):
        name = draw.choice(names)
        bit = draw.randrange(8 * len(files[name]))
        write(image, {**files, name: with_bit(files[name], bit)})
        after = scan(image)
        if is_beside(name):
            ask(after == before, "bit", bit, "of", name, "changes what is told:", after)
            continue
        begins = [begin for begin, end, _ in pieces(files[name], sums_of(files, name)) if begin <= bit // 8 < end]
        ask(len(begins) == 1, "byte", bit // 8, "of", name, "has no sum")
        told = "folder %s: damaged: %s at %d\n" % (image, name, begins[0])
        ask(after == (DAMAGED, "", told), "bit", bit, "of", name, "is told so:", after)
    return BITS


# ---- lost bytes


def lengths_of(data, sums, draw):
    """At, before and after the end of each piece, and drawn ones."""
    ends = [end for _, end, _ in pieces(data, sums)]
    near = {at for end in [0] + ends[-8:] for at in (end - 1, end, end + 1)}
    return sorted(at for at in near | {draw.randrange(len(data)) for _ in range(8)} if 0 <= at < len(data))


def shortened(files, image, draw):
    """How many files that were cut or removed were reported."""
    seen = 0
    for name in segments_of(files):
        data, sums = files[name], sums_of(files, name)
        if not data:
            continue
        ask(told_end(sums) == len(data), "bytes of", name, "have no sum")
        cuts = [{**files, name: data[:at]} for at in lengths_of(data, sums, draw)]
        for left in cuts + [{it: held for it, held in files.items() if it != name}]:
            write(image, left)
            told = "folder %s: missing: %s from %d to %d\n" % (image, name, len(left.get(name, b"")), len(data))
            ask(scan(image) == (DAMAGED, "", told), "lost bytes of", name, "are told so:", scan(image), "and not", told)
            ran = subprocess.run([PROGRAM, "put", "--dir", image, "k", "v"], capture_output=True, text=True, check=False)
            ask((ran.returncode, ran.stderr) == (DAMAGED, told), "lost bytes of", name, "are told to a put so:", ran.stderr)
            ask(held_in(image) == {**left, "lock": held_in(image).get("lock", b"")}, "a put changed a folder that lost bytes of", name)
            seen += 1
    return seen


# ---- each bit, and each length


def changes_of(data):
    """A file with each of its bits changed, and cut at each length."""
    for bit in range(8 * len(data)):
        yield "bit %d" % bit, with_bit(data, bit)
    for length in range(len(data)):
        yield "length %d" % length, data[:length]


def told_of(image, files, name, data):
    """What has to be said of a folder whose file has this in place of its bytes; nothing, if that is what was said before."""
    if is_beside(name):
        return None
    sums = sums_of(files, name)
    if not sums:
        return ""
    lost, at = missing(data, sums), damage(data, sums)
    if at is not None:
        return "folder %s: damaged: %s at %d\n" % (image, name, at)
    return "folder %s: missing: %s from %d to %d\n" % (image, name, *lost) if lost else ""


def ask_changes(image, files, name, before):
    """Asks of each change of a file; how many there were."""
    write(image, files)
    seen = 0
    for what, data in changes_of(files[name]):
        with open(os.path.join(image, name), "wb") as file:
            file.write(data)
        after, told = scan(image), told_of(image, files, name, data)
        if told is None:
            ask(after[:2] == before[:2], what, "of", name, "changes what is told:", after)
        elif told:
            ask(after == (DAMAGED, "", told), what, "of", name, "is told so:", after, "and not", told)
        else:
            ask(after[0] in (0, DAMAGED) and (after[0] == 0) == (not after[1].startswith("refused ")), what, "of", name, "without sums:", after)
        seen += 1
    return seen


def whole(folder, image, draw):
    """Changes each file of a small folder in each way, beside its sums and without any; how many changes there were."""
    lines = []
    for step in range(draw.randrange(3, 6)):
        lines += ["put 0 k%d v%d" % (draw.randrange(9), step) for _ in range(draw.randrange(1, 3))]
        lines += ["flush"] + draw.choice((["roll"], []))
    words = [PROGRAM, "replay", "--dir", folder, "--m", "4", "--segments", "8", "--capacity", "65560"]
    ran = subprocess.run(words, input="\n".join(lines) + "\n", capture_output=True, text=True, check=False)
    ask(ran.returncode == 0, "a small folder:", ran.stdout, ran.stderr)
    held = held_in(folder)
    bare = {name: data for name, data in held.items() if not name.endswith(".sum")}
    jobs = []
    for files in (held, bare):
        write(image, files)
        before = scan(image)
        ask(before[0] == 0, "a small folder is refused:", before)
        jobs += [(files, name, before) for name in sorted(files) if files[name]]
    write(image, bare)
    ran = subprocess.run([PROGRAM, "verify", "--dir", image], capture_output=True, text=True, check=False)
    ask(ran.returncode == 7, "verify without sums:", ran)
    with concurrent.futures.ThreadPoolExecutor(min(4, os.cpu_count() or 1)) as pool:
        return sum(pool.map(lambda it: ask_changes("%s %d" % (image, it[0]), *it[1]), enumerate(jobs)))


# ---- many sums


# So many that a reading of 65,536 bytes of them would end before the last.
MANY = 2800


def many(folder, image):
    """A changed bit is reported after however many sums."""
    script_ = "".join("put 0 k %d\nflush\n" % number for number in range(MANY))
    ran = subprocess.run([PROGRAM, "replay", "--dir", folder], input=script_, capture_output=True, text=True, check=False)
    ask(ran.returncode == 0, "many flushes:", ran.returncode, ran.stdout[-200:], ran.stderr)
    files = held_in(folder)
    name = max(segments_of(files), key=lambda it: len(files[it]))
    told = pieces(files[name], sums_of(files, name))
    ask(len(told) > MANY, "of", MANY, "pieces", len(told), "have a sum")
    for begin, end, _ in (told[-1], told[-60]):
        write(image, {**files, name: with_bit(files[name], 8 * (end - 1))})
        said = "folder %s: damaged: %s at %d\n" % (image, name, begin)
        ask(scan(image) == (DAMAGED, "", said), "behind many sums:", scan(image), "and not", said)


def main():
    ask(os.path.exists(PROGRAM), PROGRAM + " is not built: make run")
    ask(digest(b"abc") == 0xC03BC3A0042630F2, "SipHash-1-3 is another")
    draw, seen, bits, cuts, runs = random.Random(SEED), 0, 0, 0, 0
    with tempfile.TemporaryDirectory(dir=FAST, prefix="bwlog-sums-") as room:
        shim = shim_of("watch", room)
        folder, image = os.path.join(room, "run"), os.path.join(room, "left")
        try:
            while seen < STATES:
                shutil.rmtree(folder, ignore_errors=True)
                os.makedirs(folder)
                disk = Disk({})
                for _ in range(2):
                    seen += states_of(run(shim, room, folder, draw), disk, draw, 20, image)
                bits += flipped(held_in(folder), image, draw)
                cuts += shortened(held_in(folder), image, draw)
                runs += 1
            many(os.path.join(room, "many"), image)
            each = sum(whole(os.path.join(room, "small %d" % step), image, draw) for step in range(WHOLE))
        except Wrong as wrong:
            print("seed %d, script %d: %s" % (SEED, runs, wrong))
            return 1
    told = "%d folders of %d scripts: none is damaged; of %d changed bits each was told, or changed nothing; each of %d cuts was told"
    print(told % (seen, runs, bits, cuts))
    print("each bit and each length of %d small folders, %d changes: as told" % (WHOLE, each))
    return 0


if __name__ == "__main__":
    sys.exit(main())
