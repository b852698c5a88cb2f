#!/usr/bin/env python3
"""Damage is found, and what is whole is saved: `bwlog verify`, `copy`, `salvage` and `restore`, beside a walk of the format in Python.

A drawn script leaves a folder of several segments, whose pages were split and whose oldest segment was given up. Then

- a bit of each byte of it is changed in turn, and `verify` has to name the file and where the piece with that byte begins;
- its files of digests are cut, emptied, removed, and put beside the segments of another folder, and `verify` reports what the check of sums.py reports;
- `salvage` is asked of each beginning of its newest segment, of the folder without each of its segments, of the folder with a changed bit in each of
  its frames and headers, with digests and without: what it prints and what its new folder holds are compared with what a walk over the format
  says, which is written here from docs/FORMAT.md and docs/USING.md;
- `copy` and `copy --compact` have its pairs, whose pages are full; `restore` of each frame before a changed bit is that of the whole folder.

Then `serve` is asked for backups while records come. Each opens as what was put before it, and is whole. Copies are killed at drawn moments: the
new folder is not there then, or it is whole, and the next copy takes over what is left. Last, a library notes what each mode that makes a folder
asks of the system (tools/watch.c): the new folder gets its name once each of its files, and each of their names, is synced.

With a second number the script is another.
"""

import fcntl
import os
import random
import shutil
import subprocess
import sys
import tempfile

# Its numbers are not those of sums.py, whose check of digests stands here too.
WORDS, sys.argv[1:] = sys.argv[1:], []
import sums as digests  # noqa: E402
from checks import Wrong, ask, expect, held_in, notes_of, shim_of  # noqa: E402

HERE = os.path.dirname(os.path.abspath(__file__))
PROGRAM = WORDS[0] if WORDS else os.path.join(HERE, "..", "..", "crates", "bwlog", "out", "bwlog")
SEED = int(WORDS[1]) if len(WORDS) > 1 else 1
FAST = "/dev/shm" if os.path.isdir("/dev/shm") else None
M, CAPACITY = 4, 65560


def bwlog(*words, script=""):
    ran = subprocess.run([PROGRAM, *words], input=script, capture_output=True, text=True, check=False)
    return ran.returncode, ran.stdout, ran.stderr


# ---- the format


class Bad(Exception):
    pass


class Reader:
    """Numbers and runs of bytes, from the front."""

    def __init__(self, data, at=0):
        self.data, self.at = data, at

    def number(self, size):
        return int.from_bytes(self.run(size), "little")

    def run(self, size):
        if self.at + size > len(self.data):
            raise Bad()
        self.at += size
        return self.data[self.at - size : self.at]


def need(condition):
    if not condition:
        raise Bad()


def key(reader):
    size = reader.number(1)
    need(1 <= size <= 128)
    return reader.run(size)


def value(reader):
    size = reader.number(2)
    need(size <= 512)
    return reader.run(size)


def pairs(reader, least):
    count = reader.number(2)
    need(least <= count <= 32)
    found = [(key(reader), value(reader)) for _ in range(count)]
    need(all(a[0] < b[0] for a, b in zip(found, found[1:])))
    return dict(found)


def page(reader):
    number = reader.number(4)
    need(number >= 1)
    return number


def place(reader):
    frame, index = reader.number(8), reader.number(4)
    need(frame >= 1)
    return frame, index


def op(reader):
    kind = reader.number(1)
    need(kind in (1, 2))
    name = key(reader)
    return name, value(reader) if kind == 1 else None


def block(reader):
    kind = reader.number(1)
    number = page(reader)
    if kind == 1:
        back, count = place(reader), reader.number(2)
        need(count >= 1)
        return "delta", number, back, [op(reader) for _ in range(count)]
    if kind == 2:
        size = reader.number(1)
        need(size <= 128)
        low = reader.run(size)
        return "base", number, low, pairs(reader, 0)
    need(kind == 3)
    back = place(reader)
    low = key(reader)
    new = page(reader)
    need(new >= 2 and new != number)
    upper = pairs(reader, 1)
    need(min(upper) == low)
    return "split", number, back, low, new, upper


def frame(data, at):
    """The frame at an offset: its number, its blocks, and where it ends; None if there is none."""
    head = Reader(data, at)
    try:
        need(head.run(4) == b"FRM2")
        number, body, count = head.number(8), head.number(4), head.number(4)
        need(number >= 1 and 8 <= body <= 262144 - 20 and count >= 1)
        blocks = Reader(head.run(body))
        found = [block(blocks) for _ in range(count)]
        need(blocks.at == body)
    except Bad:
        return None
    return number, found, at + 20 + body


# ---- what a salvage brings back


def frames(data, pieces):
    """The whole frames of a segment, and the pieces that are named as unchecked."""
    around = {}
    for begin, end, told in pieces:
        fits = digests.digest(data[begin:end]) == told
        for at in range(begin, end):
            around[at] = (begin, end, fits)
    found, unchecked, at, last = [], [], 24, 0
    while at < len(data):
        piece, here = around.get(at), frame(data, at)
        if here and here[0] > last:
            if piece and not piece[2] and piece[:2] == (at, here[2]):
                at = here[2]
                continue
            if piece and not piece[2] and piece[:2] not in unchecked:
                unchecked.append(piece[:2])
            found.append(here[:2])
            last, at = here[0], here[2]
        elif piece and piece[0] == at and piece[1] - at <= 262144:
            at = piece[1]
        else:
            at = data.find(b"FRM2", at + 1)
            if at < 0:
                break
    return found, unchecked


def changed(held, name, new):
    if new is None:
        held.pop(name, None)
    else:
        held[name] = new


def touch(pages, gaps, number, back, here, change):
    """A block changes a page after another block."""
    line = pages.get(number)
    if line is None or line["lost"]:
        return
    if line["last"] != back and line["last"][0] == back[0]:
        line["lost"] = back[0]
        return
    if line["last"] != back:
        behind = line["last"][0] + 1
        line["lost"] = next((max(first, behind) for first, last in gaps if last >= behind), behind)
        return
    change(line["pairs"])
    line["last"] = here


def salvaged(files):
    """What is said of these files, and the pairs; None if nothing is left."""
    lines, all_frames = [], {}
    for name in digests.segments_of(files):
        data = files.get(name, b"")
        gone = digests.missing(data, digests.sums_of(files, name))
        lines += ["%s missing from %d to %d" % ((name,) + gone)] if gone else []
        held, unchecked = frames(data, digests.pieces(data, digests.sums_of(files, name)))
        lines += ["%s unchecked from %d to %d" % (name, begin, end) for begin, end in unchecked]
        for number, blocks in held:
            all_frames.setdefault(number, blocks)
    pages, gaps, last, greatest = {}, [], 0, 0
    for number in sorted(all_frames):
        if last and number > last + 1:
            gaps.append((last + 1, number - 1))
        last = number
        for index, it in enumerate(all_frames[number]):
            here = number, index
            greatest = max(greatest, it[1])
            if it[0] == "base":
                pages[it[1]] = {"low": it[2], "pairs": dict(it[3]), "last": here, "lost": None}
            elif it[0] == "delta":
                touch(pages, gaps, it[1], it[2], here, lambda held: [changed(held, *record) for record in it[3]])
            else:
                touch(pages, gaps, it[1], it[2], here, lambda held: [held.pop(name) for name in list(held) if name >= it[3]])
                greatest = max(greatest, it[4])
                pages[it[4]] = {"low": it[3], "pairs": dict(it[5]), "last": here, "lost": None}
    lines += ["frame %d lost" % first if first == end else "frames %d to %d lost" % (first, end) for first, end in gaps]
    after = 1
    for number in sorted(pages) + [greatest + 1]:
        if after < number:
            lines.append("page %d lost" % after if after == number - 1 else "pages %d to %d lost" % (after, number - 1))
        after = number + 1
        if number in pages and pages[number]["lost"]:
            lines.append("page %d lost from frame %d" % (number, pages[number]["lost"]))
    if not pages:
        return None
    order, kept = sorted((line["low"], line["pairs"]) for line in pages.values()), {}
    for index, (low, held) in enumerate(order):
        above = order[index + 1][0] if index + 1 < len(order) else None
        kept.update((k, v) for k, v in held.items() if k >= low and (above is None or k < above))
    return lines, kept


# ---- folders


def held_in(folder):
    return digests.held_in(folder)


def segments_of(files):
    return [name for name in sorted(files) if name.endswith(".bw") and files[name]]


def word_of(text):
    return bytes.fromhex(text[2:]) if text.startswith("0x") else text.encode()


def scan(folder):
    """The pairs that a folder holds, and how many each page has."""
    status, out, errors = bwlog("scan", "--dir", folder)
    ask(status == 0, "a new folder is refused:", out, errors)
    found, counts = {}, []
    for line in out.splitlines():
        words = line.split(" ")
        if words[0] == "page":
            counts.append(int(words[5]))
            found.update(tuple(map(word_of, word.split("="))) for word in words[6:])
    return found, counts


def fresh(room, name):
    path = os.path.join(room, name)
    shutil.rmtree(path, ignore_errors=True)
    shutil.rmtree(path + ".partial", ignore_errors=True)
    return path


def script(draw, rounds):
    lines = []
    for step in range(rounds):
        for _ in range(draw.randrange(1, 4)):
            name = "k%02d" % draw.randrange(40)
            lines.append("del 0 " + name if draw.random() < 0.15 else "put 0 %s v%d" % (name, step))
        lines.append("flush")
        lines += ["roll"] if step % 9 == 8 else []
        lines += ["clean", "add"] if step == 2 * rounds // 3 > 9 else []
    return "\n".join(lines + ["flush"]) + "\n"


def made(room, name, draw, rounds):
    path = fresh(room, name)
    status, out, errors = bwlog("replay", "--dir", path, "--m", str(M), "--segments", "12", "--capacity", str(CAPACITY), "--take", script=script(draw, rounds))
    ask(status == 0, out, errors)
    return held_in(path)


# ---- what is asked


def ask_verify(room, files, expected, *what):
    path = os.path.join(room, "image")
    digests.write(path, files)
    before = held_in(path)
    ask(bwlog("verify", "--dir", path) == expected, *what, "verify:", bwlog("verify", "--dir", path), "and not", expected)
    ask(held_in(path) == before, *what, "verify changed the folder")


def flips(room, files):
    """A changed bit of each byte is reported."""
    count = 0
    for name in segments_of(files):
        pieces = digests.pieces(files[name], digests.sums_of(files, name))
        ask(pieces[-1][1] == len(files[name]), "bytes of", name, "have no digest")
        for begin, end, _ in pieces:
            for at in range(begin, end):
                image = {**files, name: digests.with_bit(files[name], 8 * at + at % 8)}
                ask_verify(room, image, (4, "damaged: %s at %d\n" % (name, begin), ""), "byte", at, "of", name)
                count += 1
    return count


def told_of(files):
    """What `verify` has to say of whole segments, be their digests whole or not."""
    hurts, bare, bytes_, frames_, live = [], 0, 0, 0, 0
    for name in digests.segments_of(files):
        data, beside = files.get(name, b""), digests.sums_of(files, name)
        at, gone = digests.damage(data, beside), digests.missing(data, beside)
        if at is not None:
            hurts.append("damaged: %s at %d\n" % (name, at))
        elif gone:
            hurts.append("missing: %s from %d to %d\n" % ((name,) + gone))
        told = digests.pieces(data, beside)
        bare += len(data) - (told[-1][1] if told else 0)
        bytes_ += len(data)
        frames_ += len(frames(data, [])[0])
        live += 1 if data else 0
    if hurts:
        return 4, "".join(hurts), ""
    more = "without a digest bytes %d\n" % bare if bare else ""
    return 7 if bare else 0, "verified segments %d frames %d bytes %d\n%s" % (live, frames_, bytes_, more), ""


def sums_lost(room, files, other):
    """Files of digests that are cut, emptied, removed, or another folder's."""
    count = 0
    ask_verify(room, files, told_of(files), "whole")
    for name in segments_of(files):
        beside = name[: -len(".bw")] + ".sum"
        images = [{**files, beside: files[beside][:cut]} for cut in range(0, len(files[beside]), 5)]
        images += [{n: d for n, d in files.items() if n != beside}]
        images += [{**files, beside: other[it]} for it in other if it.endswith(".sum")]
        for image in images:
            ask_verify(room, image, told_of(image), "digests of", name)
            count += 1
    return count


def ask_salvage(room, files, *what):
    path, to = os.path.join(room, "image"), fresh(room, "saved")
    digests.write(path, files)
    before, expected = held_in(path), salvaged(files)
    status, out, errors = bwlog("salvage", "--dir", path, "--to", to)
    ask(held_in(path) == before, *what, "salvage changed the folder")
    if expected is None:
        ask((status, out) == (4, "refused E12 Empty\n") and not os.path.exists(to), *what, "salvage:", status, out, errors)
        return
    lines, kept = expected
    ask(status == (4 if lines else 0), *what, "salvage:", status, out, errors, "and not", lines)
    ask(out.splitlines()[:-1] == lines, *what, "salvage tells", out, "and not", lines)
    ask(scan(to)[0] == kept, *what, "salvage has", scan(to)[0], "and not", kept)
    ask(bwlog("verify", "--dir", to)[0] == 0 and not os.path.exists(to + ".partial"), *what, "the new folder")


def without_sums(files):
    return {name: data for name, data in files.items() if not name.endswith(".sum")}


def salvages(room, files, draw):
    count = 0
    names = segments_of(files)
    for cut in range(len(files[names[-1]]) + 1):
        ask_salvage(room, {**files, names[-1]: files[names[-1]][:cut]}, "the first", cut, "of", names[-1])
        count += 1
    for bare in (lambda it: it, without_sums):
        for gone in names:
            ask_salvage(room, bare({name: data for name, data in files.items() if name != gone}), "without", gone)
        for name in names:
            for begin, end, _ in digests.pieces(files[name], digests.sums_of(files, name)):
                bit = 8 * draw.randrange(begin, end) + draw.randrange(8)
                ask_salvage(room, bare({**files, name: digests.with_bit(files[name], bit)}), "bit", bit, "of", name)
                count += 1
        count += len(names)
    return count


def spoiled(data, draw):
    """Bytes with a bit changed, with some taken out or put in, or cut off."""
    at, kind = draw.randrange(len(data)), draw.random()
    if kind < 0.4:
        return digests.with_bit(data, 8 * at + draw.randrange(8))
    if kind < 0.6:
        return data[:at] + data[at + draw.randrange(60) :]
    if kind < 0.8:
        return data[:at] + draw.randbytes(draw.randrange(40)) + data[at:]
    return data[:at]


def wrecks(room, files, draw, many):
    """Salvages of folders in which several files are spoiled."""
    for step in range(many):
        image = without_sums(files) if draw.random() < 0.4 else dict(files)
        for _ in range(draw.randrange(1, 5)):
            name = draw.choice([it for it in image if image[it]])
            image[name] = spoiled(image[name], draw)
        ask_salvage(room, image, "wreck", step)
    return many


def copies(room, files):
    """A copy, one that is compact, what is refused, and a copy of a copy with a changed bit, whose digests are of whole segments."""
    path = os.path.join(room, "image")
    digests.write(path, files)
    held, to = scan(path)[0], fresh(room, "copy")
    status, out, errors = bwlog("copy", "--dir", path, "--to", to)
    ask(status == 0 and scan(to)[0] == held, "copy:", status, out, errors)
    ask({n: d for n, d in held_in(to).items() if n.endswith(".bw")} == {n: files[n] for n in segments_of(files)}, "a copy has other bytes")
    ask(bwlog("copy", "--dir", path, "--to", to)[0] == 6, "a folder that is there is written")
    copied = held_in(to)
    for name in segments_of(copied):
        for at in (3, 30, len(copied[name]) // 2, len(copied[name]) - 1):
            ask_salvage(room, {**copied, name: digests.with_bit(copied[name], 8 * at)}, "copy: byte", at, "of", name)
    digests.write(path, files)
    for m in (4, 5, 9, 32):
        to = fresh(room, "compact")
        status, out, errors = bwlog("copy", "--dir", path, "--to", to, "--compact", "--m", str(m), "--capacity", "65560")
        ask(status == 0, "compact:", status, out, errors)
        now, counts = scan(to)
        ask(now == held, "a compact copy has", now, "and not", held)
        ask(len([it for it in counts if it < m]) <= 1 and 0 not in counts, "pages are not full:", counts)


def restores(room, files):
    """Each frame before a fault is restored as if there was none. For one that went with a segment the missing page is named, if there is one."""
    path, names, count = os.path.join(room, "image"), segments_of(files), 0
    numbers = sorted(it[0] for name in names for it in frames(files[name], [])[0])
    first, last = numbers[0], numbers[-1]
    hurt = {**files, names[-1]: files[names[-1]][:-1] + b"\xff"}
    for number in range(first, last + 1):
        answers = []
        for image in (files, hurt, without_sums(hurt)):
            digests.write(path, image)
            to = fresh(room, "restored")
            status, out, errors = bwlog("restore", "--dir", path, "--to", to, "--frame", str(number))
            answers.append((status, out, errors.replace(path, ""), scan(to) if status == 0 else None))
        if "cannot be restored" in answers[0][2]:
            ask(answers[0][0] == 4 and answers[0][1] == "", "restore", number, answers[0])
            ask(all(it == answers[0] or it[0] == 4 and it[1].startswith("refused E17 Unlawful page ") for it in answers[1:]), "restore", number, answers[1:])
        elif number < last:
            ask(answers[0][:2] == answers[1][:2] and answers[0][3] == answers[1][3], "restore", number, answers[:2])
            ask(answers[0][0] != 0 or answers[0] == answers[2], "restore without digests", number, answers)
        else:
            ask(answers[0][0] == 0 and answers[1][0] == 4 and "damaged" in answers[1][2], "restore", number, answers)
        count += 1
    return count


def backups(room, draw):
    """Of a store under load: each backup has what was put before, and nothing else."""
    path, lines, wanted, held = fresh(room, "served"), [], [], {}
    for step in range(6000):
        name, word = b"k%03d" % draw.randrange(300), b"v%d" % step
        if draw.random() < 0.2:
            held.pop(name, None)
            lines.append(b"del " + name)
        else:
            held[name] = word
            lines.append(b"put %s %s" % (name, word))
        if draw.random() < 0.002:
            to = fresh(room, "backup %d" % len(wanted))
            lines.append(b"backup 0x" + to.encode().hex().encode())
            wanted.append((to, dict(held)))
            if draw.random() < 0.3:
                lines.append(lines[-1])
                wanted.append(None)
    served = subprocess.run(
        [PROGRAM, "serve", "--dir", path, "--m", "4", "--segments", "3", "--capacity", "65560", "--places", "8"],
        input=b"\n".join(lines) + b"\n", capture_output=True, check=False,
    )
    ask(served.returncode == 0, served.returncode, served.stderr)
    answers = [it for line, it in zip(lines, served.stdout.splitlines()[1:]) if line.startswith(b"backup")]
    ask(len(answers) == len(wanted) > 5 and served.stdout.count(b"\nok") == len(lines) - len(wanted), "answers", len(answers), served.stdout[-200:])
    for answer, want in zip(answers, wanted):
        if want is None:
            ask(answer.startswith(b"fault folder ") and answer.endswith(b": entity already exists"), "a second backup:", answer)
            continue
        to, pairs = want
        found, counts = scan(to)
        ask(found == pairs, to, "has", len(found), "pairs and not", len(pairs))
        ask(answer.startswith(b"copied frame ") and answer.endswith(b" pages %d pairs %d" % (len(counts), len(pairs))), answer)
        ask(bwlog("verify", "--dir", to)[0] == 0 and not os.path.exists(to + ".partial"), to, "is no store")
    return len(wanted)


def killed(room, draw):
    """Copies that are killed: how many left no new folder, and how many a whole one."""
    path, left, whole = fresh(room, "large"), 0, 0
    puts = "".join("put 0 k%05d %s\n" % (draw.randrange(20000), "v" * 200) for _ in range(20000))
    ask(bwlog("replay", "--dir", path, "--take", script=puts + "settle\n")[0] == 0, "a large folder")
    verified = bwlog("verify", "--dir", path)
    to = fresh(room, "cut")
    for step in range(30):
        # What is left of the one before is taken over.
        shutil.rmtree(to, ignore_errors=True)
        words = ["--compact"] if step % 3 == 2 else []
        began = subprocess.Popen([PROGRAM, "copy", "--dir", path, "--to", to, *words], stdout=subprocess.PIPE, stderr=subprocess.PIPE)
        try:
            began.communicate(timeout=draw.random() * 0.15 if step % 10 else 30)
        except subprocess.TimeoutExpired:
            began.kill()
            began.communicate()
        if not os.path.exists(to):
            left += 1
            continue
        whole += 1
        now = bwlog("verify", "--dir", to)
        ask(now[0] == 0 and (words or now == verified), "a copy that was killed:", now, "and not", verified)
        ask(not os.path.exists(to + ".partial"), "two folders stand")
    ask(left and whole, "copies are killed too late or too early:", left, whole)
    ask(bwlog("verify", "--dir", path) == verified, "a copy changed the folder")
    return left, whole


def partials(room):
    """What stands under the name that a new folder has meanwhile: what is left of a copy is taken over, and anything else stays."""
    path, to = os.path.join(room, "large"), fresh(room, "partials")
    part, mark = to + ".partial", os.path.join(to + ".partial", "unfinished")
    words = ("copy", "--dir", path, "--to", to)
    told = (6, "", "folder %s: entity already exists\nit is not what an earlier run left: give %s another name, and run this again\n" % (part, part))
    left = {name: b"left" for name in ("segment-0000.bw", "segment-0007.sum", "lock")}

    def stays(files, what):
        digests.write(part, files)
        expect(bwlog(*words), told, what)
        expect(held_in(part), files, what + ": its files")

    def goes(files, what):
        digests.write(part, files)
        ask(bwlog(*words)[0] == 0 and not os.path.exists(part), what, bwlog(*words))
        ask(not {"unfinished", "finished"} & set(os.listdir(to)), what, "leaves a mark")
        ask(bwlog("verify", "--dir", to)[0] == 0, what, "is no store")
        shutil.rmtree(to)

    stays(dict(left, mine=b""), "a folder with another file")
    stays(dict(left, unfinished=b"", mine=b""), "a folder with a mark and another file")
    stays(dict(left, finished=b"", **{"segment-notes.txt": b""}), "a folder with a mark and a file that is nearly a segment's")
    stays(left, "a store that nobody marked")
    os.mkdir(os.path.join(room, "inner"))
    shutil.rmtree(part)
    os.symlink(os.path.join(room, "inner"), part)
    expect(bwlog(*words), told, "a link")
    os.remove(part)
    with open(part, "w"):
        pass
    expect(bwlog(*words), told, "a file")
    os.remove(part)
    for locked, files in ((mark, dict(left, unfinished=b"")), (os.path.join(part, "finished"), dict(left, finished=b"")), (os.path.join(part, "lock"), dict(left, unfinished=b""))):
        digests.write(part, files)
        with open(locked) as file:
            fcntl.flock(file, fcntl.LOCK_EX)
            expect(bwlog(*words), (6, "", "folder %s: in use\n" % part), "a folder that somebody has: " + locked)
        ask(files.items() <= held_in(part).items(), "a folder that somebody has is changed")
    goes({}, "an empty folder")
    goes(dict(left, unfinished=b""), "what a copy left that was stopped")
    goes(dict(left, finished=b""), "what a copy left that was whole but for its name")
    goes(dict(left, finished=b"", unfinished=b""), "what was left of a copy that took one over")
    return 13


def synced(room, files):
    """Asks of each mode that makes a folder whether it gets its name after all that it holds is synced; how many files there were."""
    shim, path, count = shim_of("watch", room), fresh(room, "watched"), 0
    digests.write(path, files)
    for step, words in enumerate((["copy"], ["copy", "--compact"], ["salvage"], ["backup"])):
        to, log = fresh(room, "synced %d" % step), os.path.join(room, "notes %d" % step)
        asked = ["serve", "--dir", path] if words == ["backup"] else [*words, "--dir", path, "--to", to]
        lines = "backup 0x%s\n" % to.encode().hex() if words == ["backup"] else ""
        ran = subprocess.run([PROGRAM, *asked], input=lines, capture_output=True, text=True, check=False,
                             env=dict(os.environ, LD_PRELOAD=shim, WATCH=room, WATCH_LOG=log))
        ask(ran.returncode == 0 and os.path.isdir(to), *words, ran.stdout, ran.stderr)
        name, open_names, open_files, is_named = os.path.basename(to), set(), set(), False
        for letter, _, _, file, _ in notes_of(log):
            inside = file.split("/", 1)[1] if file.startswith(name + ".partial/") else None
            ask(not (is_named and file.startswith(name + "/") and letter in "wto"), "a file of", name, "changes after the folder has its name")
            if letter == "r" and file == name:
                ask(not open_names and not open_files, name, "has its name before these are synced:", sorted(open_names), sorted(open_files))
                is_named = True
            elif letter == "f" and file == name + ".partial":
                open_names.clear()
            elif inside is not None and letter == "o":
                open_names.add(inside)
                count += 1
            elif inside is not None and letter in "wt":
                open_files.add(inside)
            elif letter == "s":
                open_files.discard(inside)
        ask(is_named, name, "got no name")
    return count


def main():
    ask(os.path.exists(PROGRAM), PROGRAM + " is not built: make run")
    draw = random.Random(SEED)
    with tempfile.TemporaryDirectory(dir=FAST, prefix="bwlog-rescue-") as room:
        try:
            files, other = made(room, "run", draw, 42), made(room, "other", draw, 10)
            copies(room, files)
            saved = salvages(room, files, draw) + wrecks(room, files, draw, 200)
            lost = sums_lost(room, files, other)
            told = flips(room, files)
            restored = restores(room, files)
            backed = backups(room, draw)
            left, whole = killed(room, draw)
            taken = partials(room)
            files_synced = synced(room, files)
        except Wrong as wrong:
            print("seed %d: %s" % (SEED, wrong))
            return 1
    print("of killed copies %d left no folder, and %d a whole one; %d folders under the other name; %d files synced before their folder has its name" % (left, whole, taken, files_synced))
    print("each of %d changed bytes is told; %d folders with lost digests, %d salvages, %d frames restored, %d backups under load, copies: as told" % (told, lost, saved, restored, backed))
    return 0


if __name__ == "__main__":
    sys.exit(main())
