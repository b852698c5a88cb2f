"""Logs of both formats that are upgraded: what is printed, what the folder holds then, and what a stop leaves."""

import os
import shutil

from hostile.folders import laid, looked_at
from hostile.program import Otherwise, held_in
from hostile.reader import Base, Delta, Split, box_of, is_part, log_of, pages_told, set_last, told
from hostile.segments import Parts, aged_log, block_bytes, drawn_segments, frame_bytes, linked, segment_bytes

MOST = (1 << 64) - 1
# The spares behind lines, and how many bytes the segment of a line has room for, or a new one.
SPARES, ROOM = 4, 262168


def packed(log, pages):
    """The frames that hold a Base of each of these pages, as many as fit in each."""
    limit = max([box.f for box in log.boxes if box.version == 2], default=65536)
    frames, size = [], 0
    for number in pages:
        low, pairs = log.pages[number]
        block = Base(number, low, sorted(pairs.items()))
        length = len(block_bytes(block))
        if not frames or size + length > limit:
            frames.append([log.frames[-1][0] + 1 + len(frames), []])
            size = 20
        frames[-1][1].append(block)
        size += length
    return frames, limit


def upgraded(segments, spares):
    """What an upgrade of this log does: its first line, and the segments that stand then; or what refuses it."""
    log = log_of(segments)
    if isinstance(log, str):
        return log, None
    old = [box.number for box in log.boxes if box.version == 1]
    if not old:
        return "refused E11 NothingOld\n", None
    if log.frames[-1][0] == MOST:
        return "refused E8 Spent\n", None
    last = set_last(log)
    pages = [page for page in sorted(log.pages) if last[page] <= max(old)]
    frames, limit = packed(log, pages)
    held = {box_of(it).number: it for it in segments if it and not is_part(it)}
    newest = log.boxes[-1]
    end, takes, spares = newest.number, newest.version == 2 and newest.tail == 0, spares + log.spares
    for frame in frames:
        piece = frame_bytes(frame)
        if not takes or len(held[end]) + len(piece) > max(len(held[end]), ROOM):
            if spares == 0:
                return "refused E5 NoSegment\n", None
            if end == MOST:
                return "refused E8 Spent\n", None
            end, takes, spares = end + 1, True, spares - 1
            held[end] = segment_bytes(2, end, newest.m, limit, [])
        held[end] += piece
    standing = [held[it] for it in sorted(held) if it > max(old)]
    return "upgraded segments %d pages %d frames %d\n" % (len(old), len(pages), len(frames)), standing


def in_lines(program, segments):
    """The segments are lines: the answer is told to the last byte."""
    first, standing = upgraded(segments, SPARES)
    if len(segments) + SPARES > 64:
        first, standing = "refused E20 NoLease\n", None
    wanted = first
    if standing is not None:
        wanted += "".join("dump %s\n" % it.hex() for it in standing) + "".join(it + "\n" for it in pages_told(log_of(segments).pages))
    answer = program.run(["upgrade"], "".join(it.hex() + "\n" for it in segments).encode())
    if answer != (4 if standing is None else 0, wanted.encode(), b""):
        raise Otherwise("upgrade answers %r, and the reader %r" % (answer, wanted))
    return first.split(" ")[0 if standing is not None else 1]


def has_pages(program, folder, pages, what):
    """The folder has these pages, in format 2 alone."""
    held = list(held_in(folder).values())
    answer = program.run(["scan", "--dir=" + folder])
    if answer != (0, told(held).encode(), b""):
        raise Otherwise("scan behind %s answers %r, and the reader %r" % (what, answer, told(held)))
    if answer[1].decode().splitlines()[2:] != pages:
        raise Otherwise("other pages behind %s: %r, wanted %r" % (what, answer[1], pages))
    if any(box_of(it).version == 1 for it in held if len(it) >= 24):
        raise Otherwise("a segment of format 1 stands behind %s" % what)


def stopped(program, folder, before, after, pages, draw):
    """A folder as a stop may leave it: the files of old segments are emptied in order, once all frames stand."""
    olds = sorted((box_of(it).number, name) for name, it in before.items() if len(it) >= 24 and box_of(it).version == 1)
    grown = [name for name in after if after[name] != before.get(name, b"") and after[name]]
    left = {**before, **{name: after[name] for name in grown}}
    emptied = 0
    if draw.is_so(2):
        emptied = draw.randrange(len(olds))
        left.update({name: b"" for _, name in olds[:emptied]})
    elif len(grown) == 1:
        least = len(before.get(grown[0], b"")) if before.get(grown[0], b"") and not is_part(before[grown[0]]) else 0
        left[grown[0]] = after[grown[0]][: draw.randrange(least, len(after[grown[0]]))]
    shutil.rmtree(folder)
    laid(folder, [left[name] for name in sorted(left)])
    answer = program.run(["upgrade", "--dir=" + folder])
    if answer[0] != 0 or answer[2] or not answer[1].startswith(b"upgraded segments %d pages " % (len(olds) - emptied)):
        raise Otherwise("upgrade behind a stop answers %r" % (answer,))
    has_pages(program, folder, pages, "a second upgrade")


def in_a_folder(program, segments, folder, draw):
    """The segments are a folder's files: it has the same pages then; and a stop on the way leaves what a second upgrade finishes."""
    segments = segments[:50]
    laid(folder, segments)
    before = looked_at(folder)
    first, standing = upgraded(segments, 64)
    answer = program.run(["upgrade", "--dir=" + folder])
    if first == "refused E11 NothingOld\n":
        # A folder has nothing to win then, and that is no refusal.
        if answer != (0, b"upgraded segments 0 pages 0 frames 0, no segment has format 1\n", b"") or looked_at(folder) != before:
            raise Otherwise("upgrade of a folder of format 2 answers %r" % (answer,))
        return "E11"
    if answer != (4 if standing is None else 0, first.encode(), b""):
        raise Otherwise("upgrade of a folder answers %r, and the reader %r" % (answer, first))
    if standing is None:
        if looked_at(folder) != before and first != "refused E8 Spent\n":
            raise Otherwise("a refused upgrade changed the folder")
        return first.split(" ")[1].strip()
    pages = pages_told(log_of(segments).pages)
    has_pages(program, folder, pages, "an upgrade")
    held = {"segment-%04d.bw" % lease: data for lease, data in enumerate(segments)}
    stopped(program, folder, held, held_in(folder), pages, draw)
    return "upgraded"


def upgrades(program, runs, place, draw):
    """A case of an upgrade: of hostile segments, or of a log that nobody damaged."""
    segments = drawn_segments(draw, runs) if draw.is_so(3) else aged_log(draw, runs)
    if draw.is_so(3):
        return in_lines(program, segments)
    found = in_a_folder(program, segments, place, draw)
    shutil.rmtree(place)
    return found


def a_full_log_of_lines(program, _folder, _segments, _draw):
    """Pages that the four spares behind lines have no room for are refused, and nothing is told of lines that could make room: there are none."""
    keys, value, frames, made = [b"k%06d" % number for number in range(9000)], b"v" * 128, [], []
    for page, at in enumerate(range(0, len(keys), 3), 1):
        some = [(key, value) for key in keys[at : at + 3]]
        made.append(Base(1, b"", some) if page == 1 else Delta(page - 1, (1, 0), some))
        if page > 1:
            made.append(Split(page - 1, (1, 0), some[0][0], page, some))
    size = 0
    for block in made:
        length = len(block_bytes(block, 1))
        if not frames or size + length > 65536:
            frames.append([len(frames) + 1, []])
            size = 20
        frames[-1][1].append(block)
        size += length
    half = len(frames) // 3
    parts = [Parts(number + 1, 4, 65536, frames[at : at + half], version=1) for number, at in enumerate(range(0, len(frames), half))]
    linked(parts)
    segments = [part.bytes() for part in parts]
    if upgraded(segments, SPARES)[0] != "refused E5 NoSegment\n":
        raise Otherwise("the reader answers %r" % (upgraded(segments, SPARES)[0],))
    in_lines(program, segments)


# What is told of an empty file for which no run has a lease.
FAR = "folder %s: segment-0400.bw is far above the other files: rename it, or remove it if it is empty\n"


def a_page_a_segment(count):
    """So many segments of format 1: the first sets page 1, and each other one cuts the page that was made last, so each is the last to set one."""
    keys = [b"k%02d" % number for number in range(count)]
    parts = [Parts(1, 4, 65536, [[1, [Base(1, b"", []), Delta(1, (1, 0), [(keys[0], b"0")])]]], version=1)]
    for page, key in enumerate(keys[1:], 1):
        blocks = [Delta(page, (1, 0), [(key, b"%d" % page)]), Split(page, (1, 0), key, page + 1, [(key, b"%d" % page)])]
        parts.append(Parts(page + 1, 4, 65536, [[page + 1, blocks]], version=1))
    linked(parts)
    return [part.bytes() for part in parts]


def no_lease_is_left(program, folder, _segments, _draw):
    """A file whose name is far above the others keeps out what would make the files between, an upgrade too; it is told by its name, and hinders
    nobody once it is gone."""
    segments = a_page_a_segment(64)
    laid(folder, segments)
    far = os.path.join(folder, "segment-0400.bw")
    with open(far, "wb"):
        pass
    before = held_in(folder)
    for words in (["replay"], ["serve"], ["threads"], ["upgrade"]):
        answer = program.run([*words, "--dir", folder])
        held = {name: data for name, data in held_in(folder).items() if name != "lock"}
        if answer != (4, b"refused E20 NoLease\n", (FAR % folder).encode()) or held != before:
            raise Otherwise("%s over a far file answers %r, and the folder has %s" % (words, answer, sorted(held)))
    os.remove(far)
    answer = program.run(["scan", "--dir", folder])
    if answer != (0, told(segments).encode(), b""):
        raise Otherwise("scan of 64 segments answers %r" % (answer,))
    answer = program.run(["upgrade", "--dir", folder])
    if answer != (0, b"upgraded segments 64 pages 64 frames 1\n", b""):
        raise Otherwise("an upgrade of 64 segments answers %r" % (answer,))
