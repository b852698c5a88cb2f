"""Segments of which the program is asked: what it prints, and how long that takes."""

import resource

from hostile.program import Otherwise
from hostile.reader import Base, Delta, Split, told, word
from hostile.segments import Parts, block_bytes, linked

# A scan of 1 MB takes up to two seconds of a processor whose other thread is busy: recovery goes through a page's records once, and what is
# printed of the page takes them once more. A way that takes a step for each other key of the page would take many times as long.
SECONDS = 4


def scanned(program, segments, draw):
    """A case of segments: the program answers what the reader does."""
    lines = [it.hex().upper() if draw.is_so(50) else it.hex() for it in segments]
    text = "".join(it + draw.choice(["\n"] * 30 + ["\r\n"]) for it in lines).encode()
    wanted = told(segments).encode()
    answer = program.run(["scan"], text)
    if answer != (4 if wanted.startswith(b"refused ") else 0, wanted, b""):
        raise Otherwise("scan answers %r, and the reader %r" % (answer, wanted))
    return wanted.split(b" ")[1].decode() if wanted.startswith(b"refused ") else "lawful"


def frames_of(blocks, f, version):
    """Frames that hold these blocks, as many as fit in each."""
    frames, size = [[1, []]], 0
    for block in blocks:
        length = len(block_bytes(block, version))
        if size + length > f - 20:
            frames.append([len(frames) + 1, []])
            size = 0
        frames[-1][1].append(block)
        size += length
    return frames


def many_pairs(version, keys, records, splits):
    """A page that holds all these keys for a while, so many records a Delta, then is cut so many times where it has nothing, and down to a
    pair in the end."""
    blocks = [Base(1, b"", [])]
    blocks += [Delta(1, (1, 0), [(key, b"") for key in keys[at : at + records]]) for at in range(0, len(keys), records)]
    end, least = b"\xff" * 4, sorted(keys)[:2]
    blocks += [Split(1, (1, 0), end, 2, [(end, b"")])] * splits + [Split(1, (1, 0), least[1], 2, [(least[1], b"")])]
    part = Parts(1, 4, 65536, frames_of(blocks, 65536, version), version=version)
    linked([part])
    return part.bytes(), len(part.frames), least


def of_processor():
    """How many seconds of a processor the runs so far took: other work on the machine is not counted."""
    used = resource.getrusage(resource.RUSAGE_CHILDREN)
    return used.ru_utime + used.ru_stime


def a_page_of_many_pairs(program, folder, segments, draw):
    """About 1 MB of lawful bytes is read in a time that is linear but for a logarithm, in whatever order the keys come."""
    keys = [it.to_bytes(3, "big") for it in range(145000)]
    rows = [
        (keys, 9000, 0),
        (keys[::-1], 9000, 0),
        (draw.sample(keys, len(keys)), 9000, 0),
        (keys[40000::-1], 1, 0),
        (draw.sample(keys[:40000], 40000), 1, 0),
        (keys[:65000], 9000, 16000),
    ]
    for version, row in ((version, row) for version in (1, 2) for row in rows):
        held, frames, least = many_pairs(version, *row)
        pages = tuple(word(key) for key in least for _ in range(2))
        wanted = "segments 1 spares 0 dropped 0\nframes 1 %d tail 0\npage 1 low 0x pairs 1 %s=0x\npage 2 low %s pairs 1 %s=0x\n" % (frames, *pages[1:])
        before = of_processor()
        answer = program.run(["scan"], held.hex().encode() + b"\n")
        taken = of_processor() - before
        if answer != (0, wanted.encode(), b""):
            raise Otherwise("scan of %d bytes answers %r" % (len(held), answer))
        if taken > SECONDS:
            raise Otherwise("scan of %d bytes took %.1f seconds of a processor" % (len(held), taken))
