"""Segments that are taken apart, changed and written again, and those that no run made."""

import random
import struct

from hostile.reader import FORMATS, Bad, Base, Delta, Split, box_of


def run_bytes(data, width=1):
    return (len(data) & ((1 << 8 * width) - 1)).to_bytes(width, "little") + data


def pair_bytes(pair, version):
    return run_bytes(pair[0]) + run_bytes(pair[1], FORMATS[version].width)


def op_bytes(op, version):
    return b"\x02" + run_bytes(op[0]) if op[1] is None else b"\x01" + pair_bytes(op, version)


def counted(pieces):
    return struct.pack("<H", len(pieces)) + b"".join(pieces)


def block_bytes(block, version=2):
    if isinstance(block, bytes):
        return block
    page = struct.pack("<I", block.page)
    if isinstance(block, Base):
        return b"\x02" + page + run_bytes(block.low) + counted([pair_bytes(it, version) for it in block.pairs])
    back = struct.pack("<QI", *block.back)
    if isinstance(block, Delta):
        return b"\x01" + page + back + counted([op_bytes(it, version) for it in block.ops])
    pairs = counted([pair_bytes(it, version) for it in block.pairs])
    return b"\x03" + page + back + run_bytes(block.low) + struct.pack("<I", block.made) + pairs


def frame_bytes(frame, version=2):
    body = b"".join(block_bytes(it, version) for it in frame[1])
    return FORMATS[version].frame + struct.pack("<QII", frame[0], len(body), len(frame[1])) + body


def segment_bytes(version, number, m, f, frames):
    header = struct.pack("<8sQHHI", FORMATS[version].header, number, m, 0, f)
    return header + b"".join(frame_bytes(it, version) for it in frames)


class Parts:
    """A segment taken apart: its header's numbers, its frames, and the bytes behind them."""

    def __init__(self, number, m, f, frames, tail=b"", version=2):
        self.number, self.m, self.f, self.frames, self.tail, self.version = number, m, f, frames, tail, version

    @staticmethod
    def of(data):
        box = box_of(data)
        frames = [[number, list(blocks)] for number, blocks in box.frames]
        return Parts(box.number, box.m, box.f, frames, data[len(data) - box.tail :], box.version)

    def bytes(self):
        return segment_bytes(self.version, self.number, self.m, self.f, self.frames) + self.tail


def linked(parts):
    """Gives each block the place of the one before it of its page, so that what lies behind the links is reached."""
    last = {}
    for part in parts:
        for number, blocks in part.frames:
            for index, block in enumerate(blocks):
                if isinstance(block, bytes):
                    continue
                if not isinstance(block, Base):
                    blocks[index] = block = block._replace(back=last.get(block.page, block.back))
                last[block.page] = number, index
                if isinstance(block, Split):
                    last[block.made] = number, index


def renumbered(parts):
    """Gives the frames numbers that follow one after the other."""
    frames = [frame for part in parts for frame in part.frames]
    for at, frame in enumerate(frames):
        frame[0] = min(frames[0][0] + at, (1 << 64) - 1)


# ---- what is drawn

EXTREMES = [0, 1, 2, 3, 4, 5, 32, 33, 63, 64, 65, 127, 128, 129, 255, 256, 511, 512, 513, 16383, 16384, 65535, 65536, 65537, 262144, 262145, (1 << 31) - 1, 1 << 31, (1 << 32) - 1, 1 << 32, (1 << 63), (1 << 64) - 1]


class Draw(random.Random):
    def is_so(self, of):
        return self.randrange(of) == 0

    def number(self, size):
        """Of so many bytes: an extreme, a small or any other."""
        most = (1 << (8 * size)) - 1
        return min(self.choice(EXTREMES), most) if self.is_so(2) else self.choice([self.randrange(16), self.randrange(most + 1)])

    def key(self, most=128):
        if self.is_so(24):
            return bytes([self.randrange(256)]) * self.choice([1, most // 2, most - 1, most, self.randrange(1, most + 1)])
        return b"".join(self.choice([b"a", b"b", b"k", b"z"]) for _ in range(self.randrange(1, 4)))

    def value(self, most=512):
        if self.is_so(24):
            return self.randbytes(self.choice([0, 1, most // 2, most // 2 + 1, most - 1, most]))
        return self.choice([b"", b"1", b"22", b"0x", b"=", b"\x00"])

    def pairs(self, least, most):
        pairs = sorted({self.key(): self.value() for _ in range(self.randrange(least, most + 1))}.items())
        return pairs or [(self.key(), self.value())][:most]

    def op(self):
        return self.key(), None if self.is_so(4) else self.value()

    def page(self):
        return self.number(4) if self.is_so(40) else self.randrange(1, 5)

    def block(self, m):
        kind = self.randrange(6)
        if kind == 0:
            page = self.page()
            return Base(page, b"" if page == 1 else self.key(), self.pairs(0, m))
        back = self.randrange(1, 9), self.randrange(4)
        if kind == 1:
            pairs = self.pairs(1, m)
            return Split(self.page(), back, pairs[0][0], self.randrange(2, 6), pairs)
        return Delta(self.page(), back, [self.op() for _ in range(self.randrange(1, 4))])

    def parts(self):
        """Segments that no run made: blocks as they come, most of them linked."""
        m, number = self.choice([4, 5, 32]), self.choice([1, 1, 7])
        limits = {1: self.choice([16384, 65536]), 2: self.choice([65536, 262144])}
        first, parts, version = self.choice([1, 1, 2, 9]), [], self.choice([1, 2])
        for _ in range(self.choice([1, 1, 2, 3])):
            frames = [[first, [self.block(m) for _ in range(self.randrange(1, 7))]] for _ in range(self.randrange(3))]
            parts.append(Parts(number, m, limits[version], frames, version=version))
            number += 1
            version = self.choice([version, 2])
        if not parts[0].frames:
            parts[0].frames = [[first, []]]
        if not self.is_so(3):
            parts[0].frames[0][1].insert(0, Base(1, b"", []))
        renumbered(parts)
        if not self.is_so(8):
            linked(parts)
        for part in parts:
            part.frames = [frame for frame in part.frames if frame[1]]
        return parts


# ---- changes of bytes


def flip(draw, data, _others):
    at = draw.randrange(len(data))
    return data[:at] + bytes([data[at] ^ 1 << draw.randrange(8)]) + data[at + 1 :]


def set_number(draw, data, _others):
    size = draw.choice([1, 1, 2, 4, 8])
    at = draw.randrange(len(data))
    return (data[:at] + draw.number(size).to_bytes(size, "little") + data[at + size :])[: max(len(data), at + 1)]


def cut(draw, data, _others):
    return data[: draw.randrange(len(data))]


def behind(draw, data, _others):
    return data + draw.choice([b"\x00", b"F", b"FRM", b"FRM1", b"FRM2", b"FRM1" + bytes(16), b"FRM2" + bytes(16), draw.randbytes(draw.randrange(1, 40))])


def drop_bytes(draw, data, _others):
    at = draw.randrange(len(data))
    return data[:at] + data[at + draw.randrange(1, 30) :]


def double_bytes(draw, data, _others):
    at = draw.randrange(len(data))
    end = at + draw.randrange(1, 60)
    return data[:end] + data[at:end] + data[end:]


def splice(draw, data, others):
    other = draw.choice(others)
    return data[: draw.randrange(len(data) + 1)] + other[draw.randrange(len(other) + 1) :]


BYTE_CHANGES = [flip, flip, set_number, set_number, cut, behind, drop_bytes, double_bytes, splice]


# ---- changes of frames


def frame_lists(parts):
    return [part.frames for part in parts if part.frames]


def drop_frame(draw, parts):
    frames = draw.choice(frame_lists(parts))
    frames.pop(draw.randrange(len(frames)))


def double_frame(draw, parts):
    frames = draw.choice(frame_lists(parts))
    at = draw.randrange(len(frames))
    frames.insert(draw.randrange(len(frames) + 1), [frames[at][0], list(frames[at][1])])


def exchange_frames(draw, parts):
    one, other = draw.choice(frame_lists(parts)), draw.choice(frame_lists(parts))
    i, j = draw.randrange(len(one)), draw.randrange(len(other))
    one[i], other[j] = other[j], one[i]


def move_frame(draw, parts):
    frames = draw.choice(frame_lists(parts))
    to = draw.choice(parts).frames
    to.insert(draw.randrange(len(to) + 1), frames.pop(draw.randrange(len(frames))))


def number_frame(draw, parts):
    frames = draw.choice(frame_lists(parts))
    draw.choice(frames)[0] = draw.number(8)


def join_frames(draw, parts):
    frames = draw.choice(frame_lists(parts))
    if len(frames) > 1:
        at = draw.randrange(len(frames) - 1)
        frames[at][1].extend(frames.pop(at + 1)[1])


def set_header(draw, parts):
    part = draw.choice(parts)
    kind = draw.randrange(4)
    if kind == 0:
        part.number = draw.number(8)
    elif kind == 1:
        part.m = draw.choice([0, 3, 4, 5, 32, 33, 65535])
    elif kind == 2:
        part.version = 3 - part.version
    else:
        part.f = draw.choice([0, 16383, 16384, 65535, 65536, 65537, 262144, 262145, (1 << 32) - 1])


def one_limit(draw, parts):
    m, limits = draw.choice([4, 5, 8, 32]), {1: draw.choice([16384, 20000, 65536]), 2: draw.choice([65536, 70000, 262144])}
    for part in parts:
        part.m, part.f = m, limits[part.version]


def aged(draw, parts):
    """The older segments, or all, as the program wrote them in format 1."""
    numbers = sorted(part.number for part in parts)
    young, f = draw.choice([numbers[-1] + 1, *numbers]), draw.choice([16384, 65536])
    for part in parts:
        if part.number < young:
            part.version, part.f = 1, f
            part.tail = part.tail.replace(FORMATS[2].frame, FORMATS[1].frame)


FRAME_CHANGES = [drop_frame, double_frame, exchange_frames, move_frame, number_frame, join_frames, set_header, one_limit]


# ---- changes of blocks


def block_list(draw, parts):
    lists = [blocks for part in parts for _, blocks in part.frames if blocks]
    return draw.choice(lists) if lists else [draw.block(4)]


def drop_block(draw, parts):
    blocks = block_list(draw, parts)
    blocks.pop(draw.randrange(len(blocks)))


def double_block(draw, parts):
    blocks = block_list(draw, parts)
    blocks.insert(draw.randrange(len(blocks) + 1), draw.choice(blocks))


def exchange_blocks(draw, parts):
    one, other = block_list(draw, parts), block_list(draw, parts)
    i, j = draw.randrange(len(one)), draw.randrange(len(other))
    one[i], other[j] = other[j], one[i]


def insert_block(draw, parts):
    blocks = block_list(draw, parts)
    blocks.insert(draw.randrange(len(blocks) + 1), draw.block(draw.choice([4, 32])))


def many_records(draw, parts):
    """More pairs than a page may hold in the end, and a Split that may take some off."""
    blocks = block_list(draw, parts)
    page, at = draw.page(), draw.randrange(len(blocks) + 1)
    keys = [b"k%03d" % it for it in range(draw.choice([5, 33, 66, 200]))]
    order = draw.choice([sorted, lambda them: sorted(them, reverse=True), lambda them: draw.sample(them, len(them))])
    added = [Delta(page, (1, 0), [(key, b"v") for key in order(keys)])]
    if not draw.is_so(4):
        low = draw.choice(keys)
        added.append(Split(page, (1, 0), low, draw.randrange(2, 6), [(low, b"")]))
    if draw.is_so(3):
        added.append(Delta(page, (1, 0), [(key, None) for key in order(keys)]))
    blocks[at:at] = added


def set_field(draw, parts):
    blocks = block_list(draw, parts)
    at = draw.randrange(len(blocks))
    block = blocks[at]
    if isinstance(block, bytes):
        return
    field = draw.choice(block._fields)
    drawn = {
        "page": draw.page,
        "made": draw.page,
        "back": lambda: (draw.number(8), draw.number(4)) if draw.is_so(2) else (draw.randrange(1, 9), draw.randrange(4)),
        "low": lambda: draw.choice([b"", draw.key()]),
        "pairs": lambda: draw.choice([draw.pairs(0, 33), list(reversed(draw.pairs(0, 5))), draw.pairs(1, 1) * 2]),
        "ops": lambda: [draw.op() for _ in range(draw.randrange(4))],
    }[field]()
    block = block._replace(**{field: drawn})
    if isinstance(block, Split) and block.pairs and field == "pairs" and not draw.is_so(4):
        block = block._replace(low=block.pairs[0][0])
    blocks[at] = block


def set_low(draw, parts):
    """A Split at another separator: its first pair goes along."""
    blocks = block_list(draw, parts)
    for at, block in enumerate(blocks):
        if isinstance(block, Split):
            pairs = sorted({**dict(block.pairs[1:]), draw.key(): b""}.items())
            blocks[at] = block._replace(low=pairs[0][0], pairs=pairs)


def as_bytes(draw, parts):
    """A block with a changed byte."""
    blocks = block_list(draw, parts)
    at = draw.randrange(len(blocks))
    blocks[at] = draw.choice([flip, set_number])(draw, block_bytes(blocks[at]), None)


BLOCK_CHANGES = [drop_block, double_block, exchange_blocks, insert_block, insert_block, many_records, set_field, set_field, set_low, as_bytes]


# ---- changes of the list


def changed_list(draw, segments, others):
    kind = draw.randrange(8)
    if kind == 0:
        draw.shuffle(segments)
    elif kind == 1:
        segments.pop(draw.randrange(len(segments)))
    elif kind == 2:
        segments.insert(draw.randrange(len(segments) + 1), draw.choice(segments))
    elif kind == 3:
        segments.insert(draw.randrange(len(segments) + 1), b"")
    elif kind == 4:
        segments.insert(draw.randrange(len(segments) + 1), draw.choice(segments)[: draw.randrange(25)])
    elif kind == 5:
        segments[draw.randrange(len(segments))] = draw.choice(others)
    elif kind == 6 and draw.is_so(8):
        segments.extend([b""] * draw.choice([60, 63, 64, 65]))
    else:
        segments.insert(draw.randrange(len(segments) + 1), draw.randbytes(draw.randrange(1, 40)))


def aged_log(draw, runs):
    """The segments of a run, most of them in format 1; no byte is wrong, but that a tail may be torn."""
    segments = list(draw.choice(runs))
    parts = taken_apart(segments)
    if not parts:
        return segments
    aged(draw, parts)
    if draw.is_so(4):
        parts[-1].tail = draw.choice([b"F", FORMATS[parts[-1].version].frame, FORMATS[parts[-1].version].frame + bytes(9)])
    return [part.bytes() for part in parts] + [b""] * draw.randrange(3)


def taken_apart(segments):
    try:
        return [Parts.of(it) for it in segments if it]
    except Bad:
        return []


def drawn_segments(draw, runs):
    """The segments of a case."""
    others = [it for run in runs for it in run if it]
    segments = [it.bytes() for it in draw.parts()] if draw.is_so(3) else list(draw.choice(runs))
    parts = taken_apart(segments)
    if parts and draw.is_so(2):
        aged(draw, parts)
        segments = [part.bytes() for part in parts]
    if parts and not draw.is_so(3):
        for _ in range(draw.choice([1, 1, 1, 2, 3, 6])):
            if any(part.frames for part in parts):
                draw.choice(draw.choice([FRAME_CHANGES, BLOCK_CHANGES, BLOCK_CHANGES]))(draw, parts)
        if not draw.is_so(3):
            for part in parts:
                part.frames = [frame for frame in part.frames if frame[1]]
            if any(part.frames for part in parts):
                renumbered(parts)
        if not draw.is_so(3):
            linked(parts)
        segments = [part.bytes() for part in parts]
    for _ in range(draw.choice([0, 0, 1, 2])):
        at = draw.randrange(len(segments)) if segments else 0
        if segments and segments[at]:
            segments[at] = draw.choice(BYTE_CHANGES)(draw, segments[at], others)
    for _ in range(draw.choice([0, 0, 0, 1, 1, 2])):
        if segments:
            changed_list(draw, segments, others)
    return segments
