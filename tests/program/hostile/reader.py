"""What a scan of segments has to print: a reader that is written from docs/FORMAT.md alone, and shares nothing with the program.

`told` is the whole of it. `Delta`, `Base`, `Split`, `box_of` and `word` serve those who change segments (segments.py), `log_of`,
`pages_told` and `set_last` those who upgrade them (upgrades.py)."""

import collections
import struct


class Bad(Exception):
    """Bytes that break a rule."""


# A format: the texts of its headers and frames, the ends of F, the most bytes of a key and of a value, and those of a value's length.
Format = collections.namedtuple("Format", "header frame least most key value width")
FORMATS = {
    1: Format(b"BWLOGSG1", b"FRM1", 16384, 65536, 64, 128, 1),
    2: Format(b"BWLOGSG2", b"FRM2", 65536, 262144, 128, 512, 2),
}


class Bytes:
    """Bytes of a format that are read from the front."""

    def __init__(self, data, version):
        self.data, self.at, self.form = data, 0, FORMATS[version]

    def take(self, count):
        if len(self.data) - self.at < count:
            raise Bad
        self.at += count
        return self.data[self.at - count : self.at]

    def number(self, size, least=0):
        number = int.from_bytes(self.take(size), "little")
        if number < least:
            raise Bad
        return number

    def run(self, least, most, width=1):
        length = self.number(width)
        if not least <= length <= most:
            raise Bad
        return self.take(length)

    def key(self, least=1):
        return self.run(least, self.form.key)

    def pair(self):
        return self.key(), self.run(0, self.form.value, self.form.width)

    def pairs(self, count):
        pairs = [self.pair() for _ in range(count)]
        if any(one[0] >= other[0] for one, other in zip(pairs, pairs[1:])):
            raise Bad
        return pairs


Delta = collections.namedtuple("Delta", "page back ops")
Base = collections.namedtuple("Base", "page low pairs")
Split = collections.namedtuple("Split", "page back low made pairs")


def op_of(held):
    tag = held.number(1)
    if tag not in (1, 2):
        raise Bad
    return held.pair() if tag == 1 else (held.key(), None)


def block_of(held, m):
    tag = held.number(1)
    page = held.number(4, 1)
    if tag == 1:
        back = held.number(8, 1), held.number(4)
        return Delta(page, back, [op_of(held) for _ in range(held.number(2, 1))])
    if tag == 2:
        low, count = held.key(0), held.number(2)
        if count > m:
            raise Bad
        return Base(page, low, held.pairs(count))
    if tag != 3:
        raise Bad
    back = held.number(8, 1), held.number(4)
    low, made, count = held.key(), held.number(4, 2), held.number(2, 1)
    if count > m or made == page:
        raise Bad
    pairs = held.pairs(count)
    if pairs[0][0] != low:
        raise Bad
    return Split(page, back, low, made, pairs)


def blocks_of(body, count, m, version):
    held, blocks = Bytes(body, version), []
    while held.at < len(body):
        if len(blocks) == count:
            raise Bad
        blocks.append(block_of(held, m))
    if len(blocks) != count:
        raise Bad
    return blocks


def header_of(data):
    """Its version, its number, M and F."""
    text, number, m, zero, f = struct.unpack_from("<8sQHHI", data)
    for version, form in FORMATS.items():
        if text == form.header and number >= 1 and 4 <= m <= 32 and not zero and form.least <= f <= form.most:
            return version, number, m, f
    raise Bad


def frames_in(data, version, m, f):
    """The whole frames, each a number and blocks, and how many bytes the tail has. What is bad begins at the offset that is told."""
    frames, at, word_of = [], 24, FORMATS[version].frame
    while True:
        rest = data[at:]
        if len(rest) < 20:
            if rest[:4] != word_of[: len(rest)]:
                raise Bad(at)
            return frames, len(rest)
        text, number, body, count = struct.unpack_from("<4sQII", rest)
        if text != word_of or number < 1 or not 8 <= body <= f - 20 or count < 1:
            raise Bad(at)
        if len(rest) - 20 < body:
            return frames, len(rest)
        try:
            frames.append((number, blocks_of(rest[20 : 20 + body], count, m, version)))
        except Bad:
            raise Bad(at) from None
        at += 20 + body


def is_part(data):
    return 1 <= len(data) < 24 and any(data[:8] == form.header[: len(data)] for form in FORMATS.values())


Box = collections.namedtuple("Box", "version number m f frames tail")


def box_of(data):
    if len(data) < 24:
        raise Bad(0)
    try:
        version, number, m, f = header_of(data)
    except Bad:
        raise Bad(0) from None
    return Box(version, number, m, f, *frames_in(data, version, m, f))


def do_clash(one, other):
    """Whether two headers are of no one log."""
    return one.m != other.m or one.version == other.version and one.f != other.f or one.version > other.version and one.number < other.number


def wrong_link(frames):
    """The page of the first block that does not link back to the one before it."""
    last = {}
    for number, blocks in frames:
        for index, block in enumerate(blocks):
            place = number, index
            if not isinstance(block, Base):
                if block.page in last and last[block.page] != block.back:
                    return block.page
                if block.page not in last and not 1 <= block.back[0] < frames[0][0]:
                    return block.page
            last[block.page] = place
            if isinstance(block, Split):
                last[block.made] = place
    return None


def read_forwards(frames):
    """Each page that is touched: None where no block set it, else its low and its pairs."""
    pages = {}
    for _, blocks in frames:
        for block in blocks:
            page = pages.setdefault(block.page, None)
            if isinstance(block, Base):
                pages[block.page] = block.low, dict(block.pairs)
            elif isinstance(block, Delta) and page:
                for key, value in block.ops:
                    page[1].pop(key, None)
                    if value is not None:
                        page[1][key] = value
            elif isinstance(block, Split):
                if page:
                    pages[block.page] = page[0], {key: value for key, value in page[1].items() if key < block.low}
                pages[block.made] = block.low, dict(block.pairs)
    return pages


def wrong_page(pages, m):
    """The least page at fault."""
    lows = sorted({page[0] for page in pages.values() if page})
    following, first = dict(zip(lows, lows[1:])), {}
    for number in sorted(pages):
        if pages[number]:
            first.setdefault(pages[number][0], number)
    for number in range(1, len(pages) + 1):
        if not pages.get(number):
            return number
        low, pairs = pages[number]
        end = following.get(low)
        if (number == 1) != (low == b"") or first[low] < number or len(pairs) > m:
            return number
        if any(key < low or end is not None and key >= end for key in pairs):
            return number
    return None


def word(data):
    is_plain = data != b"" and not data.startswith(b"0x") and all(0x21 <= it <= 0x7E and it != 0x3D for it in data)
    return data.decode() if is_plain else "0x" + data.hex()


def is_in_turn(numbers):
    return all(number + 1 == other for number, other in zip(numbers, numbers[1:]))


Log = collections.namedtuple("Log", "boxes frames pages spares dropped")


def log_of(segments):
    """What recovery finds in these segments, or what it says."""
    boxes = []
    for place, data in enumerate(segments):
        if data and not is_part(data):
            try:
                boxes.append(box_of(data))
            except Bad as bad:
                return "refused E13 BadBytes segment %d at %d\n" % (place, bad.args[0])
    if any(do_clash(one, other) for one in boxes for other in boxes):
        return "refused E15 Mixed\n"
    boxes.sort(key=lambda box: box.number)
    frames = [frame for box in boxes for frame in box.frames]
    if not is_in_turn([box.number for box in boxes]) or not is_in_turn([number for number, _ in frames]):
        return "refused E14 Gap\n"
    if not frames:
        return "refused E12 Empty\n"
    page = wrong_link(frames)
    if page is not None:
        return "refused E16 BadLink page %d\n" % page
    pages = read_forwards(frames)
    page = wrong_page(pages, boxes[0].m)
    if page is not None:
        return "refused E17 Unlawful page %d\n" % page
    return Log(boxes, frames, pages, segments.count(b""), sum(is_part(it) for it in segments))


def pages_told(pages):
    """The line of each page."""
    lines = []
    for number in range(1, len(pages) + 1):
        low, pairs = pages[number]
        words = ["%s=%s" % (word(key), word(value)) for key, value in sorted(pairs.items())]
        lines.append(" ".join(["page %d low %s pairs %d" % (number, word(low), len(pairs)), *words]))
    return lines


def told(segments):
    """What a scan of these segments prints."""
    if len(segments) > 64:
        return "refused E20 NoLease\n"
    log = log_of(segments)
    if isinstance(log, str):
        return log
    lines = [
        "segments %d spares %d dropped %d" % (len(log.boxes), log.spares, log.dropped),
        "frames %d %d tail %d" % (log.frames[0][0], log.frames[-1][0], sum(box.tail for box in log.boxes)),
    ]
    return "\n".join(lines + pages_told(log.pages)) + "\n"


def set_last(log):
    """Of each page the number of the segment in which it was last set."""
    last = {}
    for box in log.boxes:
        for _, blocks in box.frames:
            for block in blocks:
                if isinstance(block, Base):
                    last[block.page] = box.number
                elif isinstance(block, Split):
                    last[block.made] = box.number
    return last
