#!/usr/bin/env python3
"""Draws the pictures of docs/: what a segment is, how a page's blocks are linked, the way of a put, the crates by level, and how a log is cleaned.

    pictures.py            writes them
    pictures.py --check    says which is not what the sources say, with status 1

Each comes from what stands elsewhere: the segment and the links from the second vector of docs/FORMAT.md, the way from the first table of docs/INSIDE.md,
the crates from crates.txt. So a picture cannot say what its source does not."""

import os
import re
import sys
from html import escape

TOP = os.path.join(os.path.dirname(os.path.abspath(__file__)), "..")
DOCS = os.path.join(TOP, "docs")
GREEN, AMBER, GREY, BLUE, INK = "#2e7d52", "#e0a33e", "#ececec", "#3d6fa8", "#222"


def text_of(*path):
    with open(os.path.join(TOP, *path), encoding="utf-8") as file:
        return file.read()


class Drawing:
    """Shapes on a white ground, from the upper left corner."""

    def __init__(self, width):
        self.width, self.shapes = width, []

    def box(self, x, y, width, height, fill, line=None, title=None):
        edge = ' stroke="%s"' % line if line else ""
        inner = "<title>%s</title>" % escape(title) if title else ""
        self.shapes.append('<rect x="%g" y="%g" width="%g" height="%g" rx="3" fill="%s"%s>%s</rect>' % (x, y, width, height, fill, edge, inner))

    def text(self, x, y, words, size=13, anchor="start", fill=INK, weight="normal"):
        self.shapes.append('<text x="%g" y="%g" font-size="%d" text-anchor="%s" fill="%s" font-weight="%s">%s</text>' % (x, y, size, anchor, fill, weight, escape(words)))

    def line(self, points, color=INK, arrow=False, dashed=False):
        path = " ".join("%g,%g" % it for it in points)
        more = ' marker-end="url(#tip)"' * arrow + ' stroke-dasharray="4 3"' * dashed
        self.shapes.append('<polyline points="%s" fill="none" stroke="%s" stroke-width="1.5"%s/>' % (path, color, more))

    def curve(self, x0, y0, x1, y1, lift, color=INK):
        self.shapes.append('<path d="M%g,%g C%g,%g %g,%g %g,%g" fill="none" stroke="%s" stroke-width="1.5" marker-end="url(#tip)"/>' % (
            x0, y0, x0, y0 - lift, x1, y1 - lift, x1, y1, color))

    def svg(self, height):
        head = '<svg xmlns="http://www.w3.org/2000/svg" width="%d" height="%d" viewBox="0 0 %d %d" font-family="sans-serif">' % (self.width, height, self.width, height)
        tip = '<defs><marker id="tip" viewBox="0 0 8 8" refX="7" refY="4" markerWidth="7" markerHeight="7" orient="auto"><path d="M0,0 L8,4 L0,8 z" fill="%s"/></marker></defs>' % INK
        return "\n".join([head, tip, '<rect width="100%" height="100%" fill="white"/>', *self.shapes, "</svg>"]) + "\n"


# ---- the second vector


class Bytes:
    """Numbers and runs, from the front."""

    def __init__(self, data):
        self.data, self.at = data, 0

    def run(self, size):
        self.at += size
        return self.data[self.at - size : self.at]

    def number(self, size):
        return int.from_bytes(self.run(size), "little")


def vector(name):
    """The bytes of a vector of FORMAT: the digits at the beginnings of its lines."""
    block = text_of("docs", "FORMAT.md").split("**%s**" % name)[1].split("```")[1]
    digits = ""
    for line in block.strip("\n").split("\n"):
        for word in line.split():
            if not re.fullmatch(r"(?:[0-9a-f]{2})+", word):
                break
            digits += word
    return bytes.fromhex(digits)


def pair_of(data):
    key = data.run(data.number(1)).decode()
    return "%s=%s" % (key, data.run(data.number(1)).decode())


def block_of(data):
    """A block of format 1: its kind, its page, the place of the block before it, and what it says."""
    kind, page = data.number(1), data.number(4)
    if kind == 2:
        data.run(data.number(1))
        return "Base", page, None, "pairs %s" % (" ".join(pair_of(data) for _ in range(data.number(2))) or "none")
    back = (data.number(8), data.number(4))
    if kind == 1:
        words = []
        for _ in range(data.number(2)):
            words.append("put %s" % pair_of(data) if data.number(1) == 1 else "del %s" % data.run(data.number(1)).decode())
        return "Delta", page, back, ", ".join(words)
    low, new = data.run(data.number(1)).decode(), data.number(4)
    pairs = " ".join(pair_of(data) for _ in range(data.number(2)))
    return "Split", page, back, "at %s into page %d: %s" % (low, new, pairs)


def frames_of(data):
    """Each frame: where it begins and ends, its number, and its blocks, each with where it begins and ends."""
    bytes_, found = Bytes(data), []
    bytes_.run(24)
    while bytes_.at < len(data):
        begin = bytes_.at
        bytes_.run(4)
        number, _, count = bytes_.number(8), bytes_.number(4), bytes_.number(4)
        blocks = []
        for _ in range(count):
            at = bytes_.at
            blocks.append((at, *block_of(bytes_)))
        found.append((begin, bytes_.at, number, blocks))
    return found


KINDS = {"Base": GREEN, "Delta": BLUE, "Split": AMBER}


def segment():
    """A segment: its header, its frames and their blocks, with the bytes where they begin."""
    data = vector("Second")
    frames, draw, scale, left = frames_of(data), Drawing(960), 3.0, 40
    draw.text(left, 26, "A segment, byte by byte: the second vector of FORMAT, %d bytes" % len(data), 15, weight="bold")
    place = lambda at: left + at * scale
    draw.box(place(0), 70, 24 * scale, 56, "#ddd", "#888", "header: 24 bytes")
    draw.text(place(12), 102, "header", 12, "middle")
    draw.text(place(0), 60, "0", 11, "middle")
    for begin, end, number, blocks in frames:
        draw.text(place(begin), 60, str(begin), 11, "middle")
        draw.box(place(begin), 70, (end - begin) * scale, 56, "#f6f6f6", "#888", "frame %d: %d bytes" % (number, end - begin))
        draw.text(place(begin) + 5, 84, "frame %d" % number, 11)
        ends = [at for at, *_ in blocks[1:]] + [end]
        for (at, kind, page, _, says), stop in zip(blocks, ends):
            draw.box(place(at), 92, (stop - at) * scale - 1, 28, KINDS[kind], title="%s of page %d, %d bytes: %s" % (kind, page, stop - at, says))
    draw.text(place(len(data)), 60, str(len(data)), 11, "middle")
    draw.line([(place(len(data)), 98), (930, 98)], "#888", dashed=True)
    draw.text(place(len(data)) + 6, 140, "room", 11, fill="#888")
    for step, (kind, says) in enumerate((("Base", "a whole page"), ("Delta", "records of one page"), ("Split", "a page is split in two"))):
        draw.box(left + step * 230, 158, 14, 14, KINDS[kind])
        draw.text(left + 20 + step * 230, 170, "%s: %s" % (kind, says), 12)
    draw.text(left, 198, "Each frame has a head of 20 bytes: text, number, length of its body, number of its blocks. A frame goes whole into a segment.", 12)
    return draw.svg(216)


def links():
    """The blocks of page 1, each with the place of the one before it."""
    frames, draw = frames_of(vector("Second")), Drawing(960)
    draw.text(40, 26, "A page is read backwards, from its newest block to the Base: page 1 of the second vector", 15, weight="bold")
    x, places, ways = 40, {}, []
    for _, _, number, blocks in frames:
        width = 150 * len(blocks)
        draw.box(x - 6, 96, width + 2, 92, "#f6f6f6", "#888")
        draw.text(x, 112, "frame %d" % number, 11)
        for index, (_, kind, page, back, says) in enumerate(blocks):
            at = x + 150 * index
            places[(number, index)] = at
            draw.box(at, 120, 138, 58, KINDS[kind])
            draw.text(at + 69, 140, "%s of page %d" % (kind, page), 12, "middle", "white", "bold")
            draw.text(at + 69, 160, says if len(says) < 22 else says.split(":")[0], 11, "middle", "white")
            draw.text(at + 69, 202, "(%d, %d)" % (number, index), 11, "middle", "#666")
            if back:
                ways.append((back, (number, index)))
        x += width + 14
    draw.width = x + 26
    for back, place in ways:
        begin, end = places[place] + 50, places[back] + 88
        draw.curve(begin, 120, end, 118, 40 if begin - end < 200 else 52)
    draw.text(40, 232, "Below each block stands its place: the frame's number, and the block's index in it. An arrow is the place of the block before, which a Delta and a Split have.", 12)
    return draw.svg(250)


# ---- the way of a put


def steps_of(title):
    """The steps of a table of INSIDE: what is done, and in which file by which functions."""
    part = text_of("docs", "INSIDE.md").split("## %s\n" % title)[1].split("\n## ")[0]
    found = []
    for line in part.split("\n"):
        cells = [it.strip() for it in line.strip("|").split("|")]
        if re.match(r"\d+\. ", cells[0]) and len(cells) > 2:
            found.append((cells[0].replace("**", ""), re.findall(r"`(\w+)/src/(\w+\.rt)`(?:: (`\w+`(?:, `\w+`)*))?", cells[1])))
    return found


def wrapped(words, most):
    lines = [""]
    for word in words.split(" "):
        if len(lines[-1]) + len(word) + 1 > most:
            lines.append("")
        lines[-1] += (" " if lines[-1] else "") + word
    return lines


def way():
    """Each step of a put, with its crates and functions."""
    draw, y = Drawing(960), 60
    draw.text(40, 28, "The way of a put, from the writer to the disk and to a reader", 15, weight="bold")
    steps = steps_of("The way down")
    for step, (what, where) in enumerate(steps):
        lines = wrapped(what, 64)
        calls = ["%s: %s" % (crate, names.replace("`", "") or file) for crate, file, names in where]
        height = 16 * max(len(lines), len(calls)) + 14
        is_marked = what.split(". ", 1)[1].startswith(("They are written", "The cut is durable", "The batch enters"))
        draw.box(40, y, 470, height, "#e3efe8" if is_marked else "#f6f6f6", GREEN if is_marked else "#aaa")
        for row, line in enumerate(lines):
            draw.text(52, y + 20 + 16 * row, line, 12)
        for row, call in enumerate(calls):
            draw.text(530, y + 20 + 16 * row, call, 12, fill=BLUE)
        if step + 1 < len(steps):
            draw.line([(275, y + height), (275, y + height + 11)], arrow=True)
        y += height + 12
    return draw.svg(y + 10)


# ---- the crates


def needs_of():
    """Each crate with those of the repository that it names."""
    found = {}
    for line in text_of("crates.txt").split("\n"):
        head, _, rest = line.split("#")[0].partition(":")
        if head.strip():
            found[head.split()[0]] = rest.split()
    return {name: [it for it in needs if it in found] for name, needs in found.items() if name.startswith("bw")}


def crates():
    """The crates by level: each stands above all that it names."""
    needs = needs_of()
    below = {}

    def all_below(name):
        if name not in below:
            below[name] = set(needs[name]).union(*[all_below(it) for it in needs[name]])
        return below[name]

    levels = {}
    for name in needs:
        all_below(name)

    def level(name):
        if name not in levels:
            levels[name] = 1 + max([level(it) for it in needs[name]], default=-1)
        return levels[name]

    rows = {}
    for name in needs:
        rows.setdefault(level(name), []).append(name)
    width, height, draw = 108, 62, Drawing(0)
    most = max(len(names) for names in rows.values())
    draw.width = 60 + most * (width + 16)
    draw.text(30, 28, "The crates by level, the lowest at the bottom", 15, weight="bold")
    draw.text(30, 46, "A line leads to each crate that is named and does not stand below another that is.", 12)
    places, top = {}, max(rows)
    for at, names in rows.items():
        shift = (draw.width - len(names) * (width + 16) + 16) / 2
        for index, name in enumerate(sorted(names)):
            places[name] = (shift + index * (width + 16), 70 + (top - at) * height)
    for name, its in needs.items():
        for other in its:
            if not any(other in below[it] for it in its if it != other):
                x0, y0 = places[name]
                x1, y1 = places[other]
                draw.line([(x0 + width / 2, y0 + 26), (x1 + width / 2, y1)], "#b8b8b8")
    for name, (x, y) in places.items():
        draw.box(x, y, width, 26, "#e6edf5", BLUE)
        draw.text(x + width / 2, y + 18, name, 12, "middle")
    return draw.svg(70 + (top + 1) * height)


# ---- a cleaning


def cleaning():
    """A log in three states: before its oldest segment is cleaned, with its pages written again, and without it."""
    draw = Drawing(960)
    draw.text(40, 28, "A log is cleaned: the oldest segment goes, and nothing is written over", 15, weight="bold")
    states = (
        ("Before: a quarter of segment 1 is needed", [("segment 1", "gnggnggg"), ("segment 2", "nngngnn"), ("spare", "")]),
        ("What is needed of segment 1 is written again, as Bases, behind all that is there", [("segment 1", "gggggggg"), ("segment 2", "nngngnnbb"), ("spare", "")]),
        ("Segment 1 is given up, and its file is a spare again", [("segment 2", "nngngnnbb"), ("spare", ""), ("spare", "")]),
    )
    colors = {"n": GREEN, "g": AMBER, "b": BLUE}
    for step, (title, segments) in enumerate(states):
        y = 60 + step * 84
        draw.text(40, y + 12, "%d. %s" % (step + 1, title), 13)
        for index, (name, blocks) in enumerate(segments):
            x = 40 + index * 300
            draw.box(x, y + 24, 280, 30, GREY, "#999")
            for place, kind in enumerate(blocks):
                draw.box(x + 4 + place * 30, y + 28, 27, 22, colors[kind])
            draw.text(x + 276, y + 68, name, 11, "end", "#666")
    for step, (color, says) in enumerate(((GREEN, "needed"), (AMBER, "no longer needed"), (BLUE, "written again by the cleaning"), (GREY, "room"))):
        draw.box(40 + step * 225, 322, 14, 14, color, "#999")
        draw.text(60 + step * 225, 334, says, 12)
    return draw.svg(352)


PICTURES = {"segment.svg": segment, "links.svg": links, "way.svg": way, "crates.svg": crates, "cleaning.svg": cleaning}


def main():
    is_check, wrong = sys.argv[1:] == ["--check"], []
    for name, drawn in PICTURES.items():
        path, wanted = os.path.join(DOCS, name), drawn()
        if not is_check:
            with open(path, "w", encoding="utf-8") as file:
                file.write(wanted)
        elif not os.path.exists(path) or text_of("docs", name) != wanted:
            wrong.append(name)
    for name in wrong:
        print("docs/%s is not what its source says: python3 tools/pictures.py" % name)
    return 1 if wrong else 0


if __name__ == "__main__":
    sys.exit(main())
