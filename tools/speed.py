#!/usr/bin/env python3
"""Draws what `make bench` and tools/peers.rs print: the store beside others, and how the time of a new key grows with the number of keys.

    speed.py [--note TEXT] FILE.. > docs/speed.svg

The files hold the lines of runs of `bw_bench --times` and of the peers, one after the other, in any order; what a later one says of the same
operation counts. A run of `bw_bench` begins by how many keys it has, and so does one of the peers. `core` is the store without readers, and
`alone` the store with one. The left side is drawn of the size at which most was measured, and the right one of all sizes."""

import math
import re
import sys

SIZES = re.compile(r"(\d+) keys of \d+ bytes, values of \d+")
NAMED = re.compile(r"[a-z-]+")
FIGURE = re.compile(r"(\S.*?)\s+(\d+)\s+(\d+) ns")
PEER = re.compile(r"(\S.*?)\s+new key\s+(\d+)\s+update\s+(\d+)\s+get\s+(\d+)\s+ns each")
OPERATIONS = {"load": "a new key", "update": "an update", "get": "a get"}
SUBJECTS = {"core": "this store, without readers", "alone": "this store, with a reader"}
COLOURS = ["#2e7d52", "#8cc3a2", "#4a7ab5", "#9db8d9", "#e0a33e", "#b55a4a", "#777777"]
LEFT, WIDTH, TOP, ROW = 190, 400, 84, 17
RIGHT, HIGH = 720, 330


class Figures:
    """Of each store and number of keys the nanoseconds of each operation, and the stores in the order in which they came."""

    def __init__(self):
        self.found, self.stores = {}, []

    def add(self, store, keys, operation, nanos):
        if store not in self.stores:
            self.stores.append(store)
        self.found[store, keys, operation] = nanos

    def sizes(self):
        return sorted({keys for _, keys, _ in self.found})

    def fullest(self):
        """The number of keys of which most is known; the greatest of these."""
        return max(self.sizes(), key=lambda keys: (sum(1 for found in self.found if found[1] == keys), keys))

    def of(self, store, keys, operation):
        return self.found.get((store, keys, operation))

    def read(self, lines):
        keys, subject = 0, None
        for line in lines:
            line = line.rstrip("\n")
            if sizes := SIZES.match(line):
                keys, subject = int(sizes[1]), None
            elif peer := PEER.match(line):
                for operation, nanos in zip(OPERATIONS, peer.groups()[1:]):
                    self.add(peer[1], keys, operation, int(nanos))
            elif NAMED.fullmatch(line):
                subject = line
            elif (figure := FIGURE.fullmatch(line)) and figure[1] in OPERATIONS and subject in SUBJECTS:
                self.add(SUBJECTS[subject], keys, figure[1], int(figure[3]))


def escaped(text):
    return text.replace("&", "&amp;").replace("<", "&lt;")


def text_at(x, y, text, more=""):
    return '<text x="%.0f" y="%.0f"%s>%s</text>' % (x, y, more, escaped(text))


def count_of(keys):
    return "%d,000,000" % (keys // 1000000) if keys % 1000000 == 0 else "{:,}".format(keys)


def bars(figures, keys):
    """A group of bars for each operation, one for each store, with its nanoseconds."""
    most = max((figures.of(store, keys, operation) or 0 for store in figures.stores for operation in OPERATIONS), default=0) or 1
    out, y = [text_at(8, TOP - 14, "Nanoseconds an operation, %s keys" % count_of(keys), ' font-weight="bold"')], TOP
    for operation, name in OPERATIONS.items():
        out.append(text_at(LEFT, y + 12, name, ' font-weight="bold"'))
        y += ROW
        for store, colour in zip(figures.stores, COLOURS):
            nanos = figures.of(store, keys, operation)
            if nanos is None:
                continue
            out.append(text_at(LEFT - 8, y + 12, store, ' text-anchor="end"'))
            out.append('<rect x="%d" y="%.0f" width="%.1f" height="%d" fill="%s"/>' % (LEFT, y + 2, WIDTH * nanos / most, ROW - 4, colour))
            out.append(text_at(LEFT + WIDTH * nanos / most + 5, y + 12, "{:,}".format(nanos)))
            y += ROW
        y += 12
    return out, y


def growth(figures):
    """A line for each store: nanoseconds of a new key over the number of keys, both from their own least on; the number of keys by its logarithm."""
    sizes = figures.sizes()
    most = max((figures.of(store, keys, "load") or 0 for store in figures.stores for keys in sizes), default=0) or 1
    step = 10 ** math.floor(math.log10(most))
    step = step if most / step > 3 else step / 2
    top = step * math.ceil(most / step)
    left, base = RIGHT + 60, TOP + HIGH - 60
    wide, high = 380, base - TOP - 10
    span = math.log(sizes[-1] / sizes[0]) or 1

    def place(keys, nanos):
        return left + wide * math.log(keys / sizes[0]) / span, base - high * nanos / top

    out = [text_at(RIGHT, TOP - 14, "Nanoseconds a new key, by how many keys there are", ' font-weight="bold"')]
    for part in range(round(top / step) + 1):
        _, y = place(sizes[0], part * step)
        out.append('<rect x="%d" y="%.1f" width="%d" height="1" fill="#ddd"/>' % (left, y, wide))
        out.append(text_at(left - 8, y + 4, "{:,.0f}".format(part * step), ' text-anchor="end"'))
    for keys in sizes:
        out.append(text_at(place(keys, 0)[0], base + 18, count_of(keys), ' text-anchor="middle"'))
    ends = []
    for store, colour in zip(figures.stores, COLOURS):
        points = [place(keys, figures.of(store, keys, "load")) for keys in sizes if figures.of(store, keys, "load") is not None]
        if len(points) < 2:
            continue
        out.append('<polyline fill="none" stroke="%s" stroke-width="2" points="%s"/>' % (colour, " ".join("%.1f,%.1f" % it for it in points)))
        out += ['<circle cx="%.1f" cy="%.1f" r="3" fill="%s"/>' % (x, y, colour) for x, y in points]
        ends.append([points[-1][1], store, colour, points[-1][0]])
    # Names after the ends, one below the other if these are near.
    ends.sort()
    y = 0
    for at, store, colour, x in ends:
        y = max(at + 4, y + 15)
        out.append(text_at(x + 8, y, store, ' fill="%s"' % colour))
    return out


def picture(figures, note):
    sizes = figures.sizes()
    drawn, bottom = bars(figures, figures.fullest())
    with_growth = len(sizes) > 1
    wide, high = (RIGHT + 640 if with_growth else RIGHT), max(bottom, TOP + HIGH if with_growth else 0) + 10
    out = ['<svg xmlns="http://www.w3.org/2000/svg" width="%d" height="%.0f" font-family="sans-serif" font-size="12">' % (wide, high),
           '<rect width="100%" height="100%" fill="white"/>', text_at(8, 22, "The store beside others", ' font-size="16"'), text_at(8, 42, note)]
    return "\n".join(out + drawn + (growth(figures) if with_growth else []) + ["</svg>"]) + "\n"


def main():
    words, note = sys.argv[1:], "Batches of 64, values of 100 bytes, in memory of the system; less is faster."
    if words[:1] == ["--note"]:
        note, words = words[1], words[2:]
    figures = Figures()
    for name in words:
        with open(name, encoding="utf-8") as file:
            figures.read(file)
    if not figures.found:
        print("no figures: the files hold no line of `bw_bench --times` or of the peers", file=sys.stderr)
        return 1
    sys.stdout.write(picture(figures, note))
    return 0


sys.exit(main())
