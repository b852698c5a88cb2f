"""Folders as a loss of power could leave them: what stands for certain of what a run asked of the system, and what may stand of the call in flight
(tools/watch.c notes the calls)."""

import struct

WORD, HEAD = b"FRM2", 24


def frame_of(piece):
    """The number of the frame that a piece is, if it is one."""
    return struct.unpack_from("<Q", piece, 4)[0] if piece[:4] == WORD else None


class Disk:
    """What stands for certain, and what may."""

    def __init__(self, stands, last):
        self.stands = dict(stands)
        self.now = dict(stands)
        self.unnamed = set()
        self.last = last

    def ask(self, note):
        letter, offset, length, name, piece = note
        if letter == "o" and name not in self.now:
            self.now[name] = b""
            self.unnamed.add(name)
        elif letter == "w":
            old = self.now[name].ljust(offset, b"\0")
            self.now[name] = old[:offset] + piece + old[offset + len(piece) :]
        elif letter == "t":
            self.now[name] = self.now[name][:length].ljust(length, b"\0")
        elif letter == "f":
            for each in self.unnamed:
                self.stands.setdefault(each, b"")
            self.unnamed.clear()
        elif letter == "s" and name not in self.unnamed:
            self.stands[name] = self.now[name]

    def left(self, note, draw, most=8):
        """The folders in which this call may leave all, each with the last frame that has to be found, and 0 if there is none. Of a long piece so many
        cuts are drawn."""
        letter, offset, length, name, piece = note
        if name in self.unnamed or name not in self.stands:
            yield self.stands, self.last
            return
        if letter == "t":
            yield self.stands, self.last
            yield {**self.stands, name: self.stands[name][:length]}, self.last
            return
        cuts = range(len(piece) + 1)
        if len(piece) > 80:
            cuts = sorted({0, 1, len(piece) - 1, len(piece)} | {draw.randrange(len(piece)) for _ in range(most)})
        old = self.stands[name]
        is_new = offset == len(old)
        for cut in cuts:
            held = old[:offset] + piece[:cut] + old[offset + cut :]
            number = frame_of(piece) if is_new and cut == len(piece) else None
            yield {**self.stands, name: held}, number or self.last
