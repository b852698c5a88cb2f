"""The store in a folder, read in this process: over the library that `make lib` makes."""

from __future__ import annotations

import ctypes
import os
from collections.abc import Iterable, Iterator
from types import TracebackType
from typing import Any, Union

from ._errors import Damaged, Ended, Error, InUse, NoStore
from ._pairs import Pairs
from ._words import MAX_KEY, MAX_VALUE, Pair, Span, after, bytes_in, is_key, lowest

PathLike = Union[str, bytes, "os.PathLike[str]", "os.PathLike[bytes]"]

NAME = "libhechdoram_read.so"
OK, NO_MEMORY = 0, -1
NO_STORE, DAMAGED, IO, IN_USE = -12, -13, -15, -16
KINDS: dict[int, tuple[type[Error], str]] = {
    NO_STORE: (NoStore, "there is no store"),
    DAMAGED: (Damaged, "the store is damaged, or is none"),
    IN_USE: (InUse, "the folder is open to be written"),
}


def path_of() -> str:
    """The library's path: what HECHDORAM_READ names, a file beside this package's, that which
    `make lib` leaves in the repository, or else what the system finds by its name."""
    here = os.path.dirname(os.path.abspath(__file__))
    places = [os.environ.get("HECHDORAM_READ", ""), os.path.join(here, NAME)]
    places.append(os.path.join(here, "..", "..", "..", "out", NAME))
    return next((place for place in places if os.path.isfile(place)), NAME)


def declare(call: Any, answers: Any, *takes: Any) -> Any:
    call.restype, call.argtypes = answers, takes
    return call


class Library:
    """The library's calls. Those that only look at memory hold the interpreter's lock; a folder is
    read without it."""

    def __init__(self, path: str) -> None:
        quick, slow = ctypes.PyDLL(path), ctypes.CDLL(path)
        number, size, data = ctypes.c_int32, ctypes.c_size_t, ctypes.c_char_p
        word, count = ctypes.POINTER(ctypes.c_void_p), ctypes.POINTER(ctypes.c_size_t)
        pair = (data, size, count, data, size, count)
        self.open = declare(slow.bw_raw_open, number, data, size, word, ctypes.POINTER(number))
        self.get = declare(quick.bw_raw_get, number, word, data, size, data, size, count)
        self.at = declare(quick.bw_raw_at_or_above, number, word, data, size, *pair)
        self.below = declare(quick.bw_raw_below, number, word, data, size, *pair)
        self.count = declare(quick.bw_raw_count, ctypes.c_uint64, word)
        self.close = declare(quick.bw_raw_close, None, ctypes.c_void_p)


LIBRARIES: dict[str, Library] = {}


def library(path: str) -> Library:
    if path not in LIBRARIES:
        LIBRARIES[path] = Library(path)
    return LIBRARIES[path]


class Room:
    """Where an answer is written."""

    def __init__(self) -> None:
        self.key = ctypes.create_string_buffer(MAX_KEY)
        self.value = ctypes.create_string_buffer(MAX_VALUE)
        self.key_len, self.value_len = ctypes.c_size_t(), ctypes.c_size_t()
        self.of_value = self.value, MAX_VALUE, self.value_len
        self.of_pair = self.key, MAX_KEY, self.key_len, *self.of_value

    def key_in(self) -> bytes:
        return self.key.raw[: self.key_len.value]

    def value_in(self) -> bytes:
        return self.value.raw[: self.value_len.value]


# Rooms that no call has: each call takes one, so neither a thread nor a handler of a signal writes
# into that of another.
ROOMS: list[Room] = []


def free_room() -> Room:
    try:
        return ROOMS.pop()
    except IndexError:
        return Room()


class Opening:
    """What was read of a folder at one time. Its memory goes back once nobody asks it any more."""

    def __init__(self, calls: Library, folder: bytes) -> None:
        self._calls, self._word, reason = calls, ctypes.c_void_p(), ctypes.c_int32()
        if b"\0" in folder:
            raise ValueError("a path has no byte 0")
        word = ctypes.byref(self._word)
        answer = calls.open(folder, len(folder), word, ctypes.byref(reason))
        if answer == NO_MEMORY:
            raise MemoryError
        if answer == IO:
            raise OSError(reason.value, os.strerror(reason.value), os.fsdecode(folder))
        if answer != OK:
            kind, text = KINDS.get(answer, (Error, f"an unknown answer, {answer}"))
            raise kind(f"folder {os.fsdecode(folder)}: {text}")

    def __del__(self) -> None:
        if self._word:
            self._calls.close(self._word)

    def count(self) -> int:
        return int(self._calls.count(self._word))

    def value_at(self, key: bytes) -> bytes | None:
        room = free_room()
        got = self._calls.get(self._word, key, len(key), *room.of_value)
        value = room.value_in() if got == OK else None
        ROOMS.append(room)
        return value

    def at_or_above(self, key: bytes) -> Pair | None:
        return self._pair_of(self._calls.at, key)

    def below(self, key: bytes) -> Pair | None:
        """The last pair below a key; of no bytes, the last of all."""
        return self._pair_of(self._calls.below, key)

    def _pair_of(self, call: Any, key: bytes) -> Pair | None:
        room = free_room()
        got = call(self._word, key, len(key), *room.of_pair)
        pair = (room.key_in(), room.value_in()) if got == OK else None
        ROOMS.append(room)
        return pair

    def nearest(self, kind: str, key: bytes) -> Pair | None:
        """The pair next to a key, as a Store answers the request of this name."""
        if kind == "next":
            return self.at_or_above(key)
        value = self.value_at(key) if kind == "prev" else None
        return self.below(key) if value is None else (key, value)


class Reader(Pairs):
    """The pairs of a folder as they were when it was read: a mapping that does not change.

        with hechdoram.read("folder") as reader:
            print(reader[b"key"], len(reader))

    The folder is read whole when it is opened, beside other readers and under their lock, and let
    go of. If another process writes it, it is read without a lock, as it stood at one of its
    frames, and no writer waits. Nothing in it is changed. What is written later is seen once
    `refresh` was called; a scan that was begun goes on over what was read before. Threads may
    share a reader.
    """

    def __init__(self, folder: PathLike, library_path: PathLike | None = None) -> None:
        self._folder = os.fsencode(folder)
        self._calls = library(path_of() if library_path is None else os.fsdecode(library_path))
        self._opening: Opening | None = Opening(self._calls, self._folder)

    def __repr__(self) -> str:
        state = "closed" if self._opening is None else "open"
        return f"<hechdoram.Reader {os.fsdecode(self._folder)!r}, {state}>"

    def __enter__(self) -> Reader:
        return self

    def __exit__(
        self,
        kind: type[BaseException] | None,
        value: BaseException | None,
        trace: TracebackType | None,
    ) -> None:
        self.close()

    def close(self) -> None:
        """Gives the memory back, once no other thread asks. A second close does nothing."""
        self._opening = None

    def refresh(self) -> None:
        """Reads the folder once more. If that is refused, the reader stays as it was."""
        self._now()
        self._opening = Opening(self._calls, self._folder)

    def __len__(self) -> int:
        return self._now().count()

    def get_many(self, keys: Iterable[bytes]) -> list[bytes | None]:
        """The values of many keys, in their order; None at a key that has none."""
        now = self._now()
        found = (bytes_in("key", key) for key in keys)
        return [now.value_at(key) if is_key(key) else None for key in found]

    def _now(self) -> Opening:
        opening = self._opening
        if opening is None:
            raise Ended("the reader was closed")
        return opening

    def _value_at(self, key: bytes) -> bytes | None:
        return self._now().value_at(key)

    def _nearest(self, kind: str, key: bytes) -> Pair | None:
        return self._now().nearest(kind, key)

    def _ascend(self, span: Span) -> Iterator[Pair]:
        now, key = self._now(), lowest(span.low)
        while key is not None:
            pair = now.at_or_above(key)
            if pair is None or not span.is_below(pair[0]):
                return
            yield pair
            key = after(pair[0])

    def _descend(self, span: Span) -> Iterator[Pair]:
        now = self._now()
        if span.high == b"":
            return
        high = span.high or b""
        pair = now.nearest("prev", high[:MAX_KEY]) if len(high) > MAX_KEY else now.below(high)
        while pair is not None and pair[0] >= span.low:
            yield pair
            pair = now.below(pair[0])
