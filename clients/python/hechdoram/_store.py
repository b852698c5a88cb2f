"""A store in a folder, written and read over a child process `bwlog serve`."""

from __future__ import annotations

from collections.abc import Iterable, Iterator, Mapping, MutableMapping
from contextlib import contextmanager
from itertools import chain, islice
from typing import Any, TypeVar, Union

from ._child import unrefused
from ._errors import TooLong
from ._pairs import Pairs
from ._served import PathLike, Served
from ._words import (
    Pair,
    Span,
    after,
    bytes_in,
    bytes_of,
    is_key,
    key_in,
    lowest,
    value_in,
    word_of,
)

T = TypeVar("T")
# A key, and its value, or None if the key is deleted.
Change = tuple[bytes, Union[bytes, None]]

# The most records of one step, the most keys of one line, or pairs, and the most bytes of a line.
MOST_RECORDS, MOST_KEYS, MOST_BYTES = 4, 64, 4096
# How many keys, or pairs, are sent in one burst.
BURST = 16384
# How many pairs a walk asks for at once, at first and at most.
FIRST_PAIRS, MOST_PAIRS = 8, 512


class Batch:
    """Changes that wait for the end of their block. The last change of a key is the one that
    counts; a length or a kind that no pair may have is refused at once."""

    def __init__(self) -> None:
        self._changes: dict[bytes, bytes | None] = {}

    def put(self, key: bytes, value: bytes) -> None:
        """Sets the value of a key."""
        self._note(key_in(key), value_in(value))

    def delete(self, key: bytes) -> None:
        """Deletes a key, if it is there."""
        found = bytes_in("key", key)
        if is_key(found):
            self._note(found, None)

    __setitem__ = put
    __delitem__ = delete

    def __len__(self) -> int:
        return len(self._changes)

    def changes(self) -> list[Change]:
        """The changes so far, in their order."""
        return list(self._changes.items())

    def _note(self, key: bytes, value: bytes | None) -> None:
        self._changes.pop(key, None)
        self._changes[key] = value


def pair_words(pair: tuple[object, object]) -> bytes:
    """The two words of a pair that is put."""
    return b"%s %s" % (word_of(key_in(pair[0])), word_of(value_in(pair[1])))


def put_line(pair: tuple[object, object]) -> bytes:
    return b"put " + pair_words(pair)


def lines_of(name: bytes, words: Iterable[bytes]) -> Iterator[bytes]:
    """The lines of keys, or pairs, in their order, each with as many as it holds."""
    line, length = [name], len(name)
    for word in words:
        length += 1 + len(word)
        if len(line) > MOST_KEYS or (length > MOST_BYTES and len(line) > 1):
            yield b" ".join(line)
            line, length = [name], len(name) + 1 + len(word)
        line.append(word)
    if len(line) > 1:
        yield b" ".join(line)


def op_of(key: bytes, value: bytes | None) -> bytes:
    """A change as a part of a group's line."""
    return b" del " + word_of(key) if value is None else b" " + put_line((key, value))


def groups_of(changes: Iterable[Change]) -> Iterator[bytes]:
    """The lines of changes in their order, each with as many as one step takes."""
    line, count = b"group", 0
    for key, value in changes:
        op = op_of(key, value)
        if count == MOST_RECORDS or (count and len(line) + len(op) > MOST_BYTES):
            yield line
            line, count = b"group", 0
        line, count = line + op, count + 1
    if count:
        yield line


def pair_in(words: str) -> Pair:
    """The pair of a word `k=v`."""
    key, value = words.split("=")
    return bytes_of(key), bytes_of(value)


class Store(Served, Pairs, MutableMapping[bytes, bytes]):
    """The store in a folder: a mapping that can be changed.

        with hechdoram.open("folder") as store:
            store[b"key"] = b"value"
            store.keep()

    What was put is seen at once, and durable once `keep` has answered, or the store was closed. A
    block that ends well closes its store. One that raises ends it and keeps nothing more, so what
    was put since the last `keep` may be lost.

    Threads may share a store: a call waits for the one before it. A call that is left before its
    answer was read ends the store; from then on each call raises Ended.
    """

    def __init__(
        self,
        folder: PathLike,
        program: PathLike = "bwlog",
        *,
        capacity: int | None = None,
        segments: int | None = None,
        most_segments: int | None = None,
        m: int | None = None,
        frame: int | None = None,
        places: int | None = None,
    ) -> None:
        """Opens the store of a folder, which is made if it is missing, by a child process
        `bwlog serve`. The options are those of the program (docs/USING.md, "Options")."""
        options = dict(capacity=capacity, segments=segments, m=m, frame=frame, places=places)
        options["most-segments"] = most_segments
        super().__init__(folder, program, [], options)

    # What a mapping has

    def __len__(self) -> int:
        return self._number(self._child.ask(b"count"), "count")

    def __setitem__(self, key: bytes, value: bytes) -> None:
        self._child.ask_for([put_line((key, value))], "ok")

    def __delitem__(self, key: bytes) -> None:
        with self._child.lock:
            if key not in self:
                raise KeyError(key)
            self.delete(key)

    def pop(self, key: bytes, *default: Any) -> Any:
        """Deletes a key and gives the value that it had, in one step among threads; `default`,
        or a KeyError, if it had none."""
        with self._child.lock:
            value = self.get(key)
            if value is not None:
                self.delete(key)
                return value
        if not default:
            raise KeyError(key)
        return default[0]

    def popitem(self) -> Pair:
        """Deletes the pair with the least key, and gives it, in one step among threads."""
        with self._child.lock:
            return super().popitem()

    def setdefault(self, key: bytes, default: Any = None) -> Any:
        """The value of a key; if it has none, it is set to `default` in one step among
        threads."""
        with self._child.lock:
            return super().setdefault(key, default)

    def update(self, other: Any = (), /, **named: Any) -> None:
        """Puts many pairs, as `put_many`."""
        self.put_many(dict(other, **named))

    def clear(self) -> None:
        """Deletes all pairs, in bursts: whatever stops it, the first ones are gone."""
        while keys := [pair[0] for pair in islice(self.scan(), BURST)]:
            self._child.ask_for([b"del " + word_of(key) for key in keys], "ok")

    # Many at once

    def get_many(self, keys: Iterable[bytes]) -> list[bytes | None]:
        """The values of many keys, in their order, asked in bursts; None at a key that has none."""
        found, asked = iter(keys), []
        values: list[bytes | None] = []
        while asked := [bytes_in("key", key) for key in islice(found, BURST)]:
            lines = list(lines_of(b"gets", [word_of(key) for key in asked if is_key(key)]))
            answers = unrefused(self._child.ask_all(lines))
            there = chain.from_iterable(map(self._values_in, lines, answers))
            values += [next(there) if is_key(key) else None for key in asked]
        return values

    def put_many(self, pairs: Mapping[bytes, bytes] | Iterable[Pair]) -> None:
        """Puts many pairs, sent in bursts of 16,384, in lines of up to 64. It is no step: if a
        pair is refused those after it in its line are not put, the other lines of its burst are,
        and the first refusal is raised. A length that no pair may have is refused before its burst
        is sent."""
        found = iter(pairs.items() if isinstance(pairs, Mapping) else pairs)
        while words := [pair_words(pair) for pair in islice(found, BURST)]:
            self._child.ask_for(list(lines_of(b"puts", words)), "ok")

    def group(self, changes: Mapping[bytes, bytes | None] | Iterable[Change]) -> None:
        """Makes one to four changes in one step: whatever happens, all are there or none. A value
        of None deletes its key. More are refused by TooLong; so are four of together more than a
        line holds, 4,096 bytes, in which a byte that is not printable takes two."""
        batch = Batch()
        for key, value in changes.items() if isinstance(changes, Mapping) else changes:
            batch.put(key, value) if value is not None else batch.delete(key)
        lines = list(groups_of(batch.changes()))
        if len(lines) > 1:
            raise TooLong("a group has one to four records, in a line of at most 4096 bytes")
        self._child.ask_for(lines, "ok")

    @contextmanager
    def batch(self) -> Iterator[Batch]:
        """Gathers changes, and makes them when the block ends well; none if it raises.

            with store.batch() as batch:
                batch[b"key"] = b"value"
                del batch[b"other"]

        They go to the store in groups, in their order. Up to four records are one step, as of
        `group`: all are there or none. Of more, whatever stops them, a beginning is there, which
        ends between two groups. The first refusal ends the batch there.
        """
        batch = Batch()
        yield batch
        with self._child.lock:
            for line in groups_of(batch.changes()):
                self._child.ask_for([line], "ok")

    # The store itself

    def delete(self, key: bytes) -> None:
        """Deletes a key, if it is there, by one request: `del store[key]` looks it up before."""
        found = bytes_in("key", key)
        if is_key(found):
            self._child.ask_for([b"del " + word_of(found)], "ok")

    # Answers

    def _values_in(self, line: bytes, answer: str) -> list[bytes | None]:
        """The values that an answer to many keys says: a word for each, or `=`."""
        name, *words = answer.split(" ")
        try:
            if name == "values" and len(words) == line.count(b" "):
                return [None if word == "=" else bytes_of(word) for word in words]
        except ValueError:
            pass
        raise self._child.no_answer(answer)

    def _pairs_in(self, answer: str) -> list[Pair]:
        """The pairs of an answer: `pair k=v`, or `pairs M k=v ..`."""
        name, *words = answer.split(" ")
        try:
            count = int(words.pop(0)) if name == "pairs" else 1
            if name in ("pair", "pairs") and len(words) == count:
                return [pair_in(word) for word in words]
        except (ValueError, IndexError):
            pass
        raise self._child.no_answer(answer)

    def _value_at(self, key: bytes) -> bytes | None:
        return self._value_in(self._child.ask(b"get " + word_of(key)))

    def _nearest(self, kind: str, key: bytes) -> Pair | None:
        answer = self._child.ask(kind.encode() + b" " + word_of(key))
        return None if answer == "none" else self._pairs_in(answer)[0]

    def _ascend(self, span: Span) -> Iterator[Pair]:
        """Asks for more pairs at a time as the walk goes on."""
        key, most = lowest(span.low), FIRST_PAIRS
        while key is not None:
            answer = self._child.ask(b"scan %s %d" % (word_of(key), most))
            pairs = self._pairs_in(answer)
            for pair in pairs:
                if not span.is_below(pair[0]):
                    return
                yield pair
            key = after(pairs[-1][0]) if len(pairs) == most else None
            most = min(2 * most, MOST_PAIRS)

    def _descend(self, span: Span) -> Iterator[Pair]:
        """Asks for each pair by itself: no request has many below a key."""
        pair = self._last_of(span)
        while pair is not None and pair[0] >= span.low:
            yield pair
            pair = self._nearest("below", pair[0])
