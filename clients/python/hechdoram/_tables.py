"""The tables of a folder, written and read over a child process `bwlog serve --tables`."""

from __future__ import annotations

from collections.abc import ItemsView, Iterator, MutableMapping, ValuesView
from contextlib import contextmanager
from typing import Any, TypeVar, Union, overload

from ._errors import TooLong
from ._served import PathLike, Served
from ._words import Pair, after_all_of, bytes_in, bytes_of, word_of

T = TypeVar("T")

MAX_NAME, MAX_TABLE_KEY, MAX_TABLE_VALUE = 127, 124, 16_777_216
# The most changes of a batch, and the most bytes of their keys and values together.
MOST_CHANGES, MOST_BATCH = 65_536, 67_108_864
# How many pairs a walk asks for at once, at first and at most, and how many names.
FIRST_PAIRS, MOST_PAIRS, MOST_NAMES = 8, 512, 1024


def name_in(data: object) -> bytes:
    """The bytes of a name that a table may have."""
    name = bytes_in("name", data.name if isinstance(data, Table) else data)
    if not 0 < len(name) <= MAX_NAME:
        raise TooLong("a name has 1 to 127 bytes")
    return name


def is_key(key: bytes) -> bool:
    """Whether a table may have this key."""
    return 0 < len(key) <= MAX_TABLE_KEY


def key_in(data: object) -> bytes:
    """The bytes of a key that may be put into a table."""
    key = bytes_in("key", data)
    if not is_key(key):
        raise TooLong("a key of a table has 1 to 124 bytes")
    return key


def value_in(data: object) -> bytes:
    """The bytes of a value that may be put into a table."""
    value = bytes_in("value", data)
    if len(value) > MAX_TABLE_VALUE:
        raise TooLong("a value of a table has 0 to 16777216 bytes")
    return value


def change_line(table: bytes, key: bytes, value: bytes | None) -> bytes:
    """The line of a change."""
    if value is None:
        return b"del %s %s" % (word_of(table), word_of(key))
    return b"put %s %s %s" % (word_of(table), word_of(key), word_of(value))


def pair_in(word: str) -> Pair:
    """The pair of a word `k=v`."""
    key, value = word.split("=")
    return bytes_of(key), bytes_of(value)


class TableBatch:
    """Changes of tables that wait for the end of their block. The last change of a key is the one
    that counts; a length or a kind that no table takes is refused at once."""

    def __init__(self) -> None:
        self._changes: dict[tuple[bytes, bytes], bytes | None] = {}
        self._bytes = 0

    def put(self, table: bytes | Table, key: bytes, value: bytes) -> None:
        """Sets the value of a key of a table. TooLong of more than the batch takes: 65,536
        changes, or 64 MiB of keys and values."""
        self._note(name_in(table), key_in(key), value_in(value))

    def delete(self, table: bytes | Table, key: bytes) -> None:
        """Deletes a key of a table, if it is there."""
        name, found = name_in(table), bytes_in("key", key)
        if is_key(found):
            self._note(name, found, None)

    def __len__(self) -> int:
        return len(self._changes)

    def lines(self) -> list[bytes]:
        """The lines of the changes so far, in their order."""
        return [change_line(*place, value) for place, value in self._changes.items()]

    def _note(self, table: bytes, key: bytes, value: bytes | None) -> None:
        place, length = (table, key), len(key) + len(value or b"")
        if place in self._changes:
            length -= len(key) + len(self._changes[place] or b"")
        elif len(self._changes) == MOST_CHANGES:
            raise TooLong("a batch has at most 65536 changes")
        if self._bytes + length > MOST_BATCH:
            raise TooLong("the keys and values of a batch have at most 67108864 bytes")
        self._bytes += length
        self._changes.pop(place, None)
        self._changes[place] = value


class Table(MutableMapping[bytes, bytes]):
    """A table of a folder: a mapping in the order of the keys' bytes, which can be changed.

    A key has 1 to 124 bytes, a value up to 16 MiB. No table has a key of another length, so that a
    look-up of one finds nothing. If no table has the name, each call raises NoTable. Made by
    `TableStore.table`, which asks nothing, or by `create_table`.
    """

    def __init__(self, store: TableStore, name: bytes) -> None:
        self._store, self.name = store, name_in(name)
        self._word = word_of(self.name)

    def __repr__(self) -> str:
        return f"<hechdoram.Table {self.name!r}>"

    def __len__(self) -> int:
        return self._store._number(self._ask(b"count"), "count")

    def count(self) -> int:
        """How many keys the table has. All its rows are looked at, and none of its long values."""
        return len(self)

    def __getitem__(self, key: bytes) -> bytes:
        """The value of a key; KeyError if it has none."""
        value = self.get(key)
        if value is None:
            raise KeyError(key)
        return value

    @overload
    def get(self, key: bytes) -> bytes | None: ...

    @overload
    def get(self, key: bytes, default: bytes | T) -> bytes | T: ...

    def get(self, key: bytes, default: Any = None) -> Any:
        """The value of a key; `default` if it has none."""
        found = bytes_in("key", key)
        if not is_key(found):
            return default
        value = self._store._value_in(self._ask(b"get", word_of(found)))
        return default if value is None else value

    def __contains__(self, key: object) -> bool:
        return self.get(bytes_in("key", key)) is not None

    def __setitem__(self, key: bytes, value: bytes) -> None:
        self.put(key, value)

    def put(self, key: bytes, value: bytes) -> None:
        """Sets the value of a key, in one step: after whatever stops it the key has the old value
        or the new one."""
        self._store._do(change_line(self.name, key_in(key), value_in(value)))

    def __delitem__(self, key: bytes) -> None:
        with self._store._child.lock:
            if key not in self:
                raise KeyError(key)
            self.delete(key)

    def delete(self, key: bytes) -> None:
        """Deletes a key, if it is there, by one request: `del table[key]` looks it up before."""
        found = bytes_in("key", key)
        if is_key(found):
            self._store._do(change_line(self.name, found, None))

    def __iter__(self) -> Iterator[bytes]:
        return (key for key, _ in self.scan())

    def values(self) -> ValuesView[bytes]:
        """All values, in the order of their keys."""
        return TableValues(self)

    def items(self) -> ItemsView[bytes, bytes]:
        """All pairs, in order."""
        return TableItems(self)

    def at_or_above(self, key: bytes) -> Pair | None:
        """The pair with the least key at or above these bytes; None if there is none."""
        found = bytes_in("key", key)
        if len(found) > MAX_TABLE_KEY:
            return next(iter(self.scan(start=found)), None)
        answer = self._ask(b"next", word_of(found or b"\0"))
        return None if answer == "none" else self._store._rows_in(answer)[0][0]

    def scan(
        self, prefix: bytes = b"", *, start: bytes | None = None, stop: bytes | None = None
    ) -> Iterator[Pair]:
        """The pairs whose key begins with `prefix`, is not below `start`, and is below `stop`, in
        the order of their keys. A table that changes meanwhile gives each pair as it was when it
        was asked for: up to 512 are asked for at a time, or as many as have 1 MiB."""
        front = bytes_in("prefix", prefix)
        low = front if start is None else max(front, bytes_in("start", start))
        highs = [after_all_of(front), None if stop is None else bytes_in("stop", stop)]
        high = min((bound for bound in highs if bound is not None), default=None)
        return self._ascend(low, high)

    def _ask(self, name: bytes, *words: bytes) -> str:
        return self._store._child.ask(b" ".join([name, self._word, *words]))

    def _ascend(self, low: bytes, high: bytes | None) -> Iterator[Pair]:
        """Asks for more pairs at a time as the walk goes on."""
        # A key above the longest that a table may have stands above its first 124 bytes.
        name = b"above" if len(low) > MAX_TABLE_KEY else b"scan"
        key, most, has_more = low[:MAX_TABLE_KEY] or b"\0", FIRST_PAIRS, True
        while has_more:
            answer = self._ask(name, word_of(key), b"%d" % most)
            pairs, is_cut = self._store._rows_in(answer)
            for pair in pairs:
                if high is not None and pair[0] >= high:
                    return
                yield pair
            has_more = is_cut or len(pairs) == most
            name, key = b"above", pairs[-1][0] if pairs else key
            most = min(2 * most, MOST_PAIRS)


class TableValues(ValuesView[bytes]):
    """The values of a table, in the order of their keys."""

    _mapping: Table

    def __iter__(self) -> Iterator[bytes]:
        return (value for _, value in self._mapping.scan())

    def __contains__(self, value: object) -> bool:
        return any(value == one for one in self)


class TableItems(ItemsView[bytes, bytes]):
    """The pairs of a table, in order."""

    _mapping: Table

    def __iter__(self) -> Iterator[Pair]:
        return self._mapping.scan()


Rows = tuple[list[Pair], bool]
TableName = Union[bytes, Table]


class TableStore(Served):
    """The tables of a folder, by their names.

        with hechdoram.open_tables("folder") as store:
            users = store.create_table(b"users")
            users[b"ann"] = b"a value of up to 16 MiB"
            store.keep()

    What was put is seen at once, and durable once `keep` has answered, or the store was closed. A
    block that ends well closes its store. One that raises ends it and keeps nothing more, so what
    was put since the last `keep` may be lost. Each call is one step: whatever stops it, all of it is
    there or nothing.

    Threads may share a store: a call waits for the one before it. A call that is left before its
    answer was read ends the store; from then on each call raises Ended.
    """

    _what = "TableStore"

    def __init__(
        self,
        folder: PathLike,
        program: PathLike = "bwlog",
        *,
        capacity: int | None = None,
        segments: int | None = None,
        most_segments: int | None = None,
        m: int | None = None,
        frame: int | None = None,
        places: int | None = None,
    ) -> None:
        """Opens the tables of a folder, which is made if it is missing, by a child process
        `bwlog serve --tables`. The options are those of the program (docs/USING.md, "Options")."""
        options = dict(capacity=capacity, segments=segments, m=m, frame=frame, places=places)
        options["most-segments"] = most_segments
        super().__init__(folder, program, ["--tables"], options)

    def table(self, name: bytes) -> Table:
        """The table of this name. Nothing is asked: its calls raise NoTable if there is none."""
        return Table(self, name)

    def tables(self) -> list[bytes]:
        """The names of all tables, in the order of their bytes."""
        found = self._names_in(self._child.ask(b"tables"))
        most = MOST_NAMES
        while most == MOST_NAMES:
            more = self._names_in(self._child.ask(b"tables " + word_of(found[-1]))) if found else []
            found, most = found + more, len(more)
        return found

    def create_table(self, name: bytes) -> Table:
        """Makes a table with no key. TableExists if there is one of this name."""
        table = Table(self, name)
        self._do(b"create " + word_of(table.name))
        return table

    def drop_table(self, name: TableName) -> None:
        """Drops a table with all its keys, in one step. NoTable if there is none of this name."""
        self._do(b"drop " + word_of(name_in(name)))

    @contextmanager
    def batch(self) -> Iterator[TableBatch]:
        """Gathers changes, in any tables, and makes them in one step when the block ends well;
        none if it raises. Whatever stops it, all of them are there or none.

            with store.batch() as batch:
                batch.put(b"users", b"1", b"ann")
                batch.put(b"names", b"ann 1", b"")
        """
        batch = TableBatch()
        yield batch
        if len(batch):
            self._do(b"\n".join([b"batch %d" % len(batch), *batch.lines()]))

    def _do(self, request: bytes) -> None:
        """Asks what is answered that it was done."""
        self._child.ask_for([request], "ok")

    def _names_in(self, answer: str) -> list[bytes]:
        """The names of an answer `tables M name ..`."""
        kind, *words = answer.split(" ")
        try:
            if kind == "tables" and int(words.pop(0)) == len(words):
                return [bytes_of(word) for word in words]
        except (ValueError, IndexError):
            pass
        raise self._child.no_answer(answer)

    def _rows_in(self, answer: str) -> Rows:
        """The pairs of an answer, `pair k=v` or `pairs M k=v ..`, and whether its length ended it."""
        kind, *words = answer.split(" ")
        is_cut = words[-1:] == ["more"]
        try:
            count = int(words.pop(0)) if kind == "pairs" else 1
            words = words[:-1] if is_cut else words
            if kind in ("pair", "pairs") and len(words) == count:
                return [pair_in(word) for word in words], is_cut
        except (ValueError, IndexError):
            pass
        raise self._child.no_answer(answer)
