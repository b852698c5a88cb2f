"""What an open store and a reader have in common: a mapping whose keys stand in order."""

from __future__ import annotations

from abc import abstractmethod
from collections.abc import ItemsView, Iterable, Iterator, KeysView, Mapping, ValuesView
from typing import Any, TypeVar, overload

from ._words import GREATEST, MAX_KEY, Pair, Span, bytes_in, is_key, lowest

T = TypeVar("T")


class Pairs(Mapping[bytes, bytes]):
    """A mapping from keys to values, both bytes, in the order of the keys' bytes.

    A key has 1 to 128 bytes, a value 0 to 512. No pair has a key of another length, so that a
    look-up of one finds nothing. Text is refused: encode it first.
    """

    @abstractmethod
    def get_many(self, keys: Iterable[bytes]) -> list[bytes | None]:
        """The values of many keys, in their order; None at a key that has none."""

    @abstractmethod
    def _value_at(self, key: bytes) -> bytes | None:
        """The value of a key that a pair may have."""

    @abstractmethod
    def _nearest(self, kind: str, key: bytes) -> Pair | None:
        """The pair next to a key that a pair may have: at or above it (`next`), at or below it
        (`prev`), or below it (`below`)."""

    @abstractmethod
    def _ascend(self, span: Span) -> Iterator[Pair]:
        """The pairs of a span, the least key first."""

    @abstractmethod
    def _descend(self, span: Span) -> Iterator[Pair]:
        """The pairs of a span, the greatest key first."""

    def __getitem__(self, key: bytes) -> bytes:
        """The value of a key; KeyError if it has none."""
        value = self.get(key)
        if value is None:
            raise KeyError(key)
        return value

    @overload
    def get(self, key: bytes) -> bytes | None: ...

    @overload
    def get(self, key: bytes, default: bytes | T) -> bytes | T: ...

    def get(self, key: bytes, default: Any = None) -> Any:
        """The value of a key; `default` if it has none."""
        found = bytes_in("key", key)
        value = self._value_at(found) if is_key(found) else None
        return default if value is None else value

    def __contains__(self, key: object) -> bool:
        return self.get(bytes_in("key", key)) is not None

    def __iter__(self) -> Iterator[bytes]:
        return (key for key, _ in self.scan())

    def __reversed__(self) -> Iterator[bytes]:
        return (key for key, _ in self.scan(reverse=True))

    def keys(self) -> KeysView[bytes]:
        """All keys, in order."""
        return Keys(self)

    def values(self) -> ValuesView[bytes]:
        """All values, in the order of their keys."""
        return Values(self)

    def items(self) -> ItemsView[bytes, bytes]:
        """All pairs, in order."""
        return Items(self)

    def scan(
        self,
        prefix: bytes = b"",
        *,
        start: bytes | None = None,
        stop: bytes | None = None,
        reverse: bool = False,
    ) -> Iterator[Pair]:
        """The pairs whose key begins with `prefix`, is not below `start`, and is below `stop`, in
        the order of their keys, or the other way round. A store that changes meanwhile gives each
        pair as it was when it was asked for: up to 512 are asked for at a time."""
        span = Span(prefix, start, stop)
        return self._descend(span) if reverse else self._ascend(span)

    def at_or_above(self, key: bytes) -> Pair | None:
        """The pair with the least key at or above these bytes; None if there is none."""
        low = lowest(bytes_in("key", key))
        return None if low is None else self._nearest("next", low)

    def at_or_below(self, key: bytes) -> Pair | None:
        """The pair with the greatest key at or below these bytes; None if there is none."""
        high = bytes_in("key", key)[:MAX_KEY]
        return self._nearest("prev", high) if high else None

    def below(self, key: bytes) -> Pair | None:
        """The pair with the greatest key below these bytes; None if there is none."""
        high = bytes_in("key", key)
        if len(high) > MAX_KEY:
            return self.at_or_below(high)
        return self._nearest("below", high) if high else None

    def _last_of(self, span: Span) -> Pair | None:
        """The last pair of a span."""
        high = span.high
        pair = self.at_or_below(GREATEST) if high is None else self.below(high)
        return pair if pair is not None and pair[0] >= span.low else None


class Keys(KeysView[bytes]):
    """The keys of a mapping, in order."""

    _mapping: Pairs

    def __reversed__(self) -> Iterator[bytes]:
        return reversed(self._mapping)


class Values(ValuesView[bytes]):
    """The values of a mapping, in the order of their keys."""

    _mapping: Pairs

    def __iter__(self) -> Iterator[bytes]:
        return (value for _, value in self._mapping.scan())

    def __reversed__(self) -> Iterator[bytes]:
        return (value for _, value in self._mapping.scan(reverse=True))

    def __contains__(self, value: object) -> bool:
        return any(value == one for one in self)


class Items(ItemsView[bytes, bytes]):
    """The pairs of a mapping, in order."""

    _mapping: Pairs

    def __iter__(self) -> Iterator[Pair]:
        return self._mapping.scan()

    def __reversed__(self) -> Iterator[Pair]:
        return self._mapping.scan(reverse=True)
