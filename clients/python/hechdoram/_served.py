"""What every store has that a child process `bwlog serve` serves, of pairs or of tables."""

from __future__ import annotations

import os
from types import TracebackType
from typing import NamedTuple, TypeVar, Union

from ._child import Child
from ._words import bytes_of, word_of

PathLike = Union[str, bytes, "os.PathLike[str]", "os.PathLike[bytes]"]
S = TypeVar("S", bound="Served")


class Reopened(NamedTuple):
    """What `reopen` found."""

    frame: int
    """The last frame of the folder; 0 of an empty store."""
    lost: int
    """How many changes that had been taken are gone, since no frame has them. Of tables these are
    records of the store below: a long value has one for each 512 bytes."""


class Copied(NamedTuple):
    """What a backup holds."""

    frame: int
    pages: int
    pairs: int


class Served:
    """The store of a folder, over the child process that serves it."""

    _what = "Store"

    def __init__(
        self,
        folder: PathLike,
        program: PathLike,
        flags: list[str],
        options: dict[str, int | None],
    ) -> None:
        """Opens the store of a folder, which is made if it is missing."""
        self._folder = os.fsdecode(folder)
        words = [os.fsdecode(program), "serve", "--dir=" + self._folder, *flags]
        words += [f"--{name}={number}" for name, number in options.items() if number is not None]
        self._child = Child(words, has_tables="--tables" in flags)

    def __repr__(self) -> str:
        state = "closed" if self._child.has_ended() else "open"
        return f"<hechdoram.{self._what} {self._folder!r}, {state}>"

    def __enter__(self: S) -> S:
        return self

    def __exit__(
        self,
        kind: type[BaseException] | None,
        value: BaseException | None,
        trace: TracebackType | None,
    ) -> None:
        try:
            if kind is None:
                self.close()
        finally:
            self.abandon()

    def __del__(self) -> None:
        child = getattr(self, "_child", None)
        if child is not None and not child.has_ended():
            child.end()

    def keep(self) -> int | None:
        """Makes durable what was put: the number of the last frame; None if nothing was new."""
        answer = self._child.ask(b"flush")
        return None if answer == "no frame" else self._number(answer, "frame")

    def reopen(self) -> Reopened:
        """Opens the folder once more, in the same process: it is for a store that Failed, and goes
        on from all that is durable. What can still be kept is, before."""
        answer = self._child.ask(b"reopen")
        return Reopened(self._number(answer, "frame"), self._number(answer, "lost"))

    def stats(self) -> dict[str, int]:
        """The store's numbers, by their names in the program's answer: `history`, `durable` (the
        last frame), `segments`, `spares`, `pages`; and `failed`, which is 1 after a write that
        failed, and else 0."""
        found, name = {"failed": 0}, ""
        for word in self._child.ask(b"stats").split(" "):
            if word.isdecimal():
                found[name] = int(word)
            else:
                name = word
                found[name] = 1
        return found

    def clean(self) -> int:
        """Gives up the oldest segment, whose room is free again: how many bytes that won."""
        return self._number(self._child.ask(b"clean"), "won")

    def add(self) -> int:
        """Adds a segment: its number."""
        return self._number(self._child.ask(b"add"), "added")

    def backup(self, to: PathLike) -> Copied:
        """Keeps what was put, and copies the store into a new folder. A relative path begins where
        this process was when it opened the store."""
        answer = self._child.ask(b"backup " + word_of(os.fsencode(to)))
        return Copied(*(self._number(answer, name) for name in Copied._fields))

    def close(self) -> None:
        """Keeps what was put, and ends the child. If that is refused the store stays open. A
        second close does nothing."""
        with self._child.lock:
            if not self._child.has_ended():
                self.keep()
                self._child.ask_for([b"quit"], "bye")
                self._child.end()

    def abandon(self) -> None:
        """Ends the child, and keeps nothing more. A second call does nothing."""
        self._child.end()

    def _number(self, answer: str, name: str) -> int:
        """The number after a word of an answer."""
        words = answer.split(" ")
        try:
            return int(words[words.index(name) + 1])
        except (ValueError, IndexError):
            raise self._child.no_answer(answer) from None

    def _value_in(self, answer: str) -> bytes | None:
        """The value that an answer says."""
        if answer == "none":
            return None
        name, _, word = answer.partition(" ")
        try:
            if name == "value":
                return bytes_of(word)
        except ValueError:
            pass
        raise self._child.no_answer(answer)
