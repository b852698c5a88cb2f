"""What goes wrong with a store, by kind. The text of an error is the program's own sentence."""

from __future__ import annotations

import re


class Error(Exception):
    """Something went wrong with a store. Each kind below is one."""


class Refused(Error):
    """The store refused a request, and is as it was: `refused E11 NothingOld`, say, or `fault ..`
    of a request that is none. The kinds that a program acts on have names of their own."""


class Full(Refused):
    """There is no room for what is put (`refused E5 NoSegment`). Deletes, `keep` and `clean` still
    go, and `add` if the store may have more segments."""


class Failed(Refused):
    """A file of the store could not be read or written (`refused E6 Device`), or a write failed
    before (`refused E7 Failed`). After a write that failed nothing more is kept, and reads still
    answer: `reopen` goes on from all that is durable."""


class NoTable(Refused):
    """No table has this name (`refused E21 NoTable`)."""


class TableExists(Refused):
    """A table has this name already (`refused E22 Exists`)."""


class TooLong(Error, ValueError):
    """A key has not 1 to 128 bytes, a value more than 512, or a group is more than one step takes;
    of tables, a name has not 1 to 127 bytes, a key not 1 to 124, a value more than 16 MiB, or a
    batch is more than one takes. Nothing was asked."""


class Ended(Error):
    """No further request is answered, and none is sent: the store was closed; or its program has
    ended, with these words; or a call was left before its answer was read, as by Ctrl-C, so that
    an answer could be taken for that of another request. Open the store again."""


class InUse(Error):
    """Another process has the folder: one that writes, or, for who wants to write, one that
    reads."""


class Damaged(Error):
    """Bytes of the folder were changed or lost, or are no store. Nothing was changed there.
    `bwlog verify` says where, and `bwlog salvage` saves what is left."""


class NoStore(Error):
    """There is nothing to read: no such folder, no segment in it, or no whole frame."""


# The refusals that have a kind of their own, by their number.
KINDS: dict[str, type[Refused]] = {
    "E2": Full,
    "E5": Full,
    "E6": Failed,
    "E7": Failed,
    "E21": NoTable,
    "E22": TableExists,
}
# What the program says of a folder that it does not open.
IN_USE = re.compile(r": in use$", re.M)
DAMAGED = re.compile(
    r": (?:damaged|missing|bad bytes): |^refused E1[2-7] |: segment \d+ is missing", re.M
)


def refusal_in(answer: str) -> Refused | None:
    """The refusal that an answer says, if it is one."""
    words = answer.split(" ", 2)
    if words[0] == "fault":
        return Refused(answer)
    if words[0] != "refused":
        return None
    return KINDS.get(words[1] if len(words) > 1 else "", Refused)(answer)


def end_by(words: str) -> Error:
    """The error of a program that ended with these words."""
    if IN_USE.search(words):
        return InUse(words)
    return Damaged(words) if DAMAGED.search(words) else Ended(words)
