"""A store of keys and values in a folder. Both are bytes: a key 1 to 128, a value up to 512.

    import hechdoram

    with hechdoram.open("folder") as store:      # to write, over a child process
        store[b"key"] = b"value"
        store.keep()                             # durable from here on
        for key, value in store.scan(b"prefix", reverse=True):
            ...

    with hechdoram.read("folder") as reader:     # to read only, in this process
        print(reader[b"key"])

    with hechdoram.open_tables("other") as tables:   # a folder of tables, with values up to 16 MiB
        users = tables.create_table(b"users")
        users[b"key"] = b"value" * 100000

The first two are mappings with the same names for what they share, and so is each table. `open` and
`open_tables` run the program `bwlog`, and have the folder for themselves; `read` loads the library libhechdoram_read, reads the folder whole, and lets
go of it. Each error is an `Error`, and most are one of its kinds.
"""

from __future__ import annotations

from ._errors import (
    Damaged,
    Ended,
    Error,
    Failed,
    Full,
    InUse,
    NoStore,
    NoTable,
    Refused,
    TableExists,
    TooLong,
)
from ._reader import PathLike, Reader
from ._served import Copied, Reopened
from ._store import Batch, Store
from ._tables import MAX_NAME, MAX_TABLE_KEY, MAX_TABLE_VALUE, Table, TableBatch, TableStore
from ._words import MAX_KEY, MAX_VALUE, after

__all__ = [
    "MAX_KEY",
    "MAX_NAME",
    "MAX_TABLE_KEY",
    "MAX_TABLE_VALUE",
    "MAX_VALUE",
    "Batch",
    "Copied",
    "Damaged",
    "Ended",
    "Error",
    "Failed",
    "Full",
    "InUse",
    "NoStore",
    "NoTable",
    "Reader",
    "Refused",
    "Reopened",
    "Store",
    "Table",
    "TableBatch",
    "TableExists",
    "TableStore",
    "TooLong",
    "after",
    "open",
    "open_tables",
    "read",
]


def open(  # noqa: A001
    path: PathLike,
    program: PathLike = "bwlog",
    *,
    capacity: int | None = None,
    segments: int | None = None,
    most_segments: int | None = None,
    m: int | None = None,
    frame: int | None = None,
    places: int | None = None,
) -> Store:
    """Opens the store of a folder, which is made if it is missing. `program` is `bwlog`, by its
    path or as it is found along PATH; the options are those of `bwlog serve`.

    It raises InUse if another process has the folder, Damaged if its bytes are no whole
    store, Ended with the program's words if it ended otherwise, and OSError if there is no
    such program."""
    return Store(
        path,
        program,
        capacity=capacity,
        segments=segments,
        most_segments=most_segments,
        m=m,
        frame=frame,
        places=places,
    )


def open_tables(
    path: PathLike,
    program: PathLike = "bwlog",
    *,
    capacity: int | None = None,
    segments: int | None = None,
    most_segments: int | None = None,
    m: int | None = None,
    frame: int | None = None,
    places: int | None = None,
) -> TableStore:
    """Opens the tables of a folder, which is made if it is missing. A folder whose pairs are no
    tables is refused, by Ended with the program's words. As `open` else."""
    return TableStore(
        path,
        program,
        capacity=capacity,
        segments=segments,
        most_segments=most_segments,
        m=m,
        frame=frame,
        places=places,
    )


def read(path: PathLike, library: PathLike | None = None) -> Reader:
    """Reads the store of a folder into memory. `library` is the path of libhechdoram_read.so, which
    `make lib` makes; without it, it is looked for at the place that HECHDORAM_READ names, beside
    this package, in the repository, and where the system has its libraries.

    It raises NoStore if there is nothing to read, InUse if the folder is written and ten readings
    gave no moment of it, Damaged if its bytes are no whole store, and OSError if the system
    refused a call."""
    return Reader(path, library)
