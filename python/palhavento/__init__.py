"""Palhavento: an ordered file of names on disk, each with a 64-bit integer, believed after a kill at any moment.

    >>> import palhavento
    >>> store = palhavento.open("gdp.tkf")
    >>> store["gdp.de.2024"] = 4_329
    >>> store["gdp.at.2024"] = 482
    >>> list(store.items())
    [('gdp.at.2024', 482), ('gdp.de.2024', 4329)]
    >>> store.close()
"""

from __future__ import annotations

from palhavento import starting  # noqa: F401, I001  (first: it tells what keeps the rest from being imported)

import contextlib
import os

from palhavento import disk, library
from palhavento.compacting import compact
from palhavento.errors import (
    BadFile,
    CutFile,
    FileFull,
    IllegalName,
    Locked,
    Malformed,
    OlderRun,
    PalhaventoError,
    ShortOutput,
    StaleTrie,
    TrieFull,
    WrongJournal,
    WrongSize,
)
from palhavento.layout import Bucket, Cell, Stats, Trie
from palhavento.library import Content
from palhavento.store import Store

__version__ = "1.5.1"

__all__ = [
    "BadFile",
    "Bucket",
    "Cell",
    "Content",
    "CutFile",
    "FileFull",
    "IllegalName",
    "Locked",
    "Malformed",
    "OlderRun",
    "PalhaventoError",
    "ShortOutput",
    "StaleTrie",
    "Stats",
    "Store",
    "Trie",
    "TrieFull",
    "WrongJournal",
    "WrongSize",
    "compact",
    "open",
]


def open(
    path: disk.Path,
    b: int = 16,
    slots: int = 64,
    create: bool = True,
    sync: bool = True,
    readonly: bool = False,
    timeout: float = 0.0,
    version: int = library.USUAL,
    run: int = 0,
) -> Store:
    """Open a file, or create it where there is none; a file that is there keeps its own version, b and slots.

    A new file is of version 2, whose buckets split by the shortest of three strings, so that it has fewer; releases before 1.3
    take such a file for a bad one, and create those of version 1 alone. A file of version 3 keeps with each value the number of
    the run that wrote it, and refuses a put by an older run; releases before 1.4 take it for a bad one. `run` is the run of all
    puts through this store that give none of their own.

    One process at a time has a file open for writing, and any number read it beside (`readonly=True`), which create
    nothing. While another process writes it, `open` waits for so many seconds as `timeout` says. To open it a second time
    in one process gives a store that shares the first one's file, which is closed with the last of them.

    With `sync=False` a change is not waited for until it is on disk: that makes no difference to a kill, but a machine that
    fails may lose it, unless `flush` was called.

    >>> store = open("prices.tkf", b=4, slots=8)
    >>> store["oil"] = 71
    >>> open("prices.tkf")["oil"]
    71
    >>> open("prices.tkf", sync=False)
    Traceback (most recent call last):
    palhavento.errors.Locked: prices.tkf: It is open in this process with sync=True: open it so, or close it first.
    >>> open("prices.tkf", readonly=True)["oil"]
    71
    >>> open("old.tkf", version=1).version, open("old.tkf").version, open("prices.tkf").version
    (1, 1, 2)
    >>> with open("runs.tkf", version=3, run=8) as store:
    ...     store["gdp"] = 4330
    ...     store.entry("gdp")
    Content(value=4330, run=8)
    >>> open("runs.tkf", run=7)["gdp"] = 4328
    Traceback (most recent call last):
    palhavento.errors.OlderRun: 'gdp': The name is held with a higher run: run 8 wrote it, and this put is of run 7.
    >>> open("missing.tkf", create=False)
    Traceback (most recent call last):
    FileNotFoundError: [Errno 2] No such file or directory: 'missing.tkf'
    """
    if create and not readonly and not os.path.exists(path):
        # Another process may be first to create it; then its file is opened.
        with contextlib.suppress(FileExistsError):
            disk.create(path, library.create(b, slots, version)[0])
    return Store(path, readonly, sync, timeout, run)
