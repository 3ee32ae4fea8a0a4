"""Times get and put of the package beside `sqlite3`, `dbm` and LMDB, in one run.

    python3 python/bench.py            # Debian has LMDB for its own python3 in python3-lmdb, and gdbm in python3-gdbm

Each store holds the same names, on disk in the system's folder for temporary files; each put is a change of its own, and,
in the first table, is waited for until it is on disk. `sqlite3` stands with the journal that it takes by itself and with
its write-ahead log; and in memory, where nothing is kept. `dbm` never waits for the disk; which `dbm` it is depends on how
Python was built, and is told. A get is made by the writer, and then by a reader beside it, where the store lets one read: in
the same process, with a second connection. LMDB has no such reader, and needs none: whoever reads does it by a transaction.

The stores take turns, 25 calls each, in each of several rounds. Figures are the median over all, in microseconds a call.
"""

from __future__ import annotations

import contextlib
import dbm
import random
import sqlite3
import statistics
import tempfile
import time
from collections.abc import Callable, Iterable, Iterator
from functools import partial
from pathlib import Path

import palhavento
from palhavento import calls

try:
    import lmdb
except ImportError:
    lmdb = None

NAMES = random.Random(0).sample([f"series.{number:04}" for number in range(5000)], 500)
ROUNDS = 5
TURN = 25
Get = Callable[[str], int]
Put = Callable[[str, int], object]
Calls = contextlib.AbstractContextManager[tuple[Put, Get, Get | None]]


@contextlib.contextmanager
def of_palhavento(folder: Path, sync: bool) -> Iterator[tuple[Put, Get, Get | None]]:
    with palhavento.open(folder / "store.tkf", sync=sync) as store:
        with palhavento.open(folder / "store.tkf", readonly=True) as reader:
            yield lambda name, value: store.__setitem__(name, value), store.__getitem__, reader.__getitem__


@contextlib.contextmanager
def of_sqlite3(journal: str, folder: Path, sync: bool) -> Iterator[tuple[Put, Get, Get | None]]:
    def value(base: sqlite3.Connection, name: str) -> int:
        return base.execute("SELECT value FROM store WHERE name = ?", (name,)).fetchone()[0]

    path = ":memory:" if journal == "MEMORY" else str(folder / "store.db")
    # Without a level of isolation each statement is a transaction of its own.
    with contextlib.closing(sqlite3.connect(path, isolation_level=None)) as base:
        base.execute(f"PRAGMA journal_mode = {journal}")
        base.execute(f"PRAGMA synchronous = {'FULL' if sync else 'OFF'}")
        base.execute("CREATE TABLE store (name TEXT PRIMARY KEY, value INTEGER) WITHOUT ROWID")

        def put(name: str, value: int) -> object:
            return base.execute("REPLACE INTO store VALUES (?, ?)", (name, value))

        with contextlib.closing(sqlite3.connect(path, isolation_level=None)) as reader:
            yield put, partial(value, base), None if journal == "MEMORY" else partial(value, reader)


@contextlib.contextmanager
def of_dbm(folder: Path, sync: bool) -> Iterator[tuple[Put, Get, Get | None]]:
    with dbm.open(str(folder / "store"), "c") as base:
        yield lambda name, value: base.__setitem__(name, str(value)), lambda name: int(base[name]), None


@contextlib.contextmanager
def of_lmdb(folder: Path, sync: bool) -> Iterator[tuple[Put, Get, Get | None]]:
    with lmdb.open(str(folder / "store"), sync=sync, metasync=sync) as base:

        def put(name: str, value: int) -> None:
            with base.begin(write=True) as change:
                change.put(name.encode(), value.to_bytes(8, "little"))

        def get(name: str) -> int:
            with base.begin() as reading:
                return int.from_bytes(reading.get(name.encode()), "little")

        yield put, get, get


STORES: dict[str, Callable[[Path, bool], Calls]] = {
    "palhavento": of_palhavento,
    "sqlite3": partial(of_sqlite3, "DELETE"),
    "sqlite3, write-ahead log": partial(of_sqlite3, "WAL"),
    **({"lmdb": of_lmdb} if lmdb else {}),
    # These never wait for the disk.
    "sqlite3, in memory": partial(of_sqlite3, "MEMORY"),
    "dbm": of_dbm,
}


def times(calls: Iterable[Callable[[], object]]) -> list[float]:
    """The time of each call, in microseconds."""
    taken = []
    for call in calls:
        start = time.perf_counter_ns()
        call()
        taken.append((time.perf_counter_ns() - start) / 1000)
    return taken


def one_round(names: list[str], sync: bool) -> dict[str, list[list[float]]]:
    """Of each store the times of a put of each name, of a put again, of a get, and of a get by a reader."""
    taken: dict[str, list[list[float]]] = {name: [[], [], [], []] for name in names}
    with contextlib.ExitStack() as stack:
        stores = {
            name: stack.enter_context(STORES[name](Path(stack.enter_context(tempfile.TemporaryDirectory())), sync))
            for name in names
        }
        for kind in range(4):
            # Short turns, for the machine is not as fast at every moment.
            for at in range(0, len(NAMES), TURN):
                for name, (put, get, get_beside) in stores.items():
                    call = (partial(put, value=1), partial(put, value=2), get, get_beside)[kind]
                    taken[name][kind] += times(partial(call, key) for key in NAMES[at : at + TURN]) if call else []
    return taken


def main() -> None:
    """Print both tables."""
    with tempfile.TemporaryDirectory() as folder:
        dbm.open(f"{folder}/store", "c").close()
        kind = dbm.whichdb(f"{folder}/store")
    print(f"palhavento by {'ctypes' if calls.used is calls.ByCtypes else 'its extension'}, dbm by {kind}")
    for sync, names in ((True, list(STORES)[:-2]), (False, list(STORES))):
        rounds = [one_round(names, sync) for _ in range(ROUNDS)]
        title = "each put waits for the disk" if sync else "no put waits for the disk"
        print(f"{title:30}{'put':>10}{'put again':>12}{'get':>8}{'get beside':>12}")
        for name in names:
            all_rounds = [sum((taken[name][at] for taken in rounds), []) for at in range(4)]
            figures = [f"{statistics.median(call):.1f}" if call else "-" for call in all_rounds]
            print(f"{name:30}{figures[0]:>10}{figures[1]:>12}{figures[2]:>8}{figures[3]:>12}")


if __name__ == "__main__":
    main()
