"""What a file is when half of its names are removed: its used slots and its load, with merges and as they were without.

    python3 python/removals.py         # some seconds; nothing is timed, so every run prints the same

A file is filled as in `versions.py`, until a put is refused. Then half of its names are removed, one after the other: at random, every
other one in order, or the lower half, as when an old vintage goes. Before removals merged buckets (R7.14) every slot kept its range,
so the slots used were those of the full file; the file itself tells both figures. Last, all names are removed.
"""

from __future__ import annotations

import random
from collections.abc import Callable

import versions
from palhavento import calls, layout, library

VERSION = 2
NAMES = {kind: versions.NAMES[kind] for kind in ("of the benchmark", "100 groups sharing 18 digits", "random")}
HALVES: dict[str, Callable[[list[str]], list[str]]] = {
    "at random": lambda names: random.Random(7).sample(names, len(names) // 2),
    "every other one": lambda names: names[::2],
    "the lower half": lambda names: names[: len(names) // 2],
}

HEADING = """\
| names | b | removed | names left | slots used: without merges, with them | load: without merges, with them | all removed |
|---|---|---|---|---|---|---|"""


def without(file: bytes, trie: bytes, names: list[str]) -> tuple[bytes, bytes]:
    """A file without these names, and its trie.

    >>> file, trie = library.create(b=2, slots=2)
    >>> for name in "abc":
    ...     _, file, trie = calls.put(file, trie, name, 0, 0, 2)
    >>> layout.stats(file, trie).used, layout.stats(*without(file, trie, ["a", "b"])).used
    (2, 1)
    """
    for name in names:
        _, file, trie = calls.remove(file, trie, name, 2)
    return file, trie


def line(kind: str, half: str, b: int) -> str:
    """A line of the table."""
    file, trie = versions.made(NAMES[kind](), b, versions.SLOTS, VERSION)[:2]
    full = layout.stats(file, trie)
    held = [name for name, _ in calls.entries(file, trie, calls.LOWEST, calls.HIGHEST)]
    gone = HALVES[half](held)
    file, trie = without(file, trie, gone)
    now = layout.stats(file, trie)
    empty = layout.stats(*without(file, trie, [name for name in held if name not in set(gone)]))
    loads = now.entries / (b * full.used), now.load
    figures = f"{full.used}, {now.used}", f"{loads[0]:.0%}, {loads[1]:.0%}", f"{empty.used} slot, {empty.strings} strings"
    return f"| {' | '.join([kind, str(b), half, str(now.entries), *figures])} |"


def main() -> None:
    """Print the table."""
    print(HEADING)
    for kind in NAMES:
        for b in versions.SIZES:
            for half in HALVES:
                print(line(kind, half, b))


if __name__ == "__main__":
    main()
