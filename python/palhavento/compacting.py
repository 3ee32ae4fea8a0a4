"""A store written anew, by the puts and removes that leave the most room.

How full a store is depends on the order in which its names came: a split leaves part of a bucket empty, and only names
that come later, into the same range, fill it. So several ways are tried, in memory. The best is nearly always a packed one,
which fills bucket after bucket to the brim: it puts names of its own beside the store's, so that a split comes just where
the next bucket shall begin, and removes them again.

    >>> with palhavento.open("old.tkf", b=4, slots=16) as store:
    ...     for number in reversed(range(20)):
    ...         store[f"run.{number:02}"] = number
    ...     print(store.stats().used, "slots")
    9 slots
    >>> palhavento.compact("old.tkf", "new.tkf").used
    5
    >>> palhavento.open("new.tkf").range() == palhavento.open("old.tkf").range()
    True
"""

from __future__ import annotations

import os
import random
from collections.abc import Iterable, Iterator

from palhavento import calls, disk, layout, library
from palhavento.errors import PalhaventoError, refusal
from palhavento.store import Store

MOST_STRINGS = 256
# What is given up for one string less, in names of a bucket. Most stores have strings to spare.
_WEIGHTS = (0.0, 0.25, 0.5, 0.75, 1.0, 2.0, 24.0)
_SHUFFLES = 6


def compact(
    old: disk.Path, new: disk.Path, b: int | None = None, slots: int | None = None, version: int | None = None
) -> layout.Stats:
    """Write the names of an old store into a new one, where no file is yet, and give the new one's counts.

    The new store has the old one's version, b and slots unless others are given. Each name has its value there, and its run if
    both stores keep runs; in a store of version 3 made from another the runs are 0. Where b and slots stay and no way is better,
    it is the old one's copy; where they do not, and the names fit by no way that is tried, nothing is written. What a writer puts
    into the old store meanwhile is not in the new one.

    >>> with palhavento.open("four.tkf", b=4, slots=2) as store:
    ...     store.update(a=1, b=2, c=3, d=4)
    >>> compact("four.tkf", "two.tkf", b=2, slots=1)
    Traceback (most recent call last):
    palhavento.errors.FileFull: two.tkf: of 4 names 2 fit at best: A split is needed and there is no free slot.
    """
    with Store(old, readonly=True) as store:
        file, trie = store._agreed()
    contents = {name.encode("ascii"): (value, run) for name, value, run in calls.rows(file, trie, calls.LOWEST, calls.HIGHEST)}
    had = (*layout.sizes(file), layout.version(file))
    sizes = tuple(now if wanted is None else wanted for now, wanted in zip(had, (b, slots, version)))
    empty = library.create(*sizes)
    made = [(_of_version(file, sizes[2]), trie)] if sizes[:2] == had[:2] else []
    refused = (0, 0)
    for steps in _ways(list(contents), sizes[0], sizes[2]):
        try:
            made.append(_filled(empty, steps, contents))
        except _Full as full:
            refused = max(refused, full.args)
    if not made:
        furthest, number = refused
        raise refusal(number, f"{os.fsdecode(new)}: of {len(contents)} names {furthest} fit at best")
    best = max(made, key=_room)
    disk.create(new, best[0])
    return layout.stats(*best)


def _of_version(file: bytes, version: int) -> bytes:
    """A sound file with another version in its header, and its entries as that one has them; runs that are new are 0.

    Where a bucket is split depends on the version, but every arrangement is sound in all of them.
    """
    old, new = (library.entry_bytes(number) for number in (layout.version(file), version))
    size = library.slot_bytes_in(file)
    made = [file[:3], bytes([version]), file[4 : library.HEADER_BYTES]]
    for slot in range(library.HEADER_BYTES, len(file), size):
        made.append(file[slot : slot + 64])
        made += [file[entry : entry + old][:new].ljust(new, b"\0") for entry in range(slot + 64, slot + size, old)]
    return b"".join(made)


# A name, and whether it is put or removed; and the contents, value and run, of names.
_Step = tuple[bytes, bool]
_Contents = dict[bytes, tuple[int, int]]


class _Full(Exception):
    """A way that does not fit: how many names were in the file, and the number that refused the next."""


def _filled(empty: tuple[bytes, bytes], steps: Iterable[_Step], contents: _Contents) -> tuple[bytes, bytes]:
    """A new file after these steps, and its trie."""
    file, trie = empty
    for name, is_put in steps:
        try:
            if is_put:
                _, file, trie = calls.put(file, trie, name, *contents.get(name, (0, 0)), 2)
            else:
                _, file, trie = calls.remove(file, trie, name, 2)
        except PalhaventoError as error:
            raise _Full(calls.count(file, trie), error.number) from None
    return file, trie


def _room(made: tuple[bytes, bytes]) -> tuple[int, int]:
    """The splits to come that there is room for: each takes a slot, and most take a string at least."""
    stats = layout.stats(*made)
    return min(stats.free, MOST_STRINGS - stats.strings), MOST_STRINGS - stats.strings


def _ways(names: list[bytes], b: int, version: int) -> Iterator[list[_Step]]:
    """The ways to try, for names that ascend."""
    for weight in _WEIGHTS:
        yield _packed(names, b, version, weight)
    shuffled = (random.Random(seed).sample(names, len(names)) for seed in range(_SHUFFLES))
    for order in (names, names[::-1], _from_the_middle(names), *shuffled):
        yield [(name, True) for name in order]


def _from_the_middle(names: list[bytes]) -> list[bytes]:
    """The middle name, then the middles of what is before and behind it, and so on: no part runs ahead of another."""
    order, parts = [], [(0, len(names))]
    for start, end in parts:
        if start < end:
            middle = (start + end) // 2
            order.append(names[middle])
            parts += [(start, middle), (middle + 1, end)]
    return order


def _packed(names: list[bytes], b: int, version: int, weight: float) -> list[_Step]:
    """Puts that fill bucket after bucket, from the lowest name on, with removes of what only made them split.

    A bucket splits when it holds b + 1 names: behind the split key, by the shortest string that parts the key from the last
    name (R7.3, R7.4). The key is the last name that the bucket shall have, those below it are names of the bucket too, and
    those behind it are fillers that share with the key no less than the next name does. The last name of a bucket is chosen
    so that the bucket has many names and its bound few new strings. A bucket has more than b/2 names, or it would merge with
    the next one when that has no filler left (R7.14).
    """
    steps: list[_Step] = []
    strings: set[bytes] = set()
    left = names
    while len(left) > b:
        choices = []
        for key in range(b // 2, b):
            bound, fillers = _cut(left[key], left[key + 1])
            below = _below(bound, left[:key], b, version)
            beginnings = {bound[:end] for end in range(1, len(bound) + 1)}
            if below is not None and len(fillers) >= b - below:
                choices.append((key - weight * len(beginnings - strings), key, below, beginnings, fillers[: b - below]))
        if not choices:
            break
        _, key, below, beginnings, fillers = max(choices, key=lambda choice: choice[:2])
        strings |= beginnings
        steps += [(name, True) for name in [*left[key - below : key + 1], *fillers, *left[: key - below]]]
        steps += [(name, False) for name in fillers]
        left = left[key + 1 :]
    return steps + [(name, True) for name in left]


def _below(bound: bytes, lower: list[bytes], b: int, version: int) -> int | None:
    """How many of the names below a split key are to be there for it to be one, the next ones; None where it cannot be one.

    Version 1 takes the key at the middle. The others ask the one before it too, and take that if its string is shorter. So the
    key stands there, and a filler in the middle: that has more digits in common with the last one. Only where the key's string
    has all 24 digits no string is longer; then the key stands in the middle, and must follow a name with as long a string.
    """
    below = b // 2
    if version > 1 and len(bound) < 24:
        below -= 1
    elif version > 1 and not (lower and lower[-1].ljust(24).startswith(bound[:23])):
        return None
    return below if below <= len(lower) else None


def _cut(last: bytes, following: bytes) -> tuple[bytes, list[bytes]]:
    """The shortest bound between two names, and the fillers beyond it that there are.

    >>> bound, fillers = _cut(b"run.15", b"run.16")
    >>> bound, fillers[:3], len(fillers)
    (b'run.15', [b'run.16', b'run.16!', b'run.16"'], 94)
    >>> bound, fillers = _cut(b"i", b"in")
    >>> bound, fillers[:2]
    (b'i ', [b'in', b'in!'])
    """
    filled = last.ljust(24)
    shared = len(os.path.commonprefix([filled, following.ljust(24)]))
    beyond = following[: shared + 1]
    if len(beyond) < 24:
        fillers = [beyond, *(beyond + bytes([digit]) for digit in range(0x21, 0x7E))]
    else:
        fillers = [filled[:23] + bytes([digit]) for digit in range(filled[23] + 1, 0x7E)]
    return filled[: shared + 1], fillers
