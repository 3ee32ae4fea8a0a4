"""What a sound file and its trie hold, as plain data to count and draw.

    >>> from palhavento import layout, library
    >>> file, trie = library.create(b=2, slots=3)
    >>> for name in (b"rate1", b"rate2", b"rate3"):
    ...     _, file, trie, *_ = library.put(file, trie, name, 0, 0, limit=2)
    >>> for bucket in layout.buckets(file):
    ...     print(bucket)
    Bucket(slot=0, lower='', upper='rate2', entries=2)
    Bucket(slot=1, lower='rate2', upper='', entries=1)
    >>> layout.trie(trie).cells[-1]
    Cell(digit='2', number=4, left=('slot', 0), right=('slot', 1))
"""

from __future__ import annotations

import struct
from dataclasses import dataclass
from typing import Literal

from palhavento.library import HEADER_BYTES, entry_bytes, slot_bytes_in

Side = tuple[Literal["slot", "cell"], int]
Entry = tuple[str, int]


@dataclass(frozen=True)
class Bucket:
    """A used slot: its bounds, where an empty one is no limit, and how many entries it has."""

    slot: int
    lower: str
    upper: str
    entries: int


@dataclass(frozen=True)
class Cell:
    """A cell of a trie; each side leads to a slot or to a further cell."""

    digit: str
    number: int
    left: Side
    right: Side


@dataclass(frozen=True)
class Trie:
    """A trie; its first leaf is used only when the count is 0."""

    count: int
    first: int
    cells: list[Cell]


@dataclass(frozen=True)
class Stats:
    """How full a file is; the load is entries by the room in the used slots."""

    version: int
    b: int
    slots: int
    used: int
    free: int
    entries: int
    strings: int
    bytes: int
    load: float


def sizes(file: bytes) -> tuple[int, int]:
    """b and slots of a file that is not bad."""
    return file[5], file[6]


def version(file: bytes) -> int:
    """The version of a file that is not bad: by which rule its buckets are split (R7.3), and whether it keeps runs (R3.13)."""
    return file[3]


def buckets(file: bytes) -> list[Bucket]:
    """The buckets of a sound file, in range order."""
    size = slot_bytes_in(file)
    found = []
    for slot in range(sizes(file)[1]):
        start = HEADER_BYTES + slot * size
        used, count, lower, upper = file[start : start + 4]
        if used:
            bounds = file[start + 8 : start + 8 + lower], file[start + 32 : start + 32 + upper]
            found.append(Bucket(slot, bounds[0].decode("ascii"), bounds[1].decode("ascii"), count))
    # Bounds order as if continued by a digit above all others: 0x7E is above every digit, and so is where no limit is.
    return sorted(found, key=lambda bucket: bucket.upper.ljust(24, "~"))


def contents(file: bytes) -> list[tuple[Bucket, list[Entry]]]:
    """The buckets of a sound file, in range order, each with its entries."""
    size, entry = slot_bytes_in(file), entry_bytes(version(file))
    # A run, where there is one, stands behind the value.
    name_and_value = struct.Struct(f"<24sQ{entry - 32}x")

    def entries(bucket: Bucket) -> list[Entry]:
        start = HEADER_BYTES + bucket.slot * size + 64
        listed = file[start : start + entry * bucket.entries]
        return [(name.decode("ascii").rstrip(" "), value) for name, value in name_and_value.iter_unpack(listed)]

    return [(bucket, entries(bucket)) for bucket in buckets(file)]


def trie(image: bytes) -> Trie:
    """The trie of an image that agrees with a file."""
    count, first = struct.unpack_from("<HH", image)
    cells = [
        Cell(chr(digit), number, _side(left), _side(right))
        for digit, number, left, right in struct.iter_unpack("<BBhh", image[4 : 4 + 6 * count])
    ]
    return Trie(count, first, cells)


def _side(side: int) -> Side:
    """Where a side leads; cell 0 is the root, to which no side leads."""
    return ("slot", side) if side >= 0 else ("cell", -side)


def stats(file: bytes, image: bytes) -> Stats:
    """The counts of a sound file, given with its trie."""
    b, slots = sizes(file)
    found = buckets(file)
    entries = sum(bucket.entries for bucket in found)
    return Stats(
        version=version(file),
        b=b,
        slots=slots,
        used=len(found),
        free=slots - len(found),
        entries=entries,
        strings=trie(image).count,
        bytes=len(file),
        load=entries / (b * len(found)),
    )
