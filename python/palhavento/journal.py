"""The journal of a store: the slots that its writer stores, in a file beside, until they are safe in the store itself.

docs/FORMAT.md has it byte by byte. Before a slot is written to the file, a record with all its bytes stands here, with a
checksum, so that a record in part is none. A writer that is stopped leaves the journal behind, and whoever opens the store
next makes all stores of its records again, in their order: then each slot is whole.

The records take turns in two halves. When one is full, the file is synced, and the other begins with a copy of the file as
it then is. So a journal knows every byte that its file can have by now, and is not taken for another file's.

    >>> from palhavento import library
    >>> content = library.create(b=2, slots=2)[0]
    >>> slot = content[16:20] + b"?" + content[21:144]
    >>> with open("new.journal", "wb+", buffering=0) as file:
    ...     journal = Journal.begun(file.fileno(), content)
    ...     journal.append(0, slot)
    ...     said = file.seek(0) or file.read()
    >>> found(said, content).content == content[:16] + slot + content[144:]
    True
    >>> found(said, content[:30] + b"!" + content[31:])
    Traceback (most recent call last):
    palhavento.journal.Unfit: it is of another file, or the file was changed by other means
"""

from __future__ import annotations

import errno
import os
import struct
import zlib
from typing import NamedTuple

from palhavento.library import HEADER_BYTES, LARGEST_FILE, WITH_RUNS, slot_bytes, slot_bytes_in

SECTOR, PAGE = 512, 4096
# How many records a half has.
PLACES = 64

_VERSION = 1
_HEAD = struct.Struct("<4sI8sQII")
_HEAD_MARK = b"TKJH"
_RECORD_MARK = b"TKJR"
# Behind the mark and the checksum: what the checksum is of, but for the slot.
_SAID = struct.Struct("<8sQII")
_SAID_AT = 8
_SLOT_AT = _SAID_AT + _SAID.size

_OTHER_FILE = "it is of another file, or the file was changed by other means"


class Unfit(Exception):
    """Why a journal cannot be believed, or not of this file."""


class Found(NamedTuple):
    """What a journal makes of a file, how many stores it has made again, and the number that the next record takes."""

    content: bytes
    stores: int
    next: int


def write(file: int, content: bytes, offset: int) -> None:
    """Write all of it, or raise what kept the system from it."""
    while (written := os.pwrite(file, content, offset)) != len(content):
        if written == 0:
            raise OSError(errno.EIO, "nothing more was written")
        content, offset = content[written:], offset + written


def _up(count: int, unit: int) -> int:
    """The next multiple of a unit."""
    return -(-count // unit) * unit


class Layout:
    """Where things are in the journal of a file with slots of so many bytes and this length.

    >>> layout = Layout(slot_bytes(16, 2), 36_880)
    >>> layout.stride, layout.half, layout.records, layout.whole
    (1024, 106496, (40960, 147456), 212992)
    """

    def __init__(self, slot: int, length: int) -> None:
        # From one record to the next: whole sectors, so that no sector has bytes of two.
        self.stride = _up(_SLOT_AT + slot, SECTOR)
        # A half has a head, a copy of the file, and the records.
        behind = _up(SECTOR + length, PAGE)
        self.half = _up(behind + PLACES * self.stride, PAGE)
        self.records = behind, self.half + behind
        self.whole = 2 * self.half


LARGEST = Layout(slot_bytes(16, WITH_RUNS), LARGEST_FILE).whole


def _head(identity: bytes, first: int, content: bytes) -> bytes:
    """The beginning of a half: the number of its first record, and the file as it is before that."""
    head = _HEAD.pack(_HEAD_MARK, _VERSION, identity, first, len(content), zlib.crc32(content)).ljust(SECTOR - 4, b"\0")
    return head + zlib.crc32(head).to_bytes(4, "little") + content


class _Head(NamedTuple):
    identity: bytes
    first: int
    content: bytes


def _is_head(sector: bytes) -> bool:
    """Whether a sector is a whole head, whatever comes behind it."""
    summed = int.from_bytes(sector[-4:], "little")
    return len(sector) == SECTOR and sector[:4] == _HEAD_MARK and zlib.crc32(sector[:-4]) == summed


def _head_at(journal: bytes, place: int) -> _Head | None:
    """The head that is at a place with its copy of the file, if both are whole."""
    sector = journal[place : place + SECTOR]
    if not _is_head(sector):
        return None
    _, version, identity, first, length, summed = _HEAD.unpack_from(sector)
    if version != _VERSION:
        raise Unfit(f"it is of version {version}, which this program does not know")
    content = journal[place + SECTOR : place + SECTOR + length]
    return _Head(identity, first, content) if zlib.crc32(content) == summed else None


class _Record(NamedTuple):
    identity: bytes
    sequence: int
    number: int
    slot: bytes


def _record_at(journal: bytes, place: int) -> _Record | None:
    """The record that begins at a place, if a whole one does."""
    if not journal.startswith(_RECORD_MARK, place) or place + _SLOT_AT > len(journal):
        return None
    identity, sequence, number, size = _SAID.unpack_from(journal, place + _SAID_AT)
    end = place + _SLOT_AT + size
    summed = int.from_bytes(journal[place + 4 : place + _SAID_AT], "little")
    if end > len(journal) or zlib.crc32(journal[place + _SAID_AT : end]) != summed:
        return None
    return _Record(identity, sequence, number, journal[place + _SLOT_AT : end])


def found(journal: bytes, file: bytes) -> Found | None:
    """What a journal makes of a file; None where nothing was ever said in it. One that does not fit is `Unfit`."""
    begins = _head_at(journal, 0)
    if begins and len(begins.content) != len(file):
        raise Unfit(_OTHER_FILE)
    layout = Layout(slot_bytes_in(file) if len(file) >= HEADER_BYTES else 0, len(file))
    heads = [head for head in (begins, _head_at(journal, layout.half)) if head]
    places = [begin + place * layout.stride for begin in layout.records for place in range(PLACES)]
    records = [record for place in places if (record := _record_at(journal, place))]
    if not heads:
        # A head and its copy are on disk when the first record is. Before that, there is at most this record, under way.
        head = journal[:SECTOR]
        if head.strip(b"\0") and not _is_head(head) or any(record.sequence > 1 for record in records):
            raise Unfit("it is damaged, or is no journal")
        return None
    newest = max(heads, key=lambda head: head.first)
    if any(head.identity != newest.identity for head in heads):
        raise Unfit("it is damaged: its halves are of two journals")
    # A half that has begun is known by its records also where its head has not come to be written.
    said = {record.sequence: record for record in records if record.identity == newest.identity}
    end = newest.first
    while end in said:
        end += 1
    if any(sequence > end for sequence in said):
        raise Unfit("it is damaged: a record in the middle is gone")
    return Found(_finished(newest.content, [said[at] for at in range(newest.first, end)], file), end - newest.first, end)


def _finished(content: bytes, records: list[_Record], file: bytes) -> bytes:
    """The file after all stores of the records. Each byte of it now must be one that it had at some time since."""
    size = slot_bytes_in(content)
    versions: dict[int, list[bytes]] = {}
    for record in records:
        versions.setdefault(record.number, []).append(record.slot)
    made = [content[:HEADER_BYTES]]
    if len(file) != len(content) or file[:HEADER_BYTES] != made[0]:
        raise Unfit(_OTHER_FILE)
    for number, at in enumerate(range(HEADER_BYTES, len(file), size)):
        since = [content[at : at + size], *versions.pop(number, ())]
        now = file[at : at + size]
        # A slot may be any mixture: of pages after a kill, of sectors after a power loss, of bytes after a failing disk.
        if now not in since and not all(byte in column for byte, *column in zip(now, *since)):
            raise Unfit(_OTHER_FILE)
        made.append(since[-1])
    finished = b"".join(made)
    if versions or len(finished) != len(file):
        raise Unfit("it is damaged: a record is of no slot")
    return finished


class Journal:
    """A journal that its writer has open. No call here waits for the disk."""

    def __init__(self, file: int, identity: bytes, content: bytes) -> None:
        self.file = file
        self._identity = identity
        self._layout = Layout(slot_bytes_in(content), len(content))
        # The number of the record that is written next, and of the first one in the half in use.
        self.next = self._first = 1
        self._half = 0
        # The half that would be found after a power loss, which is therefore not written over. At first there is none.
        self._kept = 1

    @classmethod
    def begun(cls, file: int, content: bytes) -> Journal:
        """A new journal for a file with this content. All of it is written, so that later records change no length."""
        journal = cls(file, os.urandom(8), content)
        write(file, _head(journal._identity, 1, content).ljust(journal._layout.whole, b"\0"), 0)
        return journal

    @property
    def full(self) -> bool:
        """Whether the half in use has no place left."""
        return self.next - self._first >= PLACES

    def keep(self) -> None:
        """All that was written so far is on disk, or as good as that."""
        self._kept = self._half

    def turn(self, content: bytes) -> None:
        """Begin the other half, with a file of which this content is on disk."""
        half = 1 - self._kept
        write(self.file, _head(self._identity, self.next, content), half * self._layout.half)
        self._half, self._first = half, self.next

    def _place(self) -> int:
        return self._layout.records[self._half] + (self.next - self._first) * self._layout.stride

    def append(self, number: int, slot: bytes) -> None:
        """Write the next record; it counts from when `next` is past it."""
        said = _SAID.pack(self._identity, self.next, number, len(slot)) + slot
        write(self.file, _RECORD_MARK + zlib.crc32(said).to_bytes(4, "little") + said, self._place())

    def undo(self) -> None:
        """Make the record that was written last, and does not count yet, none."""
        write(self.file, bytes(SECTOR), self._place())
