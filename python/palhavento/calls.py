"""The calls that a store makes often: by the extension of `_calls.c` where it was compiled, else by ctypes.

Both ways lend the bytes to the same proved library, and both raise the same. A name is an ASCII `str` or `bytes`.

    >>> from palhavento import calls, library
    >>> file, trie = library.create(b=4, slots=8)
    >>> answer, changed_file, trie = calls.put(file, trie, "gdp.de", 42, 0, 2)
    >>> calls.look_up(changed_file, trie, "gdp.de"), calls.look_up(file, trie, b"gdp.de")
    (42, None)
    >>> calls.content(changed_file, trie, "gdp.de")
    (42, 0)
    >>> offset, slot = calls.changed(file, changed_file)
    >>> offset, len(slot), calls.changed(file, file)
    (16, 192, None)
"""

from __future__ import annotations

import operator
from typing import Union

from palhavento import library
from palhavento.errors import PalhaventoError, illegal, refusal

Name = Union[str, bytes]
Entry = tuple[str, int]
Row = tuple[str, int, int]
Change = tuple[int, bytes, bytes]

LOWEST = b"!"
HIGHEST = b"}" * 24
LARGEST_VALUE = 2**64 - 1


def bytes_of(name: Name) -> bytes:
    """A name's bytes; whether they are legal is for the library to say.

    >>> bytes_of("gdp"), bytes_of(b"gdp")
    (b'gdp', b'gdp')
    >>> bytes_of("preço")
    Traceback (most recent call last):
    palhavento.errors.IllegalName: 'preço': A name has 1 to 24 bytes, each 0x20 to 0x7D, no blank first or last...
    """
    if isinstance(name, bytes):
        return name
    if not isinstance(name, str):
        raise TypeError(f"a name is str or bytes, not {type(name).__name__}")
    try:
        return name.encode("ascii")
    except UnicodeEncodeError:
        raise illegal(name) from None


def value_of(value: int, what: str = "value") -> int:
    """A value, or a run, that fits eight bytes, from whatever counts as an int.

    >>> value_of(-1)
    Traceback (most recent call last):
    OverflowError: a value is 0 to 2**64 - 1, not -1
    >>> value_of(1.5, "run")
    Traceback (most recent call last):
    TypeError: a run is an int, not float
    """
    try:
        number = operator.index(value)
    except TypeError:
        raise TypeError(f"a {what} is an int, not {type(value).__name__}") from None
    if not 0 <= number <= LARGEST_VALUE:
        raise OverflowError(f"a {what} is 0 to 2**64 - 1, not {number}")
    return number


def _refuse(number: int, word: int, *names: Name) -> None:
    """What the extension calls for a refusal, with the first word of `out`: here its message is formed."""
    library._answer(number, *map(bytes_of, names), word=word)


class ByCtypes:
    """The calls by ctypes: for where the extension was not compiled, and for comparing the two."""

    @staticmethod
    def look_up(file: bytes, trie: bytes, name: Name) -> int | None:
        """The value of a name, or None where it is absent."""
        found = library.look_up(file, trie, bytes_of(name))
        return None if found is None else found.value

    @staticmethod
    def content(file: bytes, trie: bytes, name: Name) -> tuple[int, int] | None:
        """The value and the run of a name, or None where it is absent."""
        found = library.look_up(file, trie, bytes_of(name))
        return None if found is None else tuple(found)

    @staticmethod
    def put(file: bytes, trie: bytes, name: Name, value: int, run: int, limit: int) -> Change:
        """The answer, the file and the trie after a put by a run within a limit."""
        numbers = value_of(value), value_of(run)
        return library.put(file, trie, bytes_of(name), *numbers, limit)[:3]

    @staticmethod
    def remove(file: bytes, trie: bytes, name: Name, limit: int) -> Change:
        """The answer, the file and the trie after a remove within a limit."""
        return library.remove(file, trie, bytes_of(name), limit)[:3]

    @staticmethod
    def entries(file: bytes, trie: bytes, first: Name, second: Name) -> list[Entry]:
        """The entries whose names lie from the first to the second, both included."""
        return [(name, value) for name, value, _ in ByCtypes.rows(file, trie, first, second)]

    @staticmethod
    def rows(file: bytes, trie: bytes, first: Name, second: Name) -> list[Row]:
        """The same entries, each with its run."""
        listed = library.entries(file, trie, bytes_of(first), bytes_of(second), library.MOST_ENTRIES)
        # No run is behind the value where the file keeps none, and no bytes are the number 0.
        return [
            (entry[:24].rstrip(b" ").decode("ascii"), int.from_bytes(entry[24:32], "little"), int.from_bytes(entry[32:], "little"))
            for entry in _cut(listed, library.entry_bytes(file[3]))
        ]

    @staticmethod
    def count(file: bytes, trie: bytes) -> int:
        """How many entries there are."""
        try:
            return len(ByCtypes.rows(file, trie, LOWEST, HIGHEST))
        except PalhaventoError as refused:
            # About no names: nobody has given any.
            raise refusal(refused.number) from None

    @staticmethod
    def changed(before: bytes, after: bytes) -> tuple[int, bytes] | None:
        """The first slot that differs between two states of a file: its offset, and its bytes in the second."""
        if len(before) != len(after) or len(before) < library.SMALLEST_FILE:
            raise ValueError("the files are not of one length, or too short")
        size = library.slot_bytes_in(before)
        for offset in range(library.HEADER_BYTES, len(before) - size + 1, size):
            slot = after[offset : offset + size]
            if slot != before[offset : offset + size]:
                return offset, slot
        return None


def _cut(listed: bytes, size: int) -> list[bytes]:
    """A list's output, entry by entry."""
    return [listed[at : at + size] for at in range(0, len(listed), size)]


try:
    from palhavento import _calls as used
except ImportError:
    used = ByCtypes
else:
    used.load(str(library.PATH), _refuse, bytes_of, value_of)

look_up, content, put, remove, entries, rows, count, changed = (
    used.look_up, used.content, used.put, used.remove, used.entries, used.rows, used.count, used.changed
)

_EMPTY = library.create(b=2, slots=1)


def legal(name: Name) -> Name:
    """A name that some file can hold. To look it up says so, before anything else, in any file.

    >>> legal("GDP real")
    'GDP real'
    >>> legal(" GDP")
    Traceback (most recent call last):
    palhavento.errors.IllegalName: ' GDP': A name has 1 to 24 bytes, each 0x20 to 0x7D, no blank first or last...
    """
    look_up(*_EMPTY, name)
    return name
