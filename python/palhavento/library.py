"""The proved calls, each on a copy of the bytes it is lent.

Nothing here touches a file on disk, and nothing is decided here: a call's refusal is raised, its answer given back.

    >>> from palhavento import library
    >>> file, trie = library.create(b=4, slots=8)
    >>> put = library.put(file, trie, b"gdp.de", 42, 0, limit=2)
    >>> put.answer == library.ADDED
    True
    >>> library.look_up(put.file, put.trie, b"gdp.de")
    Content(value=42, run=0)
    >>> library.look_up(file, trie, b"gdp.de") is None
    True
"""

from __future__ import annotations

import ctypes
from ctypes import c_char_p, c_size_t, c_uint64
from pathlib import Path
from typing import NamedTuple

from palhavento.errors import NO_DIGIT, StaleTrie, illegal, refusal, shown, stale

TRIE_BYTES = 1540
HEADER_BYTES = 16

# Answers, as include/palhavento.h has them.
FOUND = 100
ABSENT = 101
ADDED = 110
REPLACED = 111
STOPPED = 112
REMOVED = 120
FREED = 130
NOTHING_TO_DO = 131
SOUND = 140
CUT = 141
BAD = 142


class Content(NamedTuple):
    """What a name has: its value, and the run that wrote it, which is 0 where the file keeps no runs."""

    value: int
    run: int


class Outcome(NamedTuple):
    """What a call that may change the file leaves behind: its answer, the bytes, the trie image, the first two words."""

    answer: int
    file: bytes
    trie: bytes
    word: int
    run: int = 0


# The versions of a file that there are, the one that a new file has unless another is asked for, and the one that keeps runs.
VERSIONS = 1, 2, 3
USUAL = 2
WITH_RUNS = 3


def entry_bytes(version: int) -> int:
    """The bytes of an entry: a name of 24, a value of 8, and in version 3 a run of 8.

    >>> entry_bytes(2), entry_bytes(3)
    (32, 40)
    """
    return 40 if version == WITH_RUNS else 32


def slot_bytes(b: int, version: int) -> int:
    """The bytes of a slot.

    >>> slot_bytes(4, 2), slot_bytes(4, 3)
    (192, 224)
    """
    return 64 + entry_bytes(version) * b


def slot_bytes_in(file: bytes) -> int:
    """The bytes of a slot of a file that has a header, by what its header says."""
    return slot_bytes(file[5], file[3])


def file_bytes(b: int, slots: int, version: int) -> int:
    """The bytes of a file.

    >>> file_bytes(16, 64, 2), file_bytes(16, 64, 3)
    (36880, 45072)
    """
    return HEADER_BYTES + slots * slot_bytes(b, version)


SMALLEST_FILE = file_bytes(2, 1, USUAL)
LARGEST_FILE = file_bytes(16, 64, WITH_RUNS)
MOST_ENTRIES = 16 * 64

_Words = c_uint64 * 4
# What `out` is before a call. A refusal leaves it as it is, but for its first word where the trie is stale.
_UNSAID = NO_DIGIT, 0, 0, 0
_SLICE = [c_char_p, c_size_t]
_PARAMETERS = {
    "pal_create": [*_SLICE, c_uint64, c_uint64, c_uint64, *_SLICE],
    "pal_check": _SLICE,
    "pal_recover": [*_SLICE, c_uint64, _Words],
    "pal_rebuild": [*_SLICE, *_SLICE],
    "pal_lookup": [*_SLICE, *_SLICE, *_SLICE, _Words],
    "pal_put": [*_SLICE, *_SLICE, *_SLICE, c_uint64, c_uint64, c_uint64, _Words],
    "pal_remove": [*_SLICE, *_SLICE, *_SLICE, c_uint64, _Words],
    "pal_list": [*_SLICE, *_SLICE, *_SLICE, *_SLICE, *_SLICE, _Words],
}


def _load(path: Path) -> ctypes.CDLL:
    """The shared library, each call with its parameters.

    >>> _load(Path("nowhere.so"))
    Traceback (most recent call last):
    ImportError: nowhere.so cannot be loaded: run `make python` in the repository
    """
    try:
        loaded = ctypes.CDLL(str(path))
    except OSError as error:
        raise ImportError(f"{path} cannot be loaded: run `make python` in the repository") from error
    for name, parameters in _PARAMETERS.items():
        call = getattr(loaded, name)
        call.argtypes = parameters
        call.restype = c_uint64
    return loaded


PATH = Path(__file__).with_name("libpalhavento.so")
_LIBRARY = _load(PATH)


def _lend(buffer: bytearray) -> ctypes.Array[ctypes.c_char]:
    """A buffer, for a call that may write to it."""
    return (ctypes.c_char * len(buffer)).from_buffer(buffer)


def _answer(answer: int, *names: bytes, about: str = "", word: int = NO_DIGIT) -> int:
    """An answer that is no refusal; else the refusal is raised, with the names or whatever it is about."""
    if answer == 1:
        raise illegal(*names)
    if answer < 100 or answer == 255:
        about = about or " to ".join(map(shown, names))
        raise stale(word, about) if answer == StaleTrie.number else refusal(answer, about)
    return answer


def create(b: int, slots: int, version: int = USUAL) -> tuple[bytes, bytes]:
    """A new file without names, and its trie.

    >>> file, trie = create(b=2, slots=1)
    >>> file[:7], len(file), trie == bytes(TRIE_BYTES)
    (b'TKF\\x02\\x00\\x02\\x01', 144, True)
    >>> create(b=17, slots=1)
    Traceback (most recent call last):
    palhavento.errors.WrongSize: version = 2, b = 17, slots = 1: No file is such: the version is 1, 2 or 3, b is 2 ...
    """
    for number in (version, b, slots):
        if not isinstance(number, int):
            raise TypeError(f"version, b and slots are ints, not {type(number).__name__}")
    about = f"version = {version}, b = {b}, slots = {slots}"
    # A number outside 64 bits would wrap on its way into the call, and a large one would ask for memory first.
    if not all(0 <= number < 256 for number in (version, b, slots)):
        raise refusal(8, about)
    file, trie = bytearray(file_bytes(b, slots, version)), bytearray(TRIE_BYTES)
    _answer(_LIBRARY.pal_create(_lend(file), len(file), version, b, slots, _lend(trie), len(trie)), about=about)
    return bytes(file), bytes(trie)


def check(file: bytes) -> int:
    """SOUND, CUT or BAD.

    >>> check(create(b=2, slots=1)[0]) == SOUND, check(b"TKF") == BAD
    (True, True)
    """
    return _LIBRARY.pal_check(file, len(file))


def recover(file: bytes, limit: int) -> Outcome:
    """FREED with the slot, NOTHING_TO_DO or STOPPED; there is no trie in it.

    >>> file, trie = create(b=2, slots=2)
    >>> for name in (b"a", b"b"):
    ...     _, file, trie, *_ = put(file, trie, name, 1, 0, limit=2)
    >>> cut = put(file, trie, b"c", 1, 0, limit=1).file
    >>> recovered = recover(cut, limit=1)
    >>> check(cut) == CUT, recovered.answer == FREED, recovered.word, recovered.file == file
    (True, True, 1, True)
    """
    changed, words = bytearray(file), _Words(*_UNSAID)
    answer = _answer(_LIBRARY.pal_recover(_lend(changed), len(changed), limit, words))
    return Outcome(answer, bytes(changed), b"", words[0])


def rebuild(file: bytes) -> bytes:
    """The trie of a sound file, from its bounds alone.

    >>> rebuild(b"TKF")
    Traceback (most recent call last):
    palhavento.errors.BadFile: The file is neither sound nor cut; nothing was changed.
    """
    trie = bytearray(TRIE_BYTES)
    _answer(_LIBRARY.pal_rebuild(file, len(file), _lend(trie), len(trie)))
    return bytes(trie)


def look_up(file: bytes, trie: bytes, name: bytes) -> Content | None:
    """The value and the run of a name, or None where it is absent."""
    words = _Words(*_UNSAID)
    answer = _LIBRARY.pal_lookup(file, len(file), trie, len(trie), name, len(name), words)
    return Content(words[0], words[1]) if _answer(answer, name, word=words[0]) == FOUND else None


def put(file: bytes, trie: bytes, name: bytes, value: int, run: int, limit: int) -> Outcome:
    """ADDED, REPLACED with the old value and run, or STOPPED with the stores made.

    >>> put_ = put(*create(b=2, slots=1, version=3), b"a", 7, run=4, limit=1)
    >>> again = put(put_.file, put_.trie, b"a", 8, run=5, limit=1)
    >>> put_.answer == ADDED, again.answer == REPLACED, again.word, again.run
    (True, True, 7, 4)
    >>> put(again.file, again.trie, b"a", 9, run=4, limit=1)
    Traceback (most recent call last):
    palhavento.errors.OlderRun: 'a': The name is held with a higher run.
    """
    changed, grown, words = bytearray(file), bytearray(trie), _Words(*_UNSAID)
    answer = _LIBRARY.pal_put(
        _lend(changed), len(changed), _lend(grown), len(grown), name, len(name), value, run, limit, words
    )
    return Outcome(_answer(answer, name, word=words[0]), bytes(changed), bytes(grown), words[0], words[1])


def remove(file: bytes, trie: bytes, name: bytes, limit: int) -> Outcome:
    """REMOVED, ABSENT, or STOPPED with the stores made.

    >>> remove(*create(b=2, slots=1), b"a", limit=1).answer == ABSENT
    True
    """
    changed, same, words = bytearray(file), bytearray(trie), _Words(*_UNSAID)
    answer = _LIBRARY.pal_remove(
        _lend(changed), len(changed), _lend(same), len(same), name, len(name), limit, words
    )
    return Outcome(_answer(answer, name, word=words[0]), bytes(changed), bytes(same), words[0])


def entries(file: bytes, trie: bytes, first: bytes, second: bytes, room: int) -> bytes:
    """The entries from the first name to the second, both included, as the file's version has them, if so many have room.

    >>> file, trie = create(b=2, slots=1)
    >>> put_ = put(file, trie, b"m1", 7, 0, limit=1)
    >>> entries(put_.file, put_.trie, b"a", b"z", room=1)
    b'm1                      \\x07\\x00\\x00\\x00\\x00\\x00\\x00\\x00'
    >>> entries(put_.file, put_.trie, b"a", b"z", room=0)
    Traceback (most recent call last):
    palhavento.errors.ShortOutput: 'a' to 'z': The output is too short: it needs 32 bytes for each entry, in version 3 40.
    """
    size = entry_bytes(file[3] if len(file) > 3 else USUAL)
    output, words = bytearray(size * room), _Words(*_UNSAID)
    answer = _LIBRARY.pal_list(
        file, len(file), trie, len(trie), first, len(first), second, len(second), _lend(output), len(output), words
    )
    _answer(answer, first, second, word=words[0])
    return bytes(output[: size * words[0]])
