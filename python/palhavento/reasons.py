"""Why a file is not sound: which rule of docs/RULES.md is broken, and where.

Whether a file is sound, cut or bad is for the library to say. Only of a file that is not sound the package then looks for
the reason here, rule by rule.

    >>> from palhavento import library, reasons
    >>> file = bytearray(library.create(b=4, slots=8)[0])
    >>> reasons.state(bytes(file))
    'sound'
    >>> file[16 + 1] = 5
    >>> reasons.state(bytes(file)) == "bad", reasons.state(bytes(file)).reason
    (True, 'slot 0: has 5 entries, and room for 4 (R3.3)')
    >>> reasons.state(b"name,value").reason
    'not a store: it has 10 bytes, and a header alone has 16 (R2.1)'
"""

from __future__ import annotations

from collections.abc import Iterator
from itertools import pairwise
from typing import NamedTuple

from palhavento import library

DIGITS = range(0x20, 0x7E)
LONGEST = 24
WORDS = {library.SOUND: "sound", library.CUT: "cut", library.BAD: "bad"}


class Fault(NamedTuple):
    """One broken rule: its number in docs/RULES.md, the slot where it is broken, if in one, and a sentence."""

    rule: str
    slot: int | None
    says: str

    def __str__(self) -> str:
        return f"{'' if self.slot is None else f'slot {self.slot}: '}{self.says} ({self.rule})"


class State(str):
    """'sound', 'cut' or 'bad', with what keeps the file from being sound."""

    faults: tuple[Fault, ...] = ()

    @property
    def reason(self) -> str:
        """The first fault as a sentence, and how many there are besides; empty where the file is sound."""
        if len(self.faults) < 2:
            return "".join(map(str, self.faults))
        return f"{self.faults[0]}, and {len(self.faults) - 1} more"


class _Bucket(NamedTuple):
    """A well-formed slot: its number, its bounds and the entries in use."""

    slot: int
    lower: bytes
    upper: bytes
    entries: list[bytes]


def state(file: bytes) -> State:
    """What a file is, and why."""
    answer = library.check(file)
    found = State(WORDS[answer])
    if answer == library.CUT:
        found.faults = (_cut(file),)
    elif answer == library.BAD:
        found.faults = tuple(faults(file))
    return found


def _cut(file: bytes) -> Fault:
    """What a split or a merge that was stopped has left in a cut file; to recover is the same for both."""
    left = library.recover(file, limit=1).word
    return Fault("R4.8", left, "is left of a split or a merge that was stopped; to recover frees it")


def faults(file: bytes) -> list[Fault]:
    """What keeps a file from being sound: what is wrong with its header, else with its slots, else between them."""
    return list(_header(file)) or list(_slots(file)) or list(_chain(_buckets(file)))


def _header(file: bytes) -> Iterator[Fault]:
    if len(file) < library.HEADER_BYTES:
        yield Fault("R2.1", None, f"not a store: it has {len(file)} bytes, and a header alone has {library.HEADER_BYTES}")
        return
    if file[:3] != b"TKF":
        yield Fault("R2.2", None, f"not a store: it begins with {_shown(file[:3])}, and a store with \"TKF\"")
        return
    version, b, slots = int.from_bytes(file[3:5], "little"), file[5], file[6]
    if version not in library.VERSIONS:
        yield Fault("R2.3", None, f"header: the version is {version}, and may be 1, 2 or 3")
    if not 2 <= b <= 16:
        yield Fault("R2.4", None, f"header: b is {b}, and may be 2 to 16")
    if not 1 <= slots <= 64:
        yield Fault("R2.5", None, f"header: the number of slots is {slots}, and may be 1 to 64")
    if place := _not_zero(file, 7, 16):
        yield Fault("R2.6", None, f"header: byte {place} is not zero")
    wanted = library.file_bytes(b, slots, version)
    if version in library.VERSIONS and 2 <= b <= 16 and 1 <= slots <= 64 and len(file) != wanted:
        has = len(file) if len(file) <= library.LARGEST_FILE else f"more than {library.LARGEST_FILE}"
        sizes = f"{slots} slots with b = {b} of version {version}"
        yield Fault("R2.7", None, f"length: it has {has} bytes, and {sizes} take {wanted}")


def _slots(file: bytes) -> Iterator[Fault]:
    """The first broken rule of each slot that is neither free nor well formed."""
    for number, slot in enumerate(_pieces(file)):
        if any(slot) and (broken := next(_slot(slot, file[5], library.entry_bytes(file[3])), None)):
            yield Fault(broken[0], number, broken[1])


def _slot(slot: bytes, b: int, entry: int) -> Iterator[tuple[str, str]]:
    """The broken rules of a slot that is not all zero, with entries of so many bytes; each is looked at only where those before
    it hold.
    """
    used, count, lower, upper = slot[:4]
    if used == 0:
        yield "R3.1", f"byte 0 says that it is free, but byte {_not_zero(slot, 0, len(slot))} is not zero"
    elif used != 1:
        yield "R3.2", f"byte 0 is {used}, and may be 0 or 1"
    if count > b:
        yield "R3.3", f"has {count} entries, and room for {b}"
    for rule, which, length in (("R3.4", "lower", lower), ("R3.5", "upper", upper)):
        if length > LONGEST:
            yield rule, f"the {which} bound has {length} digits, and may have {LONGEST}"
    if place := _not_zero(slot, 4, 8):
        yield "R3.6", f"byte {place} is not zero"
    for digits, rest, which, start, length in (("R3.7", "R3.8", "lower", 8, lower), ("R3.9", "R3.10", "upper", 32, upper)):
        end = start + min(length, LONGEST)
        for place in range(start, end):
            if slot[place] not in DIGITS:
                yield digits, f"the {which} bound has 0x{slot[place]:02X} at byte {place}, which is no digit"
        if place := _not_zero(slot, end, start + LONGEST):
            yield rest, f"byte {place} is not zero, behind the {which} bound"
    if place := _not_zero(slot, 56, 64):
        yield "R3.11", f"byte {place} is not zero"
    low, high = slot[8 : 8 + lower], slot[32 : 32 + upper]
    if low and high and _key(low) >= _key(high):
        yield "R3.12", f"the lower bound {_shown(low)} is not below the upper bound {_shown(high)}"
    names = [used[:24] for used in _in_use(slot, entry)]
    for place, name in enumerate(names):
        if fault := _illegal(name):
            yield "R3.13", f"entry {place}: {fault}"
    for place, (before, name) in enumerate(pairwise(names), 1):
        if name <= before:
            yield "R3.14", f"entry {place}: the name {_shown(name.rstrip())} is not above the one before, {_shown(before.rstrip())}"
    for place, name in enumerate(names):
        if name[: len(high)] > high:
            yield "R3.15", f"entry {place}: the name {_shown(name.rstrip())} is not within the upper bound {_shown(high)}"
        if low and name[: len(low)] <= low:
            yield "R3.16", f"entry {place}: the name {_shown(name.rstrip())} is within the lower bound {_shown(low)}"
    if place := _not_zero(slot, 64 + entry * count, len(slot)):
        yield "R3.17", f"byte {place} is not zero, behind the last of {count} entries"


def _chain(used: list[_Bucket]) -> Iterator[Fault]:
    """What is wrong between buckets that are each well formed, given in range order."""
    if not used:
        yield Fault("R4.3", None, "no slot is used")
        return
    same = [pair for pair in pairwise(used) if pair[0].upper == pair[1].upper]
    if len(same) == 1 and (nearly := _nearly_cut(used, *same[0])):
        yield nearly
        return
    if first := used[0].lower:
        yield Fault("R4.4", used[0].slot, f"is the first in range order, but has the lower bound {_shown(first)}")
    for before, bucket in pairwise(used):
        if bucket.upper == before.upper:
            yield Fault("R4.7", bucket.slot, f"ends where slot {before.slot} ends, at {_shown(bucket.upper)}")
        elif bucket.lower != before.upper:
            ends = f"slot {before.slot} before it ends at {_shown(before.upper)}"
            yield Fault("R4.6", bucket.slot, f"begins at {_shown(bucket.lower)}, but {ends}")
    if last := used[-1].upper:
        yield Fault("R4.5", used[-1].slot, f"is the last in range order, but has the upper bound {_shown(last)}")


def _nearly_cut(used: list[_Bucket], old: _Bucket, new: _Bucket) -> Fault | None:
    """Where the file would be sound without the second of two slots with one upper bound: why it is not cut."""
    if any(_chain([bucket for bucket in used if bucket is not new])):
        return None
    split = f"could be left of a split or a merge of slot {old.slot} that was stopped, but"
    if old.lower == new.lower:
        return Fault("R4.10", new.slot, f"{split} both begin at {_shown(new.lower)}")
    kept = [entry for entry in new.entries if entry in old.entries]
    if kept != [entry for entry in old.entries if entry[: len(new.lower)] > new.lower]:
        return Fault("R4.13", new.slot, f"{split} lacks entries of that one's, or has them with other values or runs")
    return Fault("R4.13", new.slot, f"{split} has {len(new.entries) - len(kept)} entries that are not in that one")


def _pieces(file: bytes) -> Iterator[bytes]:
    size = library.slot_bytes_in(file)
    return (file[at : at + size] for at in range(library.HEADER_BYTES, len(file), size))


def _in_use(slot: bytes, size: int) -> list[bytes]:
    """The entries in use, of so many bytes, each a filled name with its content."""
    return [slot[at : at + size] for at in range(64, 64 + size * slot[1], size)]


def _buckets(file: bytes) -> list[_Bucket]:
    """The used slots of a file in range order; of two with one upper bound, the one with the lower lower bound first."""
    entry = library.entry_bytes(file[3])
    found = [
        _Bucket(number, slot[8 : 8 + slot[2]], slot[32 : 32 + slot[3]], _in_use(slot, entry))
        for number, slot in enumerate(_pieces(file)) if slot[0]
    ]
    return sorted(found, key=lambda bucket: (_key(bucket.upper), _key(bucket.lower) if bucket.lower else b""))


def _key(bound: bytes) -> bytes:
    """A bound as it is compared: continued by a digit above all others."""
    return bound.ljust(LONGEST, b"\xff")


def _not_zero(piece: bytes, start: int, end: int) -> int | None:
    """The first place from start to end, not included, that is not zero."""
    return next((place for place in range(start, end) if piece[place]), None)


def _illegal(filled: bytes) -> str | None:
    """What is wrong with a filled name."""
    name = filled.rstrip(b" ")
    if not name:
        return "the name is empty"
    for place, byte in enumerate(name, 1):
        if byte not in DIGITS:
            return f"byte {place} of the name {_shown(name)} is 0x{byte:02X}"
    return f"the name {_shown(name)} begins with a blank" if name.startswith(b" ") else None


def _shown(digits: bytes) -> str:
    """A bound or a name as it stands in a sentence.

    >>> _shown(b"i "), _shown(b"a\\xff"), _shown(b"")
    ('"i "', '"a\\\\xff"', 'no limit')
    """
    return '"' + repr(digits)[2:-1].replace('"', '\\"') + '"' if digits else "no limit"
