"""Processes that `tests/src/killer.rs` kills: they live as `tests/src/lives.rs` does and say the same, over the package.

For each line of standard input a process is forked; its number is printed, and when it has ended, how. The line has a file's
path, the number of a world, the first request and the last, not included, the moment to die at, and the write to die inside
of. The world itself stands in the file beside, `.world` after the path: see `World::text` in `lives.rs`. The process speaks
into the pipe `.said`. The package is used as its users do: the mapping, its exceptions and its log.
"""

from __future__ import annotations

import contextlib
import ctypes
import fcntl
import logging
import mmap
import os
import select
import signal
import struct
import sys
import threading
import traceback
from pathlib import Path

sys.path.insert(0, str(Path(__file__).resolve().parent.parent))

import palhavento  # noqa: E402  (the path above comes first)

# The calls, by their places in `tests/src/door.rs`.
CHECK, RECOVER, REBUILD, LOOK_UP, PUT, REMOVE, LIST = range(1, 8)
# The answers, by their numbers, and what is said before a request is made.
FOUND, ABSENT = 100, 101
ADDED, REPLACED = 110, 111
REMOVED = 120
FREED, NOTHING_TO_DO = 130, 131
STATES = {"sound": 140, "cut": 141, "bad": 142}
REBUILT, LISTED = 151, 152
ABOUT_TO = 0
# How a record of the journal begins; a slot's write follows it.
RECORD = b"TKJR"
SECTOR, PAGE = 512, 4096
# The number of a moment or write that never comes.
NEVER = 2**64 - 1
# For so many stores a slot with the edge of a page between its changes is waited for.
PATIENCE = 30
# Numbers of Linux for x86-64: memory whose missing pages a process is told of.
USERFAULTFD, UFFDIO_API, UFFDIO_REGISTER = 323, 0xC018AA3F, 0xC020AA00
# The words of an answer that has none, as `tests/src/door.rs` finds them.
UNWRITTEN = (0xA5A5_0000_1111_5A5A, 0xA5A5_2222_3333_5A5A)


def say(call: int, number: int, answer: int, *words: int) -> None:
    """One record, out before the next step."""
    os.write(sys.stdout.fileno(), struct.pack("<5Q", call, number, answer, *words, *UNWRITTEN[len(words) :]))


def die_at(moments: int) -> None:
    """Have each store pass its four moments: before its record is written, before that is synced, before the slot is
    written, and after that.
    """
    pwrite, fdatasync = os.pwrite, os.fdatasync
    recorded = False

    def moment() -> None:
        nonlocal moments
        if moments == 0:
            os.kill(os.getpid(), signal.SIGKILL)
        moments -= 1

    def write(file: int, content: bytes, offset: int) -> int:
        nonlocal recorded
        if content.startswith(RECORD):
            moment()
            recorded = True
            return pwrite(file, content, offset)
        written = pwrite(file, content, offset)
        if recorded:
            moment()
            recorded = False
        return written

    def sync(file: int) -> None:
        if recorded:
            moment()
        fdatasync(file)
        if recorded:
            moment()

    os.pwrite, os.fdatasync = write, sync


def die_inside(number: int) -> None:
    """Die inside a `pwrite`: for an even number of the record, for an odd one of the slot, of a store from half of it on.

    A slot is left with changed bytes old and changed bytes new. That is as Linux parts it, at the edge of a page; if no slot
    comes with such an edge between its changes, at that of a sector, or else anywhere.
    """
    pwrite = os.pwrite
    stores, of_slot = divmod(number, 2)
    recorded = False

    def write(file: int, content: bytes, offset: int) -> int:
        nonlocal stores, recorded
        is_slot, recorded = recorded, content.startswith(RECORD)
        if recorded:
            stores -= 1
            if stores < 0 and not of_slot:
                written_in_part(file, content, offset, min(SECTOR, len(content) // 2))
        if is_slot and stores < 0 and of_slot:
            old = os.pread(file, len(content), offset)
            others = [at for at in range(len(content)) if old[at] != content[at]]
            unit = PAGE if stores > -PATIENCE else SECTOR if stores > -2 * PATIENCE else 1
            first = (offset + others[0]) // unit * unit + unit - offset
            if first <= others[-1]:
                written_in_part(file, content, offset, first)
        return pwrite(file, content, offset)

    os.pwrite = write


def written_in_part(file: int, content: bytes, offset: int, first: int) -> None:
    """Be killed inside a `pwrite`, after so many bytes.

    The bytes behind them lie on a page of memory that is not there. When the system asks for it, in the middle of its
    work, the process is killed.
    """
    libc = ctypes.CDLL(None, use_errno=True)
    libc.mmap.restype, libc.mmap.argtypes = ctypes.c_void_p, [ctypes.c_void_p, ctypes.c_size_t, *[ctypes.c_int] * 3, ctypes.c_long]
    libc.pwrite.argtypes = [ctypes.c_int, ctypes.c_void_p, ctypes.c_size_t, ctypes.c_long]
    libc.mprotect.argtypes = [ctypes.c_void_p, ctypes.c_size_t, ctypes.c_int]
    begin = libc.mmap(None, 2 * PAGE, mmap.PROT_READ | mmap.PROT_WRITE, mmap.MAP_PRIVATE | mmap.MAP_ANONYMOUS, -1, 0)
    ctypes.memmove(begin + PAGE - first, content[:first], first)
    faults = libc.syscall(USERFAULTFD, os.O_CLOEXEC | os.O_NONBLOCK)
    if faults >= 0:
        fcntl.ioctl(faults, UFFDIO_API, bytearray(struct.pack("3Q", 0xAA, 0, 0)))
        fcntl.ioctl(faults, UFFDIO_REGISTER, bytearray(struct.pack("4Q", begin + PAGE, PAGE, 1, 0)))

        def wait_and_kill() -> None:
            select.select([faults], [], [])
            os.kill(os.getpid(), signal.SIGKILL)

        threading.Thread(target=wait_and_kill, daemon=True).start()
    else:
        # Without the right to that the page is forbidden: the write ends there, and the kill comes right behind it.
        libc.mprotect(begin + PAGE, PAGE, 0)
    libc.pwrite(file, begin + PAGE - first, len(content), offset)
    os.kill(os.getpid(), signal.SIGKILL)


class Recoveries(logging.Handler):
    """The slots that were freed, as the package's warnings say."""

    def __init__(self) -> None:
        super().__init__(logging.WARNING)
        self.freed: list[int] = []

    def emit(self, record: logging.LogRecord) -> None:
        _, freeing, slot = record.getMessage().rpartition("freeing slot ")
        # The other warning tells that a journal was finished.
        if freeing:
            self.freed.append(int(slot))


def opened(path: str, names: list[str], sync: bool) -> palhavento.Store:
    """Check, recover and rebuild, then look up every name and list them all."""
    recoveries = Recoveries()
    logging.getLogger("palhavento").addHandler(recoveries)
    # A reader changes nothing, so it can say what the writer after it will find.
    with palhavento.open(path, readonly=True) as reader:
        say(CHECK, 0, STATES[reader.check()])
    store = palhavento.open(path, create=False, sync=sync)
    match recoveries.freed:
        case []:
            say(RECOVER, 0, NOTHING_TO_DO)
        case [slot]:
            say(RECOVER, 0, FREED, slot)
        case slots:
            raise AssertionError(f"recovered by freeing each of {slots}")
    store.rebuild()
    say(REBUILD, 0, REBUILT)
    found = {}
    for number, name in enumerate(names):
        if name in store:
            value, run = store.entry(name)
            say(LOOK_UP, number, FOUND, value, run)
            found[name] = value
        else:
            say(LOOK_UP, number, ABSENT)
    entries = store.range()
    assert entries == sorted(found.items()), "the list differs from the names looked up"
    say(LIST, 0, LISTED, len(entries))
    return store


def put(store: palhavento.Store, number: int, name: str, value: int, run: int) -> None:
    """Make a put, and say so before and after."""
    say(PUT, number, ABOUT_TO)
    try:
        old = store.put(name, value, run=run)
    except (palhavento.FileFull, palhavento.TrieFull, palhavento.OlderRun) as refused:
        say(PUT, number, refused.number)
    else:
        if old is None:
            say(PUT, number, ADDED)
        else:
            say(PUT, number, REPLACED, *old)


def remove(store: palhavento.Store, number: int, name: str) -> None:
    """Make a remove, and say so before and after."""
    say(REMOVE, number, ABOUT_TO)
    try:
        del store[name]
    except KeyError:
        say(REMOVE, number, ABSENT)
    else:
        say(REMOVE, number, REMOVED)


def live(path: str, first: int, end: int, moment: int, inside: int) -> None:
    """Open the file and make the requests."""
    names, requests = Path(path + ".world").read_text("ascii").split("\n\n")
    die_at(moment)
    die_inside(inside)
    # Whether a store waits for the disk makes no difference to a kill inside a write, but comes sooner to one.
    store = opened(path, names.splitlines(), sync=inside == NEVER)
    for number, request in enumerate(requests.splitlines()[first:end], start=first):
        match request.split("\t"):
            case [name, value, run]:
                put(store, number, name, int(value), int(run))
            case [name]:
                remove(store, number, name)


def bear(path: str, numbers: list[int]) -> int:
    """A process that lives so."""
    pipe = f"{path}.said"
    # A new one each time: of the last one another process, itself just being forked, may still have a copy to read from.
    with contextlib.suppress(FileNotFoundError):
        os.unlink(pipe)
    os.mkfifo(pipe)
    child = os.fork()
    if child:
        return child
    status = 1
    try:
        os.dup2(os.open(pipe, os.O_WRONLY), sys.stdout.fileno())
        # A call that hangs ends the process too, by another signal.
        signal.alarm(60)
        live(path, *numbers[1:])
        status = 0
    except BaseException:
        traceback.print_exc()
    finally:
        os._exit(status)


if __name__ == "__main__":
    for line in sys.stdin:
        path, *numbers = line.split()
        child = bear(path, list(map(int, numbers)))
        print(child, flush=True)
        print(os.waitstatus_to_exitcode(os.waitpid(child, 0)[1]), flush=True)
