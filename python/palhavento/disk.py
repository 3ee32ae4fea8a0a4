"""A file on disk: created whole, read whole, and written one slot at a time by one process, each slot whole.

Neither Linux nor a disk writes a slot whole: a kill can come between two pages of one `pwrite`, and a power loss leaves
any of the sectors that were not yet synced. So a store goes into the journal first, which is synced, and into the file
then; docs/FORMAT.md and `journal.py` tell what it says there. The file is synced when a half of the journal is full and
when the store is closed, which removes the journal. Whoever opens a store for writing whose writer was stopped finishes
what its journal says. A reader does the same with its own copy.

Locks keep processes apart, all kept by the kernel and gone with the process. The writer holds `flock` for as long as it
has the file open. While it writes a slot into the file it holds a lock on the file's bytes as well, and a reader holds the
same one, shared, while it reads: so a reader sees every store whole or not at all. A third lock, on a byte that no file has,
says that a writer is at work: then the file alone tells the truth, and its journal may be in the making.
"""

from __future__ import annotations

import contextlib
import errno
import fcntl
import logging
import os
import re
import stat
import struct
import time
from typing import Union

from palhavento.errors import refusal
from palhavento.journal import LARGEST, Found, Journal, Unfit, found, write
from palhavento.library import HEADER_BYTES, LARGEST_FILE

Path = Union[str, bytes, "os.PathLike[str]", "os.PathLike[bytes]"]

# How long a process waits for another one that reads or writes this moment: such a lock lasts for microseconds, unless
# its holder is stopped.
PATIENCE = 5.0

# How often who only reads looks whether the file is still in its place. Each store looks by itself.
LOOK_AGAIN = 0.1

# What is said of a store that failed; the last of a removal that merges, which counts from its first store on.
NOT_MADE = "the change was not made"
MADE = "the name is removed all the same; to free the slot that it leaves is tried again when the store is used or opened next"
UNKNOWN = "whether the change is made is not known, and is found when the store is opened next"

_log = logging.getLogger("palhavento")


def _request(kind: int, start: int, count: int) -> bytes:
    """A lock as `fcntl` wants it asked for."""
    return struct.pack("hhqqi4x", kind, os.SEEK_SET, start, count, 0)


# All bytes that a file can have; and one that none has, whose lock says that a writer is at work.
_CONTENT = {kind: _request(kind, 0, 1 << 62) for kind in (fcntl.F_RDLCK, fcntl.F_WRLCK, fcntl.F_UNLCK)}
_AT_WORK = {kind: _request(kind, 1 << 62, 1) for kind in (fcntl.F_RDLCK, fcntl.F_WRLCK, fcntl.F_UNLCK)}
# Another such byte, of a file that is in the making under a name of its own.
_IN_THE_MAKING = {kind: _request(kind, (1 << 62) + 1, 1) for kind in (fcntl.F_RDLCK, fcntl.F_WRLCK)}

# How many forks lie between this process and the one that loaded the module.
_forks = 0


def _forked() -> None:
    global _forks
    _forks += 1


os.register_at_fork(after_in_child=_forked)


def _opened(path: Path, flags: int, mode: int = 0o666, folder: int | None = None) -> int:
    """A file opened under a number above those of the standard streams, one of which may be closed: what is meant for
    that stream would be written into the file.
    """
    file = os.open(path, flags, mode, dir_fd=folder)
    if file > 2:
        return file
    try:
        return fcntl.fcntl(file, fcntl.F_DUPFD_CLOEXEC, 3)
    finally:
        os.close(file)


def _holders(file: int, *words: str) -> str:
    """The processes that hold a lock with these words on a file, by another opening than ours."""
    own = os.fstat(file)
    holders = []
    for process in filter(str.isdigit, os.listdir("/proc")):
        # A process may end meanwhile, or not be ours to look at.
        with contextlib.suppress(OSError):
            for number in os.listdir(f"/proc/{process}/fd"):
                if (int(process), int(number)) == (os.getpid(), file):
                    continue
                if not os.path.samestat(os.stat(f"/proc/{process}/fd/{number}"), own):
                    continue
                with open(f"/proc/{process}/fdinfo/{number}") as info:
                    if any(line.startswith("lock:") and {*words} <= {*line.split()} for line in info):
                        with open(f"/proc/{process}/comm") as name:
                            holders.append(f"process {process} ({name.read().strip()})")
                        break
    return " and ".join(holders) or "a process that cannot be seen from here"


def journal_name(store: str) -> str:
    """Where the journal of a store is: beside it."""
    return store + ".journal"


def _set_aside(target: str) -> None:
    """A journal whose file is gone must not be taken for that of the file which is created in its place."""
    journal = journal_name(target)
    if not os.path.lexists(target) and os.path.lexists(journal):
        kept = f"{journal}.{os.urandom(4).hex()}"
        os.rename(journal, kept)
        _log.warning("%s is the journal of a file that is gone; it is kept as %s", journal, kept)


def create(path: Path, content: bytes) -> None:
    """Put a file with this content where none is; it appears whole, or not at all.

    >>> create("new.tkf", b"TKF")
    >>> create("new.tkf", b"other")
    Traceback (most recent call last):
    FileExistsError: [Errno 17] File exists: 'new.tkf'
    >>> os.listdir(), os.path.getsize("new.tkf")
    (['new.tkf'], 3)
    """
    target = os.fsdecode(path)
    folder, name = os.path.split(target)
    if not name:
        raise FileNotFoundError(errno.ENOENT, os.strerror(errno.ENOENT), target)
    try:
        listing = _opened(folder or os.curdir, os.O_RDONLY | os.O_DIRECTORY)
        try:
            _remove_leftovers(listing)
            _create(target, content, listing)
            os.fsync(listing)
        finally:
            os.close(listing)
    except OSError as error:
        # It may name a file of which nobody has heard.
        raise OSError(error.errno, error.strerror, target) from None


def _create(target: str, content: bytes, listing: int) -> None:
    """Write the file where it has no name yet, and then give it one."""
    beside = ""
    try:
        new = _opened(".", os.O_WRONLY | os.O_TMPFILE, folder=listing)
    except OSError as error:
        if error.errno not in (errno.EOPNOTSUPP, errno.EISDIR, errno.EINVAL):
            raise
        # A file system without files that have no name.
        new, beside = _beside(listing)
    try:
        write(new, content, 0)
        os.fsync(new)
        _set_aside(target)
        # To link, unlike to rename, never takes the place of a file that another process has put there meanwhile. With a
        # folder given it follows the link by which the system knows a file without a name.
        os.link(beside or f"/proc/self/fd/{new}", target, src_dir_fd=listing)
    finally:
        # Its lock ends with it, so its name goes first.
        if beside:
            with contextlib.suppress(FileNotFoundError):
                os.unlink(beside, dir_fd=listing)
        os.close(new)


_MADE_AS = re.compile(r"\.palhavento-[0-9a-f]{16}")


def _beside(listing: int) -> tuple[int, str]:
    """A new file under a name of its own in a folder, with a lock that says that it is in the making, and that name."""
    while True:
        name = f".palhavento-{os.urandom(8).hex()}"
        new = _opened(name, os.O_WRONLY | os.O_CREAT | os.O_EXCL, folder=listing)
        fcntl.fcntl(new, fcntl.F_OFD_SETLKW, _IN_THE_MAKING[fcntl.F_WRLCK])
        # Before it had its lock, another process may have taken it for a leftover.
        if os.fstat(new).st_nlink:
            return new, name
        os.close(new)


def _remove_leftovers(listing: int) -> None:
    """Remove what a `create` that was killed has left in a folder: its file, or the second name of the store it made."""
    for name in filter(_MADE_AS.fullmatch, os.listdir(listing)):
        # What is not to be had, or has its lock, is left alone.
        with contextlib.suppress(OSError):
            left = _opened(name, os.O_RDONLY | os.O_NONBLOCK | os.O_NOFOLLOW, folder=listing)
            try:
                fcntl.fcntl(left, fcntl.F_OFD_SETLK, _IN_THE_MAKING[fcntl.F_RDLCK])
                os.unlink(name, dir_fd=listing)
            finally:
                os.close(left)


class Disk:
    """A file that is open, for one writer or for a reader."""

    _file: int = -1
    _folder: int = -1
    _journal: Journal | None = None

    def __init__(self, path: Path, readonly: bool, sync: bool, timeout: float = 0.0) -> None:
        self.path = os.fsdecode(path)
        self.readonly = readonly
        self._sync = sync
        # Locks go with the open file, which a forked child shares: two processes would then write under one lock.
        self._forks = _forks
        # The bytes, which a writer knows without looking; None where it has to look again.
        self._content: bytes | None = None
        # The file's length and time of change when it was last as we know it.
        self._stamp = 0, 0
        # A store failed, and only the journal tells whether it is made.
        self._doubt = False
        # The journal's half in use does not fit any more, so the other one has to begin.
        self._renew = False
        # The file may lack bytes: a write failed, or a sync, after which Linux forgets what it had still to write.
        self._unsafe = False
        # A named pipe must not keep us waiting for its other end.
        self._file = _opened(path, (os.O_RDONLY if readonly else os.O_RDWR) | os.O_NONBLOCK)
        try:
            own = os.fstat(self._file)
            if stat.S_ISDIR(own.st_mode):
                raise IsADirectoryError(errno.EISDIR, os.strerror(errno.EISDIR), self.path)
            if not stat.S_ISREG(own.st_mode):
                raise OSError(errno.EINVAL, "is no regular file", self.path)
            self.identity = own.st_dev, own.st_ino
            # The file's own place, past all links, and as it stays if a folder above is renamed.
            folder, self._name = os.path.split(os.path.realpath(self.path))
            self._beside = journal_name(self._name)
            self._folder = _opened(folder, os.O_PATH | os.O_DIRECTORY)
            self._look()
            if not readonly:
                self._begin(timeout)
        except BaseException:
            self.close()
            raise

    # Locks.

    def _begin(self, timeout: float) -> None:
        """Be the one writer, or wait for so long to be it; then finish what an earlier one has left."""
        end = time.monotonic() + timeout
        while True:
            try:
                fcntl.flock(self._file, fcntl.LOCK_EX | fcntl.LOCK_NB)
                break
            except BlockingIOError:
                left = end - time.monotonic()
                if left <= 0:
                    raise refusal(254, f"{self.path}, open in {_holders(self._file, 'FLOCK', 'WRITE')}") from None
                time.sleep(min(left, 0.01))
        self._look()
        left_behind = self._left_behind()
        if left_behind is not None:
            self._finish(left_behind)
        self._at_work(True)

    def _at_work(self, yes: bool) -> None:
        """Say to readers whether the file alone tells the truth."""
        fcntl.fcntl(self._file, fcntl.F_OFD_SETLK, _AT_WORK[fcntl.F_RDLCK if yes else fcntl.F_UNLCK])

    def _is_at_work(self) -> bool:
        """Does a writer say so?"""
        answer = fcntl.fcntl(self._file, fcntl.F_OFD_GETLK, _AT_WORK[fcntl.F_WRLCK])
        return struct.unpack_from("h", answer)[0] != fcntl.F_UNLCK

    def _lock(self, kind: int) -> None:
        """Lock all bytes, for this open file alone. Whoever is in the way for too long is named."""
        end = pause = 0.0
        while True:
            try:
                fcntl.fcntl(self._file, fcntl.F_OFD_SETLK, _CONTENT[kind])
                return
            except (BlockingIOError, PermissionError):
                now = time.monotonic()
                end = end or now + PATIENCE
                if now >= end:
                    who = _holders(self._file, "OFDLCK", "WRITE" if kind == fcntl.F_RDLCK else "READ")
                    raise TimeoutError(
                        errno.ETIMEDOUT, f"{who} has kept it locked for {PATIENCE:g} seconds", self.path
                    ) from None
                pause = min(pause + 0.00005, 0.005)
                time.sleep(pause)

    def _unlock(self) -> None:
        """Unlock them; what is not locked stays so."""
        fcntl.fcntl(self._file, fcntl.F_OFD_SETLK, _CONTENT[fcntl.F_UNLCK])

    def _usable(self) -> None:
        if self._file < 0:
            raise ValueError(f"{self.path}: the store is closed")
        if self._forks != _forks:
            raise refusal(254, f"{self.path}: opened before this process was forked, so open it again here")

    # Reading.

    def _look(self) -> None:
        """Is the file still in its place? What is put into a file without a name would be lost without a word."""
        try:
            own = os.stat(self._name, dir_fd=self._folder, follow_symlinks=False)
        except FileNotFoundError:
            own = None
        if own is None or (own.st_dev, own.st_ino) != self.identity:
            raise FileNotFoundError(errno.ENOENT, "removed, renamed or replaced since it was opened", self.path)
        # Nobody else writes. If somebody does all the same, without our locks, the bytes are read again.
        if (own.st_size, own.st_mtime_ns) != self._stamp and self._content is not None:
            self._content, self._renew = None, True
        self.looked = time.monotonic()

    def _seen(self) -> None:
        """The file is now as we know it."""
        own = os.fstat(self._file)
        self._stamp = own.st_size, own.st_mtime_ns

    def read(self, anew: bool = False) -> bytes:
        """The bytes as they are now; of a file too long for the format, only the beginning.

        A writer gives the bytes that it knows; `anew` it looks at the file itself.
        """
        self._usable()
        if self.readonly:
            self._look()
            return self._read_beside()
        if anew or time.monotonic() - self.looked > LOOK_AGAIN:
            self._look()
        if anew or self._content is None:
            self._find()
        return self._content

    def request(self) -> tuple[object, ...]:
        """What a reader asks of the system for one reading while nothing is unusual, as `_system.c` takes it."""
        locks = _CONTENT[fcntl.F_RDLCK], _AT_WORK[fcntl.F_WRLCK], _CONTENT[fcntl.F_UNLCK]
        name, journal = os.fsencode(self._name), os.fsencode(self._beside)
        return self._file, LARGEST_FILE + 1, *locks, self._folder, name, *self.identity, journal, LOOK_AGAIN

    def _bytes(self) -> bytes:
        return os.pread(self._file, LARGEST_FILE + 1, 0)

    def _read_beside(self) -> bytes:
        """The bytes for a reader: while a writer is at work, the file's; else, with what a journal says."""
        # Locked within the try, here and below, so that no interrupt leaves the lock behind.
        try:
            self._lock(fcntl.F_RDLCK)
            content = self._bytes()
            if self._is_at_work():
                return content
            journal = self._left_behind()
            # A writer that has come meanwhile has its journal in the making, and waits for our lock to write the file.
            if journal is None or self._is_at_work():
                return content
            finished = self._found(journal, content)
            return finished.content if finished else content
        finally:
            self._unlock()

    def _left_behind(self) -> bytes | None:
        """The journal beside the file, if there is one."""
        try:
            journal = _opened(self._beside, os.O_RDONLY | os.O_NONBLOCK | os.O_NOFOLLOW, folder=self._folder)
        except OSError as error:
            # A name that is too long for a file was never one.
            if error.errno in (errno.ENOENT, errno.ENAMETOOLONG):
                return None
            raise OSError(error.errno, error.strerror, journal_name(self.path)) from None
        try:
            if not stat.S_ISREG(os.fstat(journal).st_mode):
                raise refusal(253, f"{journal_name(self.path)}: it is no regular file")
            return os.pread(journal, LARGEST, 0)
        finally:
            os.close(journal)

    def _found(self, journal: bytes, content: bytes) -> Found | None:
        """What a journal makes of the file's bytes, or the refusal."""
        try:
            return found(journal, content)
        except Unfit as why:
            raise refusal(253, f"{journal_name(self.path)}: {why}") from None

    def _find(self) -> None:
        """Find the bytes of our own file: after a store that failed, by the journal."""
        content = self._bytes()
        if self._doubt and self._journal:
            finished = self._found(os.pread(self._journal.file, LARGEST, 0), content)
            if finished:
                content, self._journal.next = finished.content, finished.next
        self._content = content
        self._seen()

    # Writing.

    def _finish(self, left_behind: bytes) -> None:
        """Make again all stores of a journal that was left behind, and remove it."""
        try:
            self._lock(fcntl.F_WRLCK)
            content = self._bytes()
            finished = self._found(left_behind, content)
            if finished:
                # All bytes, also those that seem to be there: a disk that failed may have lost them.
                write(self._file, finished.content, 0)
                os.fdatasync(self._file)
                if finished.content != content:
                    _log.warning("%s: its last writer was stopped in a store; finished by its journal", self.path)
            os.unlink(self._beside, dir_fd=self._folder)
            self._sync_folder()
        except OSError as error:
            raise self._failed(error, "what its last writer has left in its journal stays there") from None
        finally:
            self._unlock()

    def _begin_journal(self, content: bytes) -> Journal:
        """A journal beside the file, which is there after a power loss too."""
        own = os.fstat(self._file)
        # Whoever opens the file by another name would not find it.
        if own.st_nlink > 1:
            raise OSError(errno.EMLINK, f"the file has {own.st_nlink} names, and its journal is beside one; remove the others")
        # A file with holes would need room on the disk in the middle of a store.
        if own.st_blocks * 512 < own.st_size:
            os.posix_fallocate(self._file, 0, own.st_size)
        flags = os.O_RDWR | os.O_CREAT | os.O_EXCL | os.O_NOFOLLOW
        try:
            file = _opened(self._beside, flags, stat.S_IMODE(own.st_mode) & 0o666, self._folder)
        except FileExistsError:
            # Ours, if an interrupt came when it had just been made; then nothing is said in it.
            finished = self._found(self._left_behind() or b"", content)
            if finished and finished.stores:
                raise
            os.unlink(self._beside, dir_fd=self._folder)
            file = _opened(self._beside, flags, stat.S_IMODE(own.st_mode) & 0o666, self._folder)
        try:
            # Whoever may read the store may read its journal.
            os.fchmod(file, stat.S_IMODE(own.st_mode) & 0o666)
            journal = Journal.begun(file, content)
            # Others may have written the file without waiting for the disk, and removed their journal.
            self._make_safe(content)
            if self._sync:
                self._sync_folder()
        except BaseException:
            os.close(file)
            # If this fails too, nothing is said in it.
            with contextlib.suppress(OSError):
                os.unlink(self._beside, dir_fd=self._folder)
            raise
        return journal

    def _sync_folder(self) -> None:
        listing = _opened(".", os.O_RDONLY | os.O_DIRECTORY, folder=self._folder)
        try:
            os.fsync(listing)
        finally:
            os.close(listing)

    def _make_safe(self, content: bytes) -> None:
        """See to it that the file holds these bytes; on disk too, where that was asked for."""
        if self._unsafe:
            try:
                self._lock(fcntl.F_WRLCK)
                write(self._file, content, 0)
                self._at_work(True)
            finally:
                self._unlock()
            self._seen()
        if self._sync:
            self._unsafe = True
            os.fdatasync(self._file)
        self._unsafe = False

    def _sync_journal(self, journal: Journal) -> None:
        if self._sync:
            os.fdatasync(journal.file)
        journal.keep()

    def _turn(self, journal: Journal, content: bytes) -> None:
        """Begin the other half of the journal; the records of this one may then be forgotten."""
        self._make_safe(content)
        if self._renew:
            # The number of a record that failed is never used again.
            journal.next += 1
        journal.turn(content)
        if self._renew:
            self._sync_journal(journal)
        self._doubt = self._renew = False

    def _ready(self, content: bytes) -> Journal:
        """The journal, with a place for a record."""
        journal = self._journal
        if journal and os.fstat(journal.file).st_nlink == 0:
            # Somebody has removed it.
            os.close(journal.file)
            journal = self._journal = None
        if journal is None:
            journal = self._journal = self._begin_journal(content)
            self._doubt = self._renew = False
        elif self._renew or journal.full:
            self._turn(journal, content)
        return journal

    def store(self, offset: int, slot: bytes, before: bytes | None = None, after: bytes | None = None) -> None:
        """Replace one slot whole, and wait until that cannot be lost where this was asked for.

        Whoever has the bytes from `read` and knows what they become can tell both, which saves to find it here.
        """
        self._usable()
        self._look()
        if self._content is None:
            self._find()
        content = self._content
        try:
            journal = self._ready(content)
        except OSError as error:
            raise self._failed(error, NOT_MADE) from None
        self._content, self._doubt, self._renew, self._unsafe = None, True, True, True
        try:
            journal.append((offset - HEADER_BYTES) // len(slot), slot)
            self._sync_journal(journal)
            self._lock(fcntl.F_WRLCK)
            write(self._file, slot, offset)
        except OSError as error:
            # Still under the lock, so that no reader sees what is taken back.
            raise self._failed(error, self._taken_back(content)) from None
        except BaseException:
            # An interrupt, perhaps in the middle: readers must look into the journal too.
            self._at_work(False)
            raise
        finally:
            self._unlock()
        journal.next += 1
        if after is None or content is not before:
            old = memoryview(content)
            after = b"".join((old[:offset], slot, old[offset + len(slot) :]))
        self._content = after
        self._doubt = self._renew = self._unsafe = False
        self._seen()

    def _taken_back(self, content: bytes) -> str:
        """Take back a store that failed; and what is then to be said of it."""
        try:
            now = self._bytes()
            if now != content:
                self._put_back(now, content)
            self._journal.undo()
            if self._sync:
                os.fdatasync(self._journal.file)
        except OSError:
            # The record stays, and readers must look at it.
            self._at_work(False)
            return UNKNOWN
        self._content, self._doubt = content, False
        self._seen()
        return NOT_MADE

    def _put_back(self, now: bytes, content: bytes) -> None:
        """Write what the file was, but only where it is not so: there may be no room on the disk for more."""
        others = [at for at in range(len(content)) if now[at : at + 1] != content[at : at + 1]]
        write(self._file, content[others[0] : others[-1] + 1], others[0])
        # The record may be forgotten only when the slot is on disk as it was.
        if self._sync:
            os.fdatasync(self._file)

    def _failed(self, error: OSError, outcome: str) -> OSError:
        """An error with what came of it."""
        return OSError(error.errno, f"{error.strerror or error}; {outcome}", self.path)

    def flush(self) -> None:
        """Wait until all that was stored so far is on disk. With `sync` it is already."""
        self._usable()
        if self._journal and not self._sync:
            content = self.read()
            self._sync = self._renew = True
            try:
                self._turn(self._journal, content)
                self._sync_folder()
            finally:
                self._sync = False

    # Its end.

    @property
    def closed(self) -> bool:
        """Whether the file was closed."""
        return self._file < 0

    def close(self) -> None:
        """Close the file and end its locks; a second time does nothing.

        The file alone then holds everything. If that fails, the journal stays, and the next to open it finishes it.
        """
        try:
            if self._journal and self._forks == _forks:
                self._make_safe(self._content if self._content is not None else self.read())
                self._remove_journal()
        except OSError as error:
            kept = "what was stored is kept in its journal, and the next to open the store finishes it"
            raise self._failed(error, kept) from None
        finally:
            self._let_go()

    def _remove_journal(self) -> None:
        """Remove the journal; not one that another has put in its place."""
        with contextlib.suppress(FileNotFoundError):
            there = os.stat(self._beside, dir_fd=self._folder, follow_symlinks=False)
            if os.path.samestat(there, os.fstat(self._journal.file)):
                os.unlink(self._beside, dir_fd=self._folder)
        # If it came back after a power loss, it would not fit what others have made of the file meanwhile. But nothing is lost.
        if self._sync:
            with contextlib.suppress(OSError):
                self._sync_folder()

    def _let_go(self) -> None:
        """End the locks and close what is open."""
        journal, self._journal = self._journal, None
        file, self._file = self._file, -1
        folder, self._folder = self._folder, -1
        if journal:
            os.close(journal.file)
        if folder >= 0:
            os.close(folder)
        if file < 0:
            return
        try:
            # Closing is not enough while a forked child has the same file open; nor may that child end our lock.
            if self._forks == _forks:
                fcntl.fcntl(file, fcntl.F_OFD_SETLK, _AT_WORK[fcntl.F_UNLCK])
                fcntl.flock(file, fcntl.LOCK_UN)
        finally:
            os.close(file)

    # A store that nobody has in hand any more must not keep others from writing.
    __del__ = close
