"""Faults that are not kills: full disks, failing syncs, removed files, journals of other files, stopped processes.

`test_crash.py` has failing disks at every moment of random histories; here each kind is seen by itself, over real files.
"""

from __future__ import annotations

import contextlib
import errno
import os
import resource
import signal
import subprocess
import sys
import time
import unittest
from collections.abc import Iterator
from pathlib import Path
from unittest import mock

from support import InFolder, sound_file
from test_processes import forked

import palhavento
from palhavento import disk, errors, journal


class Faults(InFolder):
    """A store of rate1 and rate2, whose disk fails at a chosen call."""

    def setUp(self) -> None:
        super().setUp()
        self.path.write_bytes(sound_file(["rate1", "rate2"], b=2, slots=3))
        self.beside = self.folder / "store.tkf.journal"

    @contextlib.contextmanager
    def failing(self, call: str, number: int, where: str, then: int | None = None, cut: int = 0) -> Iterator[None]:
        """While a call on the store or its journal fails with this error; a write after so many bytes were written.

        Only the first such call fails, unless further ones do `then`.
        """
        real = getattr(os, call)
        failures = 0

        def strikes(file: int) -> bool:
            return os.readlink(f"/proc/self/fd/{file}") == str(self.path if where == "store" else self.beside)

        def failing(file: int, *words: object) -> object:
            nonlocal failures
            if not strikes(file) or failures > (then or 0):
                return real(file, *words)
            failures += 1
            if cut and failures == 1:
                real(file, words[0][:cut], words[1])
            raise OSError(number, os.strerror(number))

        with mock.patch(f"os.{call}", failing):
            yield

    def found_after_a_kill(self) -> dict[str, int]:
        """What another process would find now if this one were killed."""
        other = self.folder / "other"
        other.mkdir()
        for file in (self.path, self.beside):
            if file.exists():
                (other / file.name).write_bytes(file.read_bytes())
        with palhavento.open(other / self.path.name, readonly=True) as reader:
            seen = dict(reader)
        with palhavento.open(other / self.path.name, create=False) as writer:
            self.assertEqual(dict(writer), seen)
        for left in other.iterdir():
            left.unlink()
        other.rmdir()
        return seen

    BEFORE = {"rate1": 1, "rate2": 2}
    AFTER = {"rate1": 1, "rate2": 5}

    def test_what_fails_is_told_and_the_store_is_as_it_was(self) -> None:
        for call, where, cut in (
            ("pwrite", "journal", 0), ("pwrite", "journal", 100), ("fdatasync", "journal", 0),
            ("pwrite", "store", 0), ("pwrite", "store", 1), ("pwrite", "store", 127),
        ):
            for number in (errno.ENOSPC, errno.EIO, errno.EROFS):
                with self.subTest(call=call, where=where, cut=cut, number=number):
                    self.path.write_bytes(sound_file(["rate1", "rate2"], b=2, slots=3))
                    with palhavento.open(self.path) as store:
                        with self.failing(call, number, where, cut=cut), self.assertRaises(OSError) as caught:
                            store["rate2"] = 5
                        self.assertEqual((caught.exception.errno, caught.exception.filename), (number, str(self.path)))
                        self.assertIn(disk.NOT_MADE, str(caught.exception))
                        self.assertEqual(dict(store), self.BEFORE)
                        self.assertEqual(dict(palhavento.open(self.path, readonly=True)), self.BEFORE)
                        self.assertEqual(self.found_after_a_kill(), self.BEFORE)
                        # The disk is well again.
                        store["rate2"] = 5
                        self.assertEqual(self.found_after_a_kill(), self.AFTER)
                    self.assertEqual(dict(palhavento.open(self.path)), self.AFTER)
                    self.assertEqual(os.listdir(self.folder), ["store.tkf"])

    def test_what_cannot_be_taken_back_is_not_known_and_found_by_the_next(self) -> None:
        for call, where, cut in (
            ("pwrite", "journal", 0), ("pwrite", "journal", 100), ("fdatasync", "journal", 0), ("pwrite", "store", 125),
        ):
            with self.subTest(call=call, where=where, cut=cut):
                self.path.write_bytes(sound_file(["rate1", "rate2"], b=2, slots=3))
                store = palhavento.open(self.path)
                store["rate1"] = 1
                store["rate1"] = 9
                before, after = self.BEFORE | {"rate1": 9}, self.AFTER | {"rate1": 9}
                with self.failing(call, errno.EIO, where, then=10**9, cut=cut):
                    with self.assertRaisesRegex(OSError, disk.UNKNOWN):
                        store["rate2"] = 5
                    found = dict(store)
                    self.assertIn(found, (before, after))
                    # A reader sees the same, and so does whoever comes after a kill.
                    self.assertEqual(dict(palhavento.open(self.path, readonly=True)), found)
                    self.assertEqual(self.found_after_a_kill(), found)
                    if where == "store":
                        with self.assertRaisesRegex(OSError, "kept in its journal"):
                            store.close()
                store.close()
                self.assertEqual(dict(palhavento.open(self.path)), found)
                self.assertEqual(os.listdir(self.folder), ["store.tkf"])

    def test_a_sync_of_the_file_that_fails_is_made_up_for(self) -> None:
        """Linux forgets what it could not write, so all of it is written again before the journal is relied on or forgotten."""
        with mock.patch.object(journal, "PLACES", 1), palhavento.open(self.path) as store:
            # Before the journal begins, and when its half is full.
            for name, value in (("rate1", 7), ("rate2", 5)):
                with self.failing("fdatasync", errno.EIO, "store"), self.assertRaisesRegex(OSError, disk.NOT_MADE):
                    store[name] = value
                written = []
                pwrite = os.pwrite
                with mock.patch("os.pwrite", lambda *words: written.append(len(words[1])) or pwrite(*words)):
                    store[name] = value
                self.assertIn(len(self.path.read_bytes()), written)
        self.assertEqual(dict(palhavento.open(self.path)), {"rate1": 7, "rate2": 5})

    def test_a_store_that_cannot_be_closed_keeps_its_journal(self) -> None:
        store = palhavento.open(self.path)
        store["rate2"] = 5
        with self.failing("fdatasync", errno.EIO, "store"), self.assertRaisesRegex(OSError, "kept in its journal"):
            store.close()
        self.assertTrue(self.beside.exists())
        self.assertEqual(dict(palhavento.open(self.path)), self.AFTER)
        self.assertFalse(self.beside.exists())

    def test_a_journal_that_cannot_be_finished_stays(self) -> None:
        with palhavento.open(self.path) as store:
            before = self.path.read_bytes()
            store["rate2"] = 5
            said = self.beside.read_bytes()
        for call in ("pwrite", "fdatasync"):
            self.path.write_bytes(before)
            self.beside.write_bytes(said)
            with self.failing(call, errno.EIO, "store"), self.assertRaisesRegex(OSError, "stays.*store.tkf'"):
                palhavento.open(self.path)
            self.assertEqual(self.found_after_a_kill(), self.AFTER)

    def test_a_limit_on_the_length_of_files(self) -> None:
        """A failure of the system's own: the journal does not get its length."""
        def limited(tell: int) -> None:
            store = palhavento.open(self.path)
            resource.setrlimit(resource.RLIMIT_FSIZE, (10_000, resource.RLIM_INFINITY))
            try:
                store["rate2"] = 5
            except OSError as error:
                os.write(tell, f"{error.errno} {disk.NOT_MADE in str(error)} {dict(store)}".encode())
            resource.setrlimit(resource.RLIMIT_FSIZE, (resource.RLIM_INFINITY, resource.RLIM_INFINITY))
            store["rate1"] = 3

        child, listen = forked(limited)
        os.waitpid(child, 0)
        with open(listen, "rb") as told:
            self.assertEqual(told.read().decode(), f"{errno.EFBIG} True {self.BEFORE}")
        self.assertEqual(dict(palhavento.open(self.path)), {"rate1": 3, "rate2": 2})

    def test_a_file_with_holes_gets_its_room_before_the_first_store(self) -> None:
        whole = sound_file(["rate1"], b=16, slots=64)
        self.path.unlink()
        with open(self.path, "wb") as file:
            file.write(whole[:700])
            file.truncate(len(whole))
        self.assertLess(self.path.stat().st_blocks * 512, len(whole))
        with palhavento.open(self.path) as store:
            store["rate2"] = 2
            self.assertGreaterEqual(self.path.stat().st_blocks * 512, len(whole))
            self.assertEqual(dict(store), self.BEFORE)
        self.path.unlink()
        with open(self.path, "wb") as file:
            file.write(whole[:700])
            file.truncate(len(whole))
        with palhavento.open(self.path) as store:
            full = OSError(errno.ENOSPC, os.strerror(errno.ENOSPC))
            with mock.patch("os.posix_fallocate", side_effect=full), self.assertRaisesRegex(OSError, disk.NOT_MADE):
                store["rate2"] = 2

    def test_a_folder_that_cannot_be_written(self) -> None:
        denied = PermissionError(errno.EACCES, os.strerror(errno.EACCES))
        real = os.open

        def denying(path: object, flags: int, *words: object, **more: object) -> int:
            if flags & os.O_CREAT:
                raise denied
            return real(path, flags, *words, **more)

        with palhavento.open(self.path) as store, mock.patch("os.open", denying):
            with self.assertRaisesRegex(PermissionError, disk.NOT_MADE):
                store["rate2"] = 5
            self.assertEqual(dict(store), self.BEFORE)

    def test_an_interrupt_at_any_moment(self) -> None:
        """What is found afterwards is the store before or after, by the writer, a reader and whoever comes after a kill."""
        moments = [("pwrite", 1), ("pwrite", 2), ("fdatasync", 1), ("fstat", 2), ("pwrite", 3), ("fcntl", 1), ("fcntl", 2)]
        for call, turn in moments:
            for late in (False, True):
                with self.subTest(call=call, turn=turn, late=late):
                    self.path.write_bytes(sound_file(["rate1", "rate2"], b=2, slots=3))
                    module = disk.fcntl if call == "fcntl" else os
                    real, count = getattr(module, call), 0

                    def interrupted(*words: object) -> object:
                        nonlocal count
                        count += 1
                        if count != turn:
                            return real(*words)
                        if late:
                            real(*words)
                        raise KeyboardInterrupt

                    with palhavento.open(self.path) as store:
                        with mock.patch.object(module, call, interrupted), self.assertRaises(KeyboardInterrupt):
                            store["rate2"] = 5
                        found = dict(store)
                        self.assertIn(found, (self.BEFORE, self.AFTER))
                        self.assertEqual(self.found_after_a_kill(), found)
                        store["rate1"] = 4
                        self.assertEqual(dict(store), found | {"rate1": 4})
                        self.assertEqual(dict(palhavento.open(self.path, readonly=True)), dict(store))
                        self.assertEqual(self.found_after_a_kill(), dict(store))
                    self.assertEqual(dict(palhavento.open(self.path)), found | {"rate1": 4})


class LeftBehind(InFolder):
    """Journals that a killed writer has left, and what others make of them."""

    def setUp(self) -> None:
        super().setUp()
        self.path.write_bytes(sound_file(["rate1", "rate2"], b=2, slots=3))
        self.beside = self.folder / "store.tkf.journal"
        self.before = self.path.read_bytes()
        with palhavento.open(self.path) as store:
            store["rate2"] = 5
            self.journal = self.beside.read_bytes()
        self.after = self.path.read_bytes()

    def left(self, content: bytes, said: bytes) -> None:
        self.path.write_bytes(content)
        self.beside.write_bytes(said)

    def refused(self, why: str) -> None:
        content, said = self.path.read_bytes(), self.beside.read_bytes()
        for readonly in (True, False):
            with self.assertRaisesRegex(errors.WrongJournal, f"store.tkf.journal: .*{why}"):
                palhavento.open(self.path, create=False, readonly=readonly)
        self.assertEqual((self.path.read_bytes(), self.beside.read_bytes()), (content, said))

    def test_it_is_finished_whatever_the_slot_was(self) -> None:
        torn = [self.before[:at] + self.after[at:] for at in range(16, 144, 9)]
        torn += [self.after[:at] + self.before[at:] for at in range(16, 144, 9)]
        for content in (self.before, self.after, *torn):
            self.left(content, self.journal)
            with palhavento.open(self.path, readonly=True) as reader:
                self.assertEqual(dict(reader), {"rate1": 1, "rate2": 5})
            self.assertEqual(self.path.read_bytes(), content)
            # Only where there was something to finish it is told.
            with self.assertLogs("palhavento") if content != self.after else self.assertNoLogs("palhavento"):
                store = palhavento.open(self.path)
            with store:
                self.assertEqual(dict(store), {"rate1": 1, "rate2": 5})
            self.assertEqual(self.path.read_bytes(), self.after)
            self.assertFalse(self.beside.exists())

    def test_one_of_another_file_is_refused(self) -> None:
        other = bytearray(self.before)
        other[144] = 1
        for content in (sound_file(["a"], b=2, slots=4), sound_file(["a"], b=3, slots=3), bytes(other), b"", b"TKF"):
            self.left(content, self.journal)
            self.refused("another file")

    def test_a_damaged_one_is_refused_or_was_not_needed(self) -> None:
        with palhavento.open(self.path) as store:
            for value in range(6, 9):
                store["rate2"] = value
            store["rate3"] = 3
            said, content = self.beside.read_bytes(), self.path.read_bytes()
        kinds = set()
        for place in [*range(0, 900, 5), *range(4096, 4096 + 6 * 512, 7)]:
            damaged = bytearray(said)
            damaged[place] ^= 0x10
            self.left(content, bytes(damaged))
            try:
                with palhavento.open(self.path, readonly=True) as reader:
                    self.assertEqual(dict(reader), {"rate1": 1, "rate2": 8, "rate3": 3})
                    kinds.add("right")
            except errors.WrongJournal as refused:
                kinds.add(str(refused).split(": ")[1])
        self.assertGreaterEqual(len(kinds), 3, kinds)

    def test_what_is_no_journal_is_refused_and_kept(self) -> None:
        self.left(self.before, b"# a text of mine\n")
        self.refused("no journal")
        later = bytearray(self.journal)
        later[4] = 2
        later[508:512] = journal.zlib.crc32(later[:508]).to_bytes(4, "little")
        self.left(self.before, bytes(later))
        self.refused("version 2")
        self.beside.unlink()
        self.beside.mkdir()
        with self.assertRaisesRegex((errors.WrongJournal, OSError), "store.tkf.journal"):
            palhavento.open(self.path)

    def test_one_without_records_is_removed(self) -> None:
        for said in (b"", bytes(700), self.journal[:512], self.journal[:4096], self.journal[:4100]):
            self.left(self.before, said)
            with palhavento.open(self.path, readonly=True) as reader:
                self.assertEqual(reader["rate2"], 2)
            with palhavento.open(self.path) as store:
                self.assertEqual(store["rate2"], 2)
            self.assertFalse(self.beside.exists())

    def test_one_that_cannot_be_read(self) -> None:
        self.left(self.before, self.journal)
        real = os.open

        def denying(path: object, *words: object, **more: object) -> int:
            if str(path).endswith(".journal"):
                raise PermissionError(errno.EACCES, os.strerror(errno.EACCES), path)
            return real(path, *words, **more)

        for readonly in (True, False):
            with mock.patch("os.open", denying), self.assertRaisesRegex(PermissionError, "store.tkf.journal"):
                palhavento.open(self.path, readonly=readonly)

    def test_a_new_file_in_the_place_of_a_removed_one(self) -> None:
        """Its journal would fit a new file that is as the removed one was at first."""
        self.path.unlink()
        with palhavento.open(self.path, b=2, slots=3) as store:
            store["rate2"] = 5
            said = self.beside.read_bytes()
        self.path.unlink()
        self.beside.write_bytes(said)
        with self.assertLogs("palhavento", "WARNING"), palhavento.open(self.path, b=2, slots=3) as store:
            self.assertEqual(dict(store), {})
        kept = [name for name in os.listdir(self.folder) if name != "store.tkf"]
        self.assertEqual([(self.folder / name).read_bytes() for name in kept], [said])

    def test_one_that_is_removed_while_its_writer_is_at_work(self) -> None:
        with palhavento.open(self.path) as store:
            store["rate1"] = 6
            self.beside.unlink()
            store["rate1"] = 7
            self.assertTrue(self.beside.exists())
        self.assertEqual(os.listdir(self.folder), ["store.tkf"])

    def test_one_that_another_has_put_there_is_not_removed(self) -> None:
        with palhavento.open(self.path) as store:
            store["rate1"] = 6
            self.beside.unlink()
            self.beside.write_bytes(b"mine")
        self.assertEqual(self.beside.read_bytes(), b"mine")

    def test_through_a_link_it_is_the_same(self) -> None:
        link = self.folder / "links" / "link.tkf"
        link.parent.mkdir()
        link.symlink_to(self.path)
        self.left(self.before, self.journal)
        with palhavento.open(link) as store:
            self.assertEqual(store["rate2"], 5)
            store["rate2"] = 6
            self.assertTrue(self.beside.exists())
        self.assertEqual(os.listdir(link.parent), ["link.tkf"])

    def test_a_folder_that_is_renamed_meanwhile(self) -> None:
        folder = self.folder / "a"
        folder.mkdir()
        (folder / "store.tkf").write_bytes(self.before)
        with palhavento.open(folder / "store.tkf") as store:
            store["rate2"] = 6
            folder.rename(self.folder / "b")
            store["rate2"] = 7
        self.assertEqual(os.listdir(self.folder / "b"), ["store.tkf"])
        self.assertEqual(palhavento.open(self.folder / "b" / "store.tkf")["rate2"], 7)

    def test_a_file_of_two_names_is_not_written(self) -> None:
        os.link(self.path, self.folder / "other.tkf")
        with palhavento.open(self.path) as store, self.assertRaisesRegex(OSError, f"2 names.*{disk.NOT_MADE}"):
            store["rate2"] = 6
        (self.folder / "other.tkf").unlink()
        with palhavento.open(self.path) as store:
            store["rate2"] = 6

    def test_one_that_was_made_just_before_an_interrupt(self) -> None:
        with palhavento.open(self.path) as store:
            with mock.patch.object(disk.Disk, "_sync_folder", side_effect=KeyboardInterrupt):
                with mock.patch("os.unlink"), self.assertRaises(KeyboardInterrupt):
                    store["rate2"] = 6
            self.assertTrue(self.beside.exists())
            store["rate2"] = 7
        self.assertEqual(palhavento.open(self.path)["rate2"], 7)

    def test_its_rights_are_those_of_the_store(self) -> None:
        for mode in (0o600, 0o644, 0o664):
            self.path.chmod(mode)
            with palhavento.open(self.path) as store:
                store["rate1"] += 1
                self.assertEqual(self.beside.stat().st_mode & 0o777, mode)


class InTheWay(InFolder):
    def test_a_reader_that_is_stopped_is_named_and_the_put_not_made(self) -> None:
        with palhavento.open(self.path, b=2, slots=3) as store:
            store["rate1"] = 1

            def hold(tell: int) -> None:
                reader = disk.Disk(self.path, readonly=True, sync=False)
                reader._lock(disk.fcntl.F_RDLCK)
                os.write(tell, b"h")
                signal.pause()

            child, listen = forked(hold)
            self.assertEqual(os.read(listen, 1), b"h")
            os.kill(child, signal.SIGSTOP)
            with mock.patch.object(disk, "PATIENCE", 0.2):
                with self.assertRaisesRegex(TimeoutError, rf"\] process {child} \([^)]*\) has .*{disk.NOT_MADE}"):
                    store["rate1"] = 2
            self.assertEqual(store["rate1"], 1)
            os.kill(child, signal.SIGKILL)
            os.waitpid(child, 0)
            os.close(listen)
            store["rate1"] = 3
        self.assertEqual(dict(palhavento.open(self.path)), {"rate1": 3})

    def test_a_writer_that_is_stopped_in_a_store_is_named_to_readers(self) -> None:
        palhavento.open(self.path, b=2, slots=3).close()

        def hold(tell: int) -> None:
            writer = disk.Disk(self.path, readonly=False, sync=False)
            writer._lock(disk.fcntl.F_WRLCK)
            os.write(tell, b"h")
            signal.pause()

        child, listen = forked(hold)
        self.assertEqual(os.read(listen, 1), b"h")
        with mock.patch.object(disk, "PATIENCE", 0.2), self.assertRaisesRegex(TimeoutError, rf"\] process {child} \([^)]*\) has"):
            palhavento.open(self.path, readonly=True)
        os.kill(child, signal.SIGKILL)
        os.waitpid(child, 0)
        os.close(listen)
        self.assertEqual(dict(palhavento.open(self.path, readonly=True)), {})

    def test_another_writer_is_named_and_may_be_waited_for(self) -> None:
        def hold(tell: int) -> None:
            file = disk.Disk(self.path, readonly=False, sync=False)
            os.write(tell, b"h")
            time.sleep(0.3)
            file.close()

        palhavento.open(self.path, b=2, slots=3).close()
        child, listen = forked(hold)
        self.assertEqual(os.read(listen, 1), b"h")
        with self.assertRaisesRegex(errors.Locked, rf"process {child} \("):
            disk.Disk(self.path, readonly=False, sync=False)
        with self.assertRaises(errors.Locked):
            disk.Disk(self.path, readonly=False, sync=False, timeout=0.01)
        disk.Disk(self.path, readonly=False, sync=False, timeout=60).close()
        os.waitpid(child, 0)
        os.close(listen)


class StandardStreams(InFolder):
    def test_no_file_of_ours_takes_the_place_of_a_closed_one(self) -> None:
        """What is written to a standard stream that is closed must not end in the store."""
        palhavento.open(self.path, b=2, slots=3).close()
        program = f"""
import os, sys
sys.path.insert(0, {str(Path(palhavento.__file__).parent.parent)!r})
for stream in range(3):
    os.close(stream)
import palhavento
store = palhavento.open({str(self.path)!r})
store["a"] = 1
reader = palhavento.open({str(self.path)!r}, readonly=True)
palhavento.open({str(self.folder / "new.tkf")!r}, b=2, slots=3)["b"] = 2
for stream in range(3):
    try:
        os.write(stream, b"noise")
    except OSError:
        pass
    else:
        os._exit(1)
"""
        subprocess.run([sys.executable, "-c", program], check=True)
        self.assertEqual(dict(palhavento.open(self.path)), {"a": 1})


if __name__ == "__main__":
    unittest.main()
