"""A reader's short cut gives what the long way gives, and gives way to it whenever anything is unusual."""

from __future__ import annotations

import fcntl
import os
import time
import unittest
from unittest import mock

from support import WORDS, InFolder, sound_file

import palhavento
from palhavento import _system, disk, errors
from palhavento.library import LARGEST_FILE


class ShortCut(InFolder):
    def setUp(self) -> None:
        super().setUp()
        self.path.write_bytes(sound_file(WORDS, b=4, slots=8))
        self.disk = disk.Disk(self.path, readonly=True, sync=False)
        self.addCleanup(self.disk.close)

    def read(self) -> bytes | None:
        return _system.read_locked(_system.prepare(*self.disk.request()))

    def test_it_reads_what_the_long_way_reads(self) -> None:
        self.assertEqual(self.read(), self.disk.read())
        # Also of a file that is none, of which only the beginning counts.
        for content in (b"", b"TKF", bytes(LARGEST_FILE), bytes(LARGEST_FILE + 1), bytes(100_000)):
            with open(self.path, "r+b") as file:
                file.write(content)
                file.truncate()
            self.assertEqual(self.read(), content[: LARGEST_FILE + 1])
            self.assertEqual(self.disk.read(), content[: LARGEST_FILE + 1])

    def test_a_file_that_is_gone(self) -> None:
        for away in (os.unlink, lambda path: os.rename(path, self.folder / "moved"), self.replace):
            self.path.write_bytes(sound_file(WORDS, b=4, slots=8))
            with palhavento.open(self.path, readonly=True) as reader:
                away(self.path)
                time.sleep(disk.LOOK_AGAIN + 0.02)
                self.assertIsNone(_system.read_locked(reader._opened._request))
                with self.assertRaisesRegex(FileNotFoundError, "removed, renamed or replaced"):
                    reader["the"]

    def test_a_file_that_is_cut_short_is_not_read_by_an_old_look(self) -> None:
        request = _system.prepare(*self.disk.request())
        self.assertEqual(_system.read_locked(request), self.path.read_bytes())
        os.truncate(self.path, 100)
        self.assertIsNone(_system.read_locked(request))
        self.assertEqual(_system.read_locked(request), self.path.read_bytes())

    def replace(self, path: os.PathLike[str]) -> None:
        (self.folder / "other").write_bytes(sound_file(["b"], b=2, slots=2))
        os.replace(self.folder / "other", path)

    def test_a_file_that_is_locked(self) -> None:
        with open(self.path, "r+b") as other:
            request = _system.prepare(*self.disk.request())
            fcntl.fcntl(other, fcntl.F_OFD_SETLK, disk._CONTENT[fcntl.F_WRLCK])
            self.assertIsNone(_system.read_locked(request))
            fcntl.fcntl(other, fcntl.F_OFD_SETLK, disk._CONTENT[fcntl.F_RDLCK])
            self.assertEqual(_system.read_locked(request), self.path.read_bytes())
            # It has left no lock behind.
            fcntl.fcntl(other, fcntl.F_OFD_SETLK, disk._CONTENT[fcntl.F_WRLCK])

    def test_a_journal_that_was_left_behind(self) -> None:
        journal = self.folder / "store.tkf.journal"
        with palhavento.open(self.path, sync=False) as writer:
            writer["new"] = 1
            # Its writer is at work, so the file tells the truth.
            self.assertTrue(journal.exists())
            self.assertEqual(self.read(), self.path.read_bytes())
            left = journal.read_bytes()
        journal.write_bytes(left)
        self.assertIsNone(self.read())
        self.assertEqual(self.disk.read(), self.path.read_bytes())
        journal.unlink()
        self.assertEqual(self.read(), self.path.read_bytes())
        journal.symlink_to("nowhere")
        self.assertIsNone(self.read())

    def test_a_store_takes_it_and_goes_the_long_way_where_it_must(self) -> None:
        with palhavento.open(self.path, readonly=True) as reader:
            with mock.patch.object(disk.Disk, "read", side_effect=AssertionError("the long way")):
                self.assertEqual((reader["the"], len(reader), reader.get("x"), reader.check()), (1, 9, None, "sound"))
            with mock.patch.object(_system, "read_locked", return_value=None):
                self.assertEqual((reader["the"], len(reader), reader.get("x"), reader.check()), (1, 9, None, "sound"))

    def test_a_name_as_long_as_names_can_be(self) -> None:
        path = self.folder / ("x" * 255)
        path.write_bytes(self.path.read_bytes())
        with palhavento.open(path, readonly=True) as reader:
            self.assertEqual(reader["the"], 1)

    def test_no_store_takes_it_that_is_closed(self) -> None:
        reader = palhavento.open(self.path, readonly=True)
        opened = reader._opened
        reader.close()
        with mock.patch.object(_system, "read_locked", side_effect=AssertionError("the short cut")):
            with self.assertRaisesRegex(ValueError, "closed"):
                opened.read()
            self.path.write_bytes(b"no store")
        with self.assertRaises(errors.BadFile):
            palhavento.open(self.path, readonly=True)

    def test_what_it_takes(self) -> None:
        request = self.disk.request()
        for at, others in ((1, (-1,)), *((at, (b"", request[at][:-1], request[at] + b"\0")) for at in (2, 3, 4)),
                           *((at, (b"x" * 512, b"a\0b")) for at in (6, 9))):
            for other in others:
                with self.assertRaises(ValueError):
                    _system.prepare(*request[:at], other, *request[at + 1 :])
        for at in range(len(request)):
            for other in (None, "a", [1]):
                with self.assertRaises(TypeError):
                    _system.prepare(*request[:at], other, *request[at + 1 :])
        for count in range(len(request)):
            with self.assertRaises(TypeError):
                _system.prepare(*request[:count])
        for at in (0, 5):
            self.assertIsNone(_system.read_locked(_system.prepare(*request[:at], -1, *request[at + 1 :])))
        self.assertEqual(_system.read_locked(_system.prepare(request[0], 0, *request[2:])), b"")
        for other in (None, 1, request):
            with self.assertRaises(ValueError):
                _system.read_locked(other)


if __name__ == "__main__":
    unittest.main()
