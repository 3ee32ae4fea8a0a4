"""What a killed `create` leaves behind is removed by the next one in its folder, and what is in the making is not."""

from __future__ import annotations

import errno
import os
import subprocess
import sys
import unittest
from pathlib import Path
from unittest import mock

from support import InFolder, sound_file

import palhavento
from palhavento import disk

PACKAGE = Path(__file__).resolve().parent.parent
# A process that dies in `create`: before it has linked its file, or after, before it has removed the other name.
DYING = """
import os, signal, sys
sys.path.insert(0, {tests!r})
from test_leftovers import disk, with_names_only
disk._opened = with_names_only
os.{call} = lambda *_, **__: os.kill(os.getpid(), signal.SIGKILL)
disk.create({name!r}, b"TKF")
"""

opened = disk._opened


def with_names_only(path: disk.Path, flags: int, *more: int, **how: int) -> int:
    """As a file system opens a file that has no files without a name."""
    if flags & os.O_TMPFILE == os.O_TMPFILE:
        raise OSError(errno.EOPNOTSUPP, os.strerror(errno.EOPNOTSUPP))
    return opened(path, flags, *more, **how)


class Leftovers(InFolder):
    def files(self) -> list[str]:
        return sorted(os.listdir(self.folder))

    def killed(self, call: str, name: str) -> str:
        """The leftover of a process that is killed where it makes this call."""
        before = self.files()
        program = DYING.format(call=call, name=name, tests=str(PACKAGE / "tests"))
        ended = subprocess.run([sys.executable, "-c", program], cwd=self.folder, timeout=60)
        self.assertEqual(ended.returncode, -9)
        [left] = [file for file in self.files() if file not in before and file != name]
        self.assertRegex(left, r"^\.palhavento-[0-9a-f]{16}$")
        return left

    def test_where_files_need_no_name_there_are_none(self) -> None:
        with mock.patch("os.link", side_effect=KeyboardInterrupt), self.assertRaises(KeyboardInterrupt):
            disk.create(self.path, b"TKF")
        self.assertEqual(self.files(), [])

    def test_the_next_create_removes_them(self) -> None:
        first = self.killed("link", "a.tkf")
        second = self.killed("fsync", "b.tkf")
        self.assertEqual(self.files(), [second])
        self.assertNotEqual(first, second)
        palhavento.open(self.path).close()
        self.assertEqual(self.files(), ["store.tkf"])

    def test_a_second_name_of_a_store_goes_and_the_store_stays(self) -> None:
        left = self.killed("unlink", "store.tkf")
        self.assertEqual((self.folder / left).stat().st_ino, self.path.stat().st_ino)
        self.path.write_bytes(sound_file(["a"], b=2, slots=2))
        palhavento.open(self.folder / "other.tkf").close()
        with palhavento.open(self.path) as store:
            self.assertEqual(dict(store), {"a": 1})
            store["b"] = 2
        self.assertEqual(self.files(), ["other.tkf", "store.tkf"])

    def test_what_is_in_the_making_stays(self) -> None:
        os_link = os.link

        def link(beside: str, target: str, **how: int) -> None:
            with mock.patch("os.link", os_link):
                disk.create(self.folder / "meanwhile.tkf", b"TKF")
            os_link(beside, target, **how)

        with mock.patch("os.link", link), mock.patch.object(disk, "_opened", with_names_only):
            disk.create(self.path, b"TKF")
        self.assertEqual(self.files(), ["meanwhile.tkf", "store.tkf"])

    def test_a_file_taken_for_a_leftover_is_made_again(self) -> None:
        taken = []

        def quickly(path: disk.Path, flags: int, *more: int, **how: int) -> int:
            file = with_names_only(path, flags, *more, **how)
            if flags & os.O_CREAT and not taken:
                taken.append(path)
                os.unlink(self.folder / os.fsdecode(path))
            return file

        with mock.patch.object(disk, "_opened", quickly):
            disk.create(self.path, b"TKF")
        self.assertEqual((self.files(), self.path.read_bytes(), len(taken)), (["store.tkf"], b"TKF", 1))

    def test_files_of_others_stay(self) -> None:
        names = [".palhavento-1", ".palhavento-0123456789abcdef.txt", "x.palhavento-0123456789abcdef"]
        for name in names:
            (self.folder / name).write_text("kept")
        (self.folder / ".palhavento-0123456789abcdef").mkdir()
        (self.folder / ".palhavento-0000000000000000").symlink_to(names[0])
        disk.create(self.path, b"TKF")
        self.assertEqual(len(self.files()), 6)


if __name__ == "__main__":
    unittest.main()
