"""A power loss or a kill at any moment of random histories loses nothing; without any one of the waits for the disk it does.

`crash.py` has the machine that fails, and a command for more crash states than these.
"""

from __future__ import annotations

import logging
import unittest
from collections import Counter
from collections.abc import Callable
from unittest import mock

from crash import FOLDER, Machine, Plain, Trial

from palhavento import disk, journal


def losses(counts: Counter[str]) -> int:
    return sum(count for what, count in counts.items() if what.startswith(("lost", "refused")))


class Crashes(unittest.TestCase):
    def setUp(self) -> None:
        logging.disable(logging.WARNING)
        self.addCleanup(logging.disable, logging.NOTSET)

    def counted(self, states: int, kind: Callable[..., object] = disk.Disk, faulty: bool = False) -> Counter[str]:
        trial = Trial(kind, faulty)
        seed = 0
        while trial.counts["states"] < states:
            trial.world(seed, states=120)
            seed += 1
        return trial.counts

    def test_nothing_is_lost(self) -> None:
        counts = self.counted(15_000, faulty=True)
        self.assertEqual(losses(counts), 0, counts)
        for seen in ("journals finished", "store under way is made", "openings that failed", "stores that failed"):
            self.assertGreater(counts[seen], 500, counts)
        self.assertGreater(counts["merges"], 50, counts)

    def test_without_a_journal_much_is(self) -> None:
        counts = self.counted(2_000, Plain)
        self.assertGreater(losses(counts), 20, counts)

    def test_without_any_one_of_the_waits_something_is(self) -> None:
        synced = Machine.fdatasync

        def only(wanted: Callable[[Machine, int], bool]) -> Callable[[Machine, int], None]:
            return lambda machine, file: synced(machine, file) if wanted(machine, machine.open_files[file]) else None

        def is_store(machine: Machine, node: int) -> bool:
            return node == 1

        def is_journal(machine: Machine, node: int) -> bool:
            return node not in (FOLDER, 1)

        def is_folder(machine: Machine, node: int) -> bool:
            return node == FOLDER

        for left_out in (is_store, is_journal, is_folder):
            with self.subTest(left_out=left_out.__name__):
                sync = only(lambda machine, node: not left_out(machine, node))
                with mock.patch.object(Machine, "fdatasync", sync), mock.patch.object(Machine, "fsync", sync):
                    self.assertGreater(losses(self.counted(3_000)), 0)

    def test_with_another_order_something_is(self) -> None:
        append = journal.Journal.append

        def late(self: journal.Journal, number: int, slot: bytes) -> None:
            """The record comes after the slot is in the file."""
            self.late = number, slot

        def lock(self: disk.Disk, kind: int) -> None:
            pass

        def unlock(self: disk.Disk) -> None:
            if self._journal and (said := self._journal.__dict__.pop("late", None)):
                append(self._journal, *said)

        with mock.patch.object(journal.Journal, "append", late), mock.patch.object(disk.Disk, "_lock", lock):
            with mock.patch.object(disk.Disk, "_unlock", unlock):
                self.assertGreater(losses(self.counted(3_000)), 0)


if __name__ == "__main__":
    unittest.main()
