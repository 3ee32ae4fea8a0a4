"""Stores reach the disk in order, each first in the journal; files appear whole; damage is refused."""

from __future__ import annotations

import contextlib
import os
import time
import unittest
from unittest import mock

from support import WORDS, InFolder, cut_file, sound_file

import palhavento
from palhavento import disk, errors, journal, library


class Stores(InFolder):
    def setUp(self) -> None:
        super().setUp()
        self.path.write_bytes(sound_file(["rate1", "rate2"], b=2, slots=3))

    def asked_by(self, store: palhavento.Store, name: str, value: int | None) -> list[object]:
        """What a put, or a remove where there is no value, asks of the system to be written and synced, in order."""
        asked: list[object] = []

        def which(file: int) -> str:
            return os.path.basename(os.readlink(f"/proc/self/fd/{file}")).removeprefix("store.")

        def pwrite(file: int, content: bytes, offset: int) -> int:
            asked.append((which(file), offset, len(content)))
            return os_pwrite(file, content, offset)

        os_pwrite = os.pwrite
        synced = mock.patch("os.fdatasync", lambda file: asked.append(f"{which(file)} synced"))
        with mock.patch("os.pwrite", pwrite), synced:
            if value is None:
                del store[name]
            else:
                store[name] = value
        return asked

    def test_a_store_is_in_the_journal_before_it_is_in_the_file(self) -> None:
        with palhavento.open(self.path) as store:
            self.assertEqual(
                self.asked_by(store, "rate2", 5),
                [("tkf.journal", 0, 73_728), "tkf synced", ("tkf.journal", 4096, 160), "tkf.journal synced", ("tkf", 16, 128)],
            )
            # A split is two stores, the new slot's first.
            self.assertEqual(
                self.asked_by(store, "rate3", 3),
                [("tkf.journal", 4608, 160), "tkf.journal synced", ("tkf", 144, 128),
                 ("tkf.journal", 5120, 160), "tkf.journal synced", ("tkf", 16, 128)],
            )
            self.assertEqual(
                self.asked_by(store, "rate3", None),
                [("tkf.journal", 5632, 160), "tkf.journal synced", ("tkf", 144, 128)],
            )
            self.assertEqual(dict(store), {"rate1": 1, "rate2": 5})

    def test_the_file_is_synced_when_a_half_of_the_journal_is_full(self) -> None:
        with palhavento.open(self.path) as store:
            asked = [self.asked_by(store, "rate2", value) for value in range(5, 200)]
            turns = [place for place, calls in enumerate(asked) if "tkf synced" in calls]
            self.assertEqual(turns, [0, 64, 128, 192])
            half = 4096 + 64 * 512
            self.assertEqual(
                asked[64],
                ["tkf synced", ("tkf.journal", half, 512 + 400), ("tkf.journal", half + 4096, 160), "tkf.journal synced",
                 ("tkf", 16, 128)],
            )
            # All others wait for the disk once.
            self.assertEqual({tuple(map(str, calls)).count("tkf.journal synced") for calls in asked}, {1})

    def test_a_slot_that_stays_as_it_was_is_not_written(self) -> None:
        with palhavento.open(self.path) as store:
            self.assertEqual(self.asked_by(store, "rate2", 2), [])

    def test_the_sync_can_be_turned_off(self) -> None:
        with palhavento.open(self.path, sync=False) as store:
            store["rate1"] = 7
            self.assertEqual(
                self.asked_by(store, "rate3", 3),
                [("tkf.journal", 4608, 160), ("tkf", 144, 128), ("tkf.journal", 5120, 160), ("tkf", 16, 128)],
            )
            with mock.patch("os.fdatasync") as sync:
                store.close()
            sync.assert_not_called()

    def test_flush_syncs_all_that_was_stored_and_begins_anew(self) -> None:
        with contextlib.closing(disk.Disk(self.path, readonly=False, sync=False)) as file:
            file.flush()
            content = file.read()
            file.store(16, content[144:272])
            with mock.patch("os.fdatasync", side_effect=os.fdatasync) as sync:
                file.flush()
            self.assertEqual(sync.call_count, 2)
            left = (self.folder / "store.tkf.journal").read_bytes()
            self.assertEqual(journal.found(left, self.path.read_bytes())[1:], (0, 3))
        self.assertEqual(os.listdir(self.folder), [self.path.name])

    def test_the_file_after_each_store_is_the_one_a_stop_leaves(self) -> None:
        seen = []
        with palhavento.open(self.path) as store:
            store["rate2"] = 7
            before = self.path.read_bytes()
            states = [library.put(before, library.rebuild(before), b"rate3", 3, 0, limit).file for limit in (0, 1)]
            with mock.patch("os.fdatasync", lambda file: seen.append(self.path.read_bytes())):
                store["rate3"] = 3
                self.assertEqual(seen, states)

    def test_a_closed_store_is_complete_and_alone(self) -> None:
        with palhavento.open(self.path) as store:
            store["rate1"] = 5
            self.assertEqual(sorted(os.listdir(self.folder)), ["store.tkf", "store.tkf.journal"])
        self.assertEqual(os.listdir(self.folder), ["store.tkf"])
        (self.folder / "copy").write_bytes(self.path.read_bytes())
        self.assertEqual(dict(palhavento.open(self.folder / "copy")), {"rate1": 5, "rate2": 2})

    def test_to_open_and_to_read_leave_no_journal(self) -> None:
        with palhavento.open(self.path) as store:
            self.assertEqual(store["rate1"], 1)
            self.assertEqual(os.listdir(self.folder), ["store.tkf"])


class Opening(InFolder):
    def test_a_new_file_appears_whole_and_alone(self) -> None:
        palhavento.open(self.path, b=4, slots=8).close()
        self.assertEqual(os.listdir(self.folder), [self.path.name])
        self.assertEqual(self.path.read_bytes(), library.create(4, 8)[0])
        umask = os.umask(0)
        os.umask(umask)
        self.assertEqual(self.path.stat().st_mode & 0o777, 0o666 & ~umask)

    def test_nothing_appears_when_creating_fails(self) -> None:
        with mock.patch("os.fsync", side_effect=OSError("the disk fails")), self.assertRaises(OSError):
            palhavento.open(self.path)
        self.assertEqual(os.listdir(self.folder), [])

    def test_where_files_without_a_name_are_not_to_be_had(self) -> None:
        real = os.open

        def without(path: object, flags: int, *words: object, **more: object) -> int:
            if flags & os.O_TMPFILE == os.O_TMPFILE:
                raise OSError(95, "Operation not supported")
            return real(path, flags, *words, **more)

        with mock.patch("os.open", without):
            palhavento.open(self.path, b=4, slots=8).close()
            with mock.patch("os.link", side_effect=OSError(5, "the disk fails")), self.assertRaises(OSError):
                disk.create(self.folder / "other", b"")
        self.assertEqual(self.path.read_bytes(), library.create(4, 8)[0])
        self.assertEqual((os.listdir(self.folder), self.path.stat().st_nlink), ([self.path.name], 1))

    def test_a_file_that_another_process_was_first_to_create_is_opened(self) -> None:
        self.path.write_bytes(sound_file(["a"], b=2, slots=2))
        with mock.patch("os.path.exists", return_value=False), palhavento.open(self.path) as store:
            self.assertEqual((dict(store), store.b, store.slots), ({"a": 1}, 2, 2))
        self.assertEqual(os.listdir(self.folder), [self.path.name])

    def test_a_cut_file_is_recovered_and_said_so(self) -> None:
        self.path.write_bytes(cut_file())
        with self.assertLogs("palhavento", "WARNING") as logged, palhavento.open(self.path) as store:
            self.assertEqual(dict(store), {"rate1": 1, "rate2": 2})
        self.assertIn("recovered by freeing slot 1", logged.output[0])
        self.assertEqual(library.check(self.path.read_bytes()), library.SOUND)

    def test_a_reader_leaves_a_cut_file_as_it_is(self) -> None:
        self.path.write_bytes(cut_file())
        with self.assertLogs("palhavento", "INFO"), palhavento.open(self.path, readonly=True) as store:
            self.assertEqual((dict(store), store.check()), ({"rate1": 1, "rate2": 2}, "cut"))
        self.assertEqual(self.path.read_bytes(), cut_file())

    def test_paths_of_every_kind(self) -> None:
        for path in (self.path, str(self.path), os.fsencode(self.path)):
            with palhavento.open(path, sync=False) as store:
                self.assertEqual(store.path, str(self.path))

    def test_a_file_removed_or_replaced_while_it_is_open(self) -> None:
        for away in (os.unlink, lambda path: os.replace(self.folder / "other", path)):
            self.path.write_bytes(sound_file(["a"], b=2, slots=2))
            (self.folder / "other").write_bytes(sound_file(["b"], b=2, slots=2))
            with palhavento.open(self.path) as writer, palhavento.open(self.path, readonly=True) as reader:
                away(self.path)
                # Who only reads looks for its file every so often, by a coarse clock.
                time.sleep(2 * disk.LOOK_AGAIN)
                for call in (lambda: writer.__setitem__("a", 2), lambda: writer.get("a"), lambda: reader.get("a")):
                    with self.assertRaisesRegex(FileNotFoundError, "removed, renamed or replaced"):
                        call()

    def test_a_store_let_go_ends_its_lock(self) -> None:
        palhavento.open(self.path)["a"] = 1
        with palhavento.open(self.path) as store:
            self.assertEqual(store["a"], 1)


class Damage(InFolder):
    def behaves(self, content: bytes) -> bool:
        """Whether a file opens; then names, order and lookups must fit, and else nothing may be changed."""
        # Written over what is there: some file systems wait for the disk when a file is cut to nothing first.
        with open(self.path, "r+b" if self.path.exists() else "wb") as file:
            file.write(content)
            file.truncate()
        try:
            store = palhavento.open(self.path, sync=False)
        except errors.BadFile:
            self.assertEqual(self.path.read_bytes(), content)
            return False
        with store:
            entries = store.range()
            names = [name for name, _ in entries]
            self.assertEqual(names, sorted(set(names)))
            self.assertEqual([(name, store[name]) for name in names], entries)
            store["z"] = 1
            self.assertEqual((store.pop("z"), store.check()), (1, "sound"))
        return True

    def test_every_bit_of_small_files(self) -> None:
        opened = 0
        with self.assertLogs("palhavento", "WARNING"):
            for file in (sound_file(WORDS[:4], b=2, slots=4), cut_file()):
                for place in range(len(file) * 8):
                    changed = bytearray(file)
                    changed[place // 8] ^= 1 << place % 8
                    opened += self.behaves(bytes(changed))
        # Values and most digits of names may be any, those behind a name too; everything else is noticed.
        self.assertGreater(opened, 6 * 64)
        self.assertLess(opened, 1500)

    def test_every_length(self) -> None:
        file = sound_file(WORDS[:4], b=2, slots=4)
        for length in range(len(file)):
            self.assertFalse(self.behaves(file[:length]))
        for more in (1, 128, 40_000):
            self.assertFalse(self.behaves(file + bytes(more)))
        self.assertTrue(self.behaves(file))


if __name__ == "__main__":
    unittest.main()
