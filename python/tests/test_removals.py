"""Removals merge buckets: what is left, what a kill and a failing disk between the two stores leave, and ranges of names."""

from __future__ import annotations

import doctest
import errno
import os
import random
import subprocess
import sys
import unittest
from unittest import mock

from support import BLANKS, WORDS, InFolder, cut_file, merged_file, sound_file

import palhavento
import removals
from palhavento import calls, disk, errors, layout, library, reasons
from test_documents import PROJECT

VINTAGES = [f"{series}.{country}.{year}q{quarter}" for year in range(2012, 2020) for series in ("gdp", "cpi")
            for country in ("at", "de", "es") for quarter in range(1, 5)]


def merges(file: bytes, trie: bytes, name: str) -> bool:
    return calls.remove(file, trie, name, 1)[0] == library.STOPPED


class Merges(unittest.TestCase):
    def test_a_stopped_merge_is_cut_and_counts_as_made(self) -> None:
        for version in library.VERSIONS:
            cut, made = merged_file(version)
            self.assertEqual((reasons.state(cut), reasons.state(made)), ("cut", "sound"))
            freed = library.recover(cut, limit=1)
            self.assertEqual((freed.answer, freed.word, freed.file), (library.FREED, 1, made))
            left = calls.rows(made, library.rebuild(made), "a", "z")
            runs = (300, 500) if version == 3 else (0, 0)
            self.assertEqual(left, [("rate3", 3, runs[0]), ("rate5", 5, runs[1])])
            self.assertEqual(layout.stats(made, library.rebuild(made)).used, 1)

    def test_every_removal_leaves_what_the_rule_says(self) -> None:
        chance = random.Random(3)
        seen = {True: 0, False: 0}
        for turn in range(30):
            b, version = chance.choice((2, 3, 4, 5, 16)), turn % 3 + 1
            names = chance.sample(VINTAGES, 5 * b)
            file, trie = library.create(b, 64, version)
            for name in names:
                _, file, trie = calls.put(file, trie, name, chance.getrandbits(64), 7, 2)
            for name in chance.sample(names, len(names)):
                before = layout.contents(file)
                rows = calls.rows(file, trie, "!", "}")
                place = next(place for place, (_, entries) in enumerate(before) if name in dict(entries))
                count = before[place][0].entries - 1
                right = before[place + 1][0].entries if place + 1 < len(before) else 99
                left = before[place - 1][0].entries if place else 99
                merge = place if count + right <= b // 2 else place - 1 if left + count <= b // 2 else None
                self.assertEqual(merges(file, trie, name), merge is not None)
                _, file, after = calls.remove(file, trie, name, 2)
                bounds = [(bucket.slot, bucket.lower, bucket.upper) for bucket, _ in before]
                if merge is None:
                    self.assertEqual(after, trie)
                else:
                    self.assertEqual(after, library.rebuild(file))
                    bounds[merge : merge + 2] = [(bounds[merge][0], bounds[merge][1], bounds[merge + 1][2])]
                trie = after
                self.assertEqual([(bucket.slot, bucket.lower, bucket.upper) for bucket in layout.buckets(file)], bounds)
                self.assertEqual(calls.rows(file, trie, "!", "}"), [row for row in rows if row[0] != name])
                seen[merge is not None] += 1
            self.assertEqual((layout.stats(file, trie).used, layout.trie(trie).count), (1, 0))
        self.assertGreater(min(seen.values()), 100)

    def test_a_removal_merges_once(self) -> None:
        """So what is left when all names are gone is mostly one bucket, but not always: here two."""
        for version in (2, 3):
            file, trie = library.create(2, 8, version)
            for step in "a ma mb -a mbx z -z mc -mbx -ma -mb -mc".split():
                if step.startswith("-"):
                    _, file, trie = calls.remove(file, trie, step[1:], 2)
                else:
                    _, file, trie = calls.put(file, trie, step, 0, 0, 2)
            self.assertEqual([(bucket.upper, bucket.entries) for bucket in layout.buckets(file)], [("a", 0), ("", 0)])


class Stores(InFolder):
    def open(self, **words: object) -> palhavento.Store:
        store = palhavento.open(self.path, **{"b": 4, "slots": 64, "sync": False, **words})  # type: ignore[arg-type]
        self.addCleanup(store.close)
        return store

    def test_vintages_deleted_whole(self) -> None:
        for version in library.VERSIONS:
            with self.open(version=version) as store:
                most = 0
                for year in range(2012, 2020):
                    store.update({name: year for name in VINTAGES if f".{year}q" in name})
                    most = max(most, store.stats().used)
                    for name in VINTAGES:
                        if f".{year - 2}q" in name:
                            del store[name]
                    self.assertEqual(sorted(name for name in VINTAGES if f"{year - 1}q" in name or f"{year}q" in name), list(store))
                    self.assertEqual(store.check(), "sound")
                # Two vintages of 24 names are held at a time, and three for a moment; the slots of others were given back.
                self.assertLess(most, 30)
                store.clear()
                stats = store.stats()
                self.assertEqual((stats.used, stats.strings, stats.entries, store.trie().count), (1, 0, 0, 0))
                store.update(dict.fromkeys(VINTAGES[:100], 1))
                self.assertEqual(len(store), 100)
            self.path.unlink()

    def test_a_range(self) -> None:
        store = self.open(slots=16)
        store.update({name: place for place, name in enumerate(WORDS + BLANKS)})
        held = dict(store)
        told: list[tuple[int, int]] = []
        self.assertEqual(store.remove_range("a", "i", lambda *so_far: told.append(so_far)), 7)
        self.assertEqual(told, [(done, 7) for done in range(1, 8)])
        self.assertEqual(dict(store), {name: value for name, value in held.items() if not "a" <= name <= "i"})
        self.assertEqual((store.remove_range("a", "i"), store.remove_range("z", "a"), store.check()), (0, 0, "sound"))
        with self.assertRaises(errors.IllegalName):
            store.remove_range("a", "~")
        with self.assertRaises(OSError):
            self.open(readonly=True).remove_range("a", "z")
        self.assertEqual(len(store), len(held) - 7)

    def test_a_range_that_fails_says_how_far_it_came(self) -> None:
        store = self.open(slots=16)
        store.update(dict.fromkeys(WORDS, 1))

        def stop(done: int, total: int) -> None:
            if done == 4:
                self.path.unlink()

        with self.assertRaises(FileNotFoundError) as caught:
            store.remove_range("!", "}", stop)
        self.assertEqual((caught.exception.removed, caught.exception.__notes__), (4, ["Of 9 names 4 were removed before."]))

    def test_killed_in_a_range_and_begun_again(self) -> None:
        """The writer is killed before each of the stores in turn; some of these are the second ones of merges."""
        program = """if True:
            import os, sys
            sys.path.insert(0, sys.argv[1])
            import palhavento
            from palhavento import disk
            store, left, write = disk.Disk.store, int(sys.argv[3]), disk.write
            def stored(self, *given):
                global left
                if not left:
                    os.kill(os.getpid(), 9)
                left -= 1
                store(self, *given)
            disk.Disk.store = stored
            palhavento.open(sys.argv[2], sync=False).remove_range("rate2", "rate9")
        """
        place = os.path.dirname(os.path.dirname(palhavento.__file__))
        names = [f"rate{place}" for place in range(10)]
        whole = sound_file(names, 4, 8, 3)
        states = set()
        for stores in range(99):
            self.path.write_bytes(whole)
            ended = subprocess.run([sys.executable, "-c", program, place, str(self.path), str(stores)], capture_output=True, text=True)
            with self.open(readonly=True) as reader:
                states.add(str(reader.check()))
                left = list(reader)
            self.assertEqual(left, [name for name in names if not "rate2" <= name <= "rate9" or name in left])
            with self.assertNoLogs("palhavento", "ERROR"), self.open() as store:
                self.assertEqual((list(store), store.check()), (left, "sound"))
                store.remove_range("rate2", "rate9")
                self.assertEqual(store.entries(), [("rate0", (1, 100)), ("rate1", (2, 200))])
            if ended.returncode == 0:
                break
            self.assertEqual((ended.returncode, ended.stderr), (-9, ""))
        self.assertEqual(states, {"sound", "cut"})
        # Eight names, and one store more for each merge.
        self.assertGreater(stores, 9)

    def test_a_disk_that_fails_between_the_two_stores_of_a_merge(self) -> None:
        for version in library.VERSIONS:
            file = sound_file([f"rate{place}" for place in range(1, 6)], 4, 3, version)
            self.path.write_bytes(file)
            store = self.open()
            for name in ("rate1", "rate2"):
                del store[name]
            real, stores = disk.Disk.store, []

            def failing(self: disk.Disk, *given: object, real=real, stores=stores) -> None:
                stores.append(given)
                if len(stores) == 2:
                    raise OSError(errno.ENOSPC, f"No space left on device; {disk.NOT_MADE}", self.path)
                real(self, *given)

            with mock.patch.object(disk.Disk, "store", failing), self.assertRaises(OSError) as caught:
                del store["rate4"]
            self.assertIn(f"No space left on device; {disk.MADE}", str(caught.exception))
            self.assertNotIn(disk.NOT_MADE, str(caught.exception))
            self.assertEqual((len(stores), store.check()), (2, "cut"))
            with self.open(readonly=True) as reader, self.assertLogs("palhavento", "INFO"):
                self.assertEqual(list(reader), ["rate3", "rate5"])
            with self.assertLogs("palhavento", "WARNING") as log:
                self.assertEqual(list(store), ["rate3", "rate5"])
            self.assertIn("cut in a split or a merge; recovered by freeing slot 1", log.output[0])
            self.assertEqual((store.check(), store.stats().used), ("sound", 1))
            store.close()

    def test_a_put_that_fails_between_its_two_stores_was_not_made(self) -> None:
        self.path.write_bytes(library.recover(cut_file(), 1).file)
        store = self.open()
        real, stores = disk.Disk.store, []

        def failing(self: disk.Disk, *given: object) -> None:
            stores.append(given)
            if len(stores) == 2:
                raise OSError(errno.ENOSPC, f"No space left on device; {disk.NOT_MADE}", self.path)
            real(self, *given)

        with mock.patch.object(disk.Disk, "store", failing), self.assertRaisesRegex(OSError, disk.NOT_MADE):
            store["rate3"] = 3
        with self.assertLogs("palhavento", "WARNING"):
            self.assertEqual(list(store), ["rate1", "rate2"])

    def test_a_reader_beside_merges_sees_each_removal_whole(self) -> None:
        store = self.open(slots=16)
        store.update(dict.fromkeys(WORDS, 1))
        reader = self.open(readonly=True)
        real = disk.Disk.store
        seen = []

        def looked_on(self: disk.Disk, *given: object) -> None:
            seen.append(list(reader))
            real(self, *given)
            seen.append(list(reader))

        with mock.patch.object(disk.Disk, "store", looked_on), self.assertLogs("palhavento", "INFO"):
            for removed, name in enumerate(WORDS):
                seen.clear()
                del store[name]
                before, after = sorted(WORDS[removed:]), sorted(WORDS[removed + 1 :])
                # From the first store on it is gone, whether there is a second one or not.
                self.assertEqual(seen, [before, *[after] * (len(seen) - 1)])


class Table(unittest.TestCase):
    def test_its_examples(self) -> None:
        self.assertEqual(doctest.testmod(removals).failed, 0)

    def test_some_lines_are_those_of_the_document(self) -> None:
        shown = (PROJECT / "docs/PERFORMANCE.md").read_text(encoding="utf-8")
        for kind, half, b in (("random", "the lower half", 4), ("of the benchmark", "at random", 16)):
            self.assertTrue(removals.line(kind, half, b) in shown, "python3 python/removals.py prints the table anew")
        self.assertTrue(removals.HEADING in shown)


if __name__ == "__main__":
    unittest.main()
