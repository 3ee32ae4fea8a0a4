"""A store written anew holds the same entries, in no more slots, and fits wherever one of the orders that are tried does."""

from __future__ import annotations

import os
import random
import unittest

from support import BLANKS, InFolder, cut_file, sound_file

import palhavento
from palhavento import compacting, layout, library

NUMBERED = [f"name{number:03}" for number in range(299)]


def shuffled(names: list[str], seed: int) -> list[str]:
    return random.Random(seed).sample(names, len(names))


def words(count: int, seed: int, digits: str = "abcdefghijklmnopqrstuvwxyz", length: int = 8) -> list[str]:
    chance = random.Random(seed)
    found: set[str] = set()
    while len(found) < count:
        name = "".join(chance.choices(digits, k=chance.randrange(length // 2, length + 1)))
        # A blank is legal inside a name alone.
        if name == name.strip():
            found.add(name)
    return sorted(found)


class Compacting(InFolder):
    def setUp(self) -> None:
        super().setUp()
        self.new = self.folder / "new.tkf"

    def compacted(self, file: bytes, **sizes: int) -> palhavento.Stats:
        """The counts of a file written anew, which must hold the same entries and be sound."""
        self.path.write_bytes(file)
        self.new.unlink(missing_ok=True)
        stats = palhavento.compact(self.path, self.new, **sizes)
        self.assertEqual(self.path.read_bytes(), file)
        with palhavento.open(self.path, readonly=True) as old, palhavento.open(self.new, readonly=True) as new:
            self.assertEqual((new.check(), new.range()), ("sound", old.range()))
            kept = old.entries() if new.version == 3 else [(name, palhavento.Content(value, 0)) for name, value in old.range()]
            self.assertEqual(new.entries(), kept)
            self.assertEqual((new.stats().used, new.stats().strings), (stats.used, stats.strings))
        return stats

    def test_names_that_came_in_descending_order(self) -> None:
        self.assertEqual(self.compacted(sound_file(NUMBERED[::-1], b=16, slots=64)).used, 19)

    def test_one_set_in_any_order_that_it_came(self) -> None:
        names = words(600, seed=1)
        used = {self.compacted(sound_file(shuffled(names, seed), b=16, slots=64)).used for seed in range(3)}
        self.assertEqual(used, {38})

    def test_a_store_can_be_packed_to_the_brim(self) -> None:
        for b, slots, names in (
            (16, 64, words(1024, seed=2)),
            (16, 64, [f"name{number:04}" for number in range(1024)]),
            (5, 64, [f"run.{number}" for number in range(320)]),
            (2, 64, words(128, seed=3, length=24)),
            (3, 8, ["a" * length for length in range(1, 25)]),
            (4, 64, words(256, seed=4, digits="ab ", length=16)),
            (3, 8, ["a", *("a" + " " * length + "b" for length in range(23))]),
            (16, 4, ["z" * 23 + chr(digit) for digit in range(0x21, 0x61)]),
        ):
            plain = sorted(name.encode() for name in names)
            for version in library.VERSIONS:
                empty = library.create(b, slots, version)
                file, trie = compacting._filled(empty, compacting._packed(plain, b, version, 0.0), dict.fromkeys(plain, (7, 8)))
                stats = layout.stats(file, trie)
                self.assertEqual((stats.entries, stats.used, library.check(file)), (b * slots, slots, library.SOUND))
                # No other order comes near.
                for order in (plain, plain[::-1], random.Random(0).sample(plain, len(plain))):
                    if b > 3:
                        with self.assertRaises(compacting._Full):
                            compacting._filled(empty, [(name, True) for name in order], {})

    def test_every_way_ends_with_every_name_and_no_other(self) -> None:
        for b in (2, 3, 5, 16):
            for names in ([], ["a"], words(40, b), words(90, b, "ab", 12), ["a" * length for length in range(1, 25)], BLANKS,
                          words(60, b, "a  ", 24), ["a" + " " * length + "b" for length in range(23)],
                          ["}" * 23 + chr(digit) for digit in range(0x60, 0x7E)], [f"run.{number}" for number in range(9 * b)]):
                plain = sorted(name.encode() for name in names)
                # Version 3 splits as version 2, so its ways are the same.
                self.assertEqual(list(compacting._ways(plain, b, 3)), list(compacting._ways(plain, b, 2)))
                for steps in [*compacting._ways(plain, b, 1), *compacting._ways(plain, b, 2)]:
                    held: set[bytes] = set()
                    for name, is_put in steps:
                        self.assertEqual(name in held, not is_put)
                        held ^= {name}
                    self.assertEqual(held, set(plain))

    def test_it_is_never_fuller_than_before(self) -> None:
        for seed in range(8):
            chance = random.Random(seed)
            b, slots = chance.randrange(2, 17), chance.randrange(4, 65)
            file, trie = library.create(b, slots, seed % 3 + 1)
            for name in shuffled(words(200, seed, "abcd ", 12), seed):
                try:
                    _, file, trie, *_ = library.put(file, trie, name.encode(), chance.getrandbits(64), chance.getrandbits(64), 2)
                except palhavento.PalhaventoError:
                    break
            self.assertLessEqual(self.compacted(file).used, layout.stats(file, trie).used)

    def test_where_strings_are_scarce_the_old_store_is_copied_at_worst(self) -> None:
        # Groups that differ in their first and last digits alone: each costs 24 strings, and only ten fit.
        names = [group * 23 + digit for group in "abcdefghij" for digit in "0123"]
        self.assertLessEqual(self.compacted(sound_file(names, b=2, slots=64)).strings, 256)

    def test_other_sizes(self) -> None:
        file = sound_file(NUMBERED[:100], b=4, slots=64)
        stats = self.compacted(file, b=16)
        self.assertEqual((stats.b, stats.slots, stats.entries), (16, 64, 100))
        stats = self.compacted(file, b=16, slots=10)
        self.assertEqual((stats.b, stats.slots), (16, 10))

    def test_the_version_stays_or_is_the_one_that_is_asked_for(self) -> None:
        # A store that no way but its own arrangement fits: in either version it is the old one's copy at worst.
        scarce = [group * 23 + digit for group in "abcdefghij" for digit in "0123"]
        for names, b in ((NUMBERED[:100], 4), (scarce, 2)):
            for version in library.VERSIONS:
                file = sound_file(names, b=b, slots=64, version=version)
                self.assertEqual(self.compacted(file).version, version)
                for other in library.VERSIONS:
                    self.assertEqual(self.compacted(file, version=other).version, other)
                    with palhavento.open(self.new, readonly=True) as store:
                        self.assertEqual(store.version, other)
        with self.assertRaisesRegex(palhavento.WrongSize, "version = 4, b = 2, slots = 64"):
            palhavento.compact(self.path, self.folder / "other.tkf", version=4)

    def test_a_file_as_another_version_has_it(self) -> None:
        for names, b in ((BLANKS, 2), (NUMBERED[:40], 5), ([], 16)):
            files = {version: sound_file(names, b, 32, version) for version in library.VERSIONS}
            for version, file in files.items():
                self.assertEqual(compacting._of_version(file, version), file)
                for other in library.VERSIONS:
                    turned = compacting._of_version(file, other)
                    self.assertEqual((len(turned), library.check(turned)), (len(files[other]), library.SOUND))
                    self.assertEqual(layout.buckets(turned), layout.buckets(file))
                    # Versions 2 and 3 split alike, so the names alone decide where they are.
                    if (version, other) == (3, 2):
                        self.assertEqual(turned, files[2])

    def test_what_does_not_fit_writes_nothing(self) -> None:
        self.path.write_bytes(sound_file(NUMBERED[:100], b=16, slots=64))
        with self.assertRaisesRegex(palhavento.FileFull, r"new\.tkf: of 100 names 80 fit at best: "):
            palhavento.compact(self.path, self.new, b=2, slots=40)
        with self.assertRaises(palhavento.WrongSize):
            palhavento.compact(self.path, self.new, b=17)
        self.assertEqual(os.listdir(self.folder), ["store.tkf"])

    def test_it_writes_over_nothing(self) -> None:
        self.path.write_bytes(sound_file(["a"], b=2, slots=2))
        for target in (self.path, self.folder):
            with self.assertRaises(FileExistsError):
                palhavento.compact(self.path, target)
        with self.assertRaises(FileNotFoundError):
            palhavento.compact(self.new, self.path)

    def test_an_empty_a_cut_and_a_bad_store(self) -> None:
        self.assertEqual(self.compacted(sound_file([], b=2, slots=2)).entries, 0)
        with self.assertLogs("palhavento", "INFO"):
            self.assertEqual(self.compacted(cut_file()).entries, 2)
        self.path.write_bytes(b"TKF")
        with self.assertRaises(palhavento.BadFile):
            palhavento.compact(self.path, self.folder / "other.tkf")


if __name__ == "__main__":
    unittest.main()
