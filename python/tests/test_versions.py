"""The versions of a file: where each splits a bucket, which one a new file has, which one keeps runs, and what is told of them."""

from __future__ import annotations

import doctest
import os
import random
import subprocess
import sys
import threading
import unittest

from support import BLANKS, WORDS, InFolder, cut_file, sound_file

import palhavento
import versions
from palhavento import errors, layout, library, reasons
from test_documents import PROJECT


def string_of(key: str, last: str) -> str:
    """R7.4: the shortest beginning of a split key that is below as many digits of the last name."""
    return next(key.ljust(24)[:length] for length in range(1, 25) if key.ljust(24)[:length] < last.ljust(24)[:length])


def split_of(names: list[str], version: int) -> str:
    """R7.3: the string at which b + 1 names, in order, are split."""
    b = len(names) - 1
    middle = b // 2 + 1
    positions = [middle] if version == 1 else [place for place in (middle, middle - 1, middle + 1) if 1 <= place <= b]
    # Of several with the fewest digits `min` gives the first.
    return min((string_of(names[place - 1], names[-1]) for place in positions), key=len)


class Splits(unittest.TestCase):
    def split(self, names: list[str], version: int) -> tuple[str, list[str], list[str]]:
        """Where a bucket of b names splits with one more; and which names stay, and which move."""
        file = sound_file(names, len(names) - 1, 2, version)
        self.assertEqual((library.check(file), layout.version(file)), (library.SOUND, version))
        (low, stay), (high, move) = layout.contents(file)
        self.assertEqual((low.slot, high.slot, low.lower, high.upper, low.upper), (0, 1, "", "", high.lower))
        return low.upper, [name for name, _ in stay], [name for name, _ in move]

    def test_by_the_rule_of_its_version(self) -> None:
        chance = random.Random(4)
        differ = 0
        for turn in range(600):
            b, letters = 2 + turn % 15, chance.choice(("ab", "ab ", "abcdefghij"))
            names: set[str] = set()
            while len(names) <= b:
                name = "".join(chance.choices(letters, k=chance.choice((1, 2, 3, 5, 8, 24))))
                names |= {name} if name == name.strip() and name else set()
            found = []
            for version in library.VERSIONS:
                string, stay, move = self.split(chance.sample(sorted(names), b + 1), version)
                self.assertEqual(string, split_of(sorted(names), version))
                self.assertEqual((stay, move), ([name for name in sorted(names) if name.ljust(24)[: len(string)] <= string],
                                                [name for name in sorted(names) if name.ljust(24)[: len(string)] > string]))
                found.append(string)
            self.assertLessEqual(len(found[1]), len(found[0]))
            self.assertEqual(found[2], found[1])
            differ += found[0] != found[1]
        self.assertGreater(differ, 80)

    def test_situations(self) -> None:
        for text, first, second in (
            # Equal in length: the middle one wins.
            ("a and of the to", "o", "o"), ("a and in is of", "i", "i"), ("rate1 rate2 rate3", "rate2", "rate2"),
            ("a b c", "b", "b"), ("a b c d e f", "c", "c"),
            # The one before it is shorter.
            ("a and i in is", "i ", "a"), ("a rate1 rate2", "rate1", "a"), ("a b ra rb rc rd", "ra", "b"),
            # The one before that would be shorter still, and is not asked.
            ("a ma mba mbb mbc", "mba", "ma"),
        ):
            names = text.split()
            self.assertEqual([self.split(names, version)[0] for version in library.VERSIONS], [first, second, second], text)

    def test_one_versions_split_is_sound_in_the_other(self) -> None:
        for names, b in ((WORDS, 4), (BLANKS, 2)):
            for version in (1, 2):
                file = sound_file(names, b, 16, version)
                other = file[:3] + bytes([3 - version]) + file[4:]
                self.assertEqual((reasons.state(other), library.rebuild(other)), ("sound", library.rebuild(file)))
                for place, name in enumerate(names, 1):
                    self.assertEqual(library.look_up(other, library.rebuild(file), name.encode()), (place, 0))
                # Version 3 has longer entries.
                self.assertEqual(reasons.state(file[:3] + b"\3" + file[4:]).faults[0].rule, "R2.7")
        cut = bytearray(cut_file())
        cut[3] = 2
        self.assertEqual(reasons.state(bytes(cut)), "cut")
        for version in library.VERSIONS:
            self.assertEqual(reasons.state(cut_file(version)), "cut")


class Stores(InFolder):
    def test_a_new_store_has_the_newest_or_the_one_that_is_asked_for(self) -> None:
        for words, version in (({}, 2), ({"version": 1}, 1), ({"version": 2}, 2), ({"version": 3}, 3)):
            with palhavento.open(self.path, b=4, slots=8, sync=False, **words) as store:
                self.assertEqual((store.version, store.stats().version, self.path.read_bytes()[3:5]),
                                 (version, version, bytes([version, 0])))
                store.update(dict.fromkeys(WORDS, 1))
                self.assertEqual(store.buckets()[0].upper, ["i ", "a", "a"][version - 1])
                self.assertIn(f">version {version}<", store.svg())
            # A file that is there keeps its own.
            for other in (1, 2, 3, 4, 0):
                with palhavento.open(self.path, version=other) as store:
                    self.assertEqual(store.version, version)
            self.path.unlink()

    def test_a_version_that_is_not_offered(self) -> None:
        for version in (0, 4, 255, 256, 257, 258, 259, -1, 2**16 + 1, 2**64 + 1):
            with self.assertRaises(errors.WrongSize) as caught:
                palhavento.open(self.path, version=version)
            self.assertTrue(str(caught.exception).startswith(f"version = {version}, b = 16, slots = 64: "))
        self.assertEqual(os.listdir(self.folder), [])
        file = bytearray(library.create(2, 1)[0])
        for low, high in ((0, 0), (4, 0), (1, 1), (2, 1), (3, 1), (0, 1), (0, 2)):
            file[3:5] = low, high
            says = f"header: the version is {low + 256 * high}, and may be 1, 2 or 3 (R2.3)"
            self.assertEqual(reasons.state(bytes(file)).reason, says)


class EveryVersion(unittest.TestCase):
    def test_stores_of_every_version_do_the_same(self) -> None:
        """The tests of the mapping, of its refusals, of failing disks and of readers, where new stores are of another version."""
        program = (
            "import sys, unittest; sys.path.insert(0, sys.argv[1]); import support, palhavento;"
            "usual = list(palhavento.open.__defaults__); assert usual[6] == 2; usual[6] = int(sys.argv[2]);"
            "palhavento.open.__defaults__ = tuple(usual);"
            "unittest.main(None, argv=['', 'test_mapping', 'test_errors', 'test_faults', 'test_sharing', 'test_reading'])"
        )
        for version in (1, 3):
            ran = subprocess.run([sys.executable, "-c", program, os.path.dirname(__file__), str(version)], capture_output=True, text=True)
            self.assertEqual(ran.returncode, 0, ran.stderr)
            self.assertRegex(ran.stderr, r"Ran 1\d\d tests")


LARGEST = 2**64 - 1


class Runs(InFolder):
    def open(self, version: int = 3, **words: object) -> palhavento.Store:
        store = palhavento.open(self.path, b=4, slots=8, sync=False, version=version, **words)  # type: ignore[arg-type]
        self.addCleanup(store.close)
        return store

    def refused(self, store: palhavento.Store, run: int, held: int, call: object, *given: object) -> None:
        """A put is refused for its run, tells both, and changes nothing."""
        before = self.path.read_bytes()
        with self.assertRaises(palhavento.OlderRun) as caught:
            call(*given)  # type: ignore[operator]
        refused = caught.exception
        self.assertEqual((refused.number, refused.run, refused.held), (12, run, held))
        self.assertIn(f"The name is held with a higher run: run {held} wrote it, and this put is of run {run}.", str(refused))
        self.assertEqual((self.path.read_bytes(), store.check()), (before, "sound"))

    def test_equal_older_and_newer_runs(self) -> None:
        store = self.open()
        self.assertIsNone(store.put("gdp", 1))
        for run, value in ((0, 2), (1, 3), (1, 3), (7, LARGEST), (LARGEST - 1, 0), (LARGEST, 4), (LARGEST, 5)):
            old = store.entry("gdp")
            self.assertEqual(store.put("gdp", value, run=run), old)
            self.assertEqual((store.entry("gdp"), store["gdp"]), ((value, run), value))
            for older in {0, run // 2, run - 1} - {-1, run}:
                self.refused(store, older, run, store.put, "gdp", 9, older)
        # What gives no run gives the store's own, which is 0.
        self.refused(store, 0, LARGEST, store.__setitem__, "gdp", 9)
        self.refused(store, 0, LARGEST, store.increment, "gdp")
        self.refused(store, 0, LARGEST, store.update, [("gdp", 9), ("cpi", 1)])
        self.assertEqual(store.setdefault("gdp", 9), 5)
        self.assertEqual(store.entries(), [("gdp", (5, LARGEST))])

    def test_a_removal_forgets_the_run(self) -> None:
        store = self.open()
        for forget in (lambda: store.__delitem__("gdp"), lambda: store.pop("gdp"), store.popitem, store.clear):
            store.put("gdp", 1, run=LARGEST)
            forget()
            self.assertIsNone(store.put("gdp", 2, run=0))
            self.assertEqual(store.entry("gdp"), (2, 0))

    def test_a_stores_own_run(self) -> None:
        with self.open(run=7) as store:
            store["a"] = 1
            store.update(b=2, c=3)
            self.assertEqual((store.increment("d", 4), store.setdefault("e", 5), store.put("f", 6)), (4, 5, None))
            self.assertIsNone(store.put("g", 7, run=8))
            self.assertEqual(dict(store.entries()), {name: (value, 7 + (name == "g")) for value, name in enumerate("abcdefg", 1)})
            # Two stores of one file have each their own.
            with self.open(run=6) as other:
                self.assertEqual((store.run, other.run), (7, 6))
                self.refused(other, 6, 7, other.__setitem__, "a", 9)
                store["a"] = 8
        self.assertEqual(self.open().entry("a"), (8, 7))

    def test_what_is_no_run(self) -> None:
        store = self.open()
        for run, kind in ((-1, OverflowError), (2**64, OverflowError), (1.5, TypeError), ("7", TypeError)):
            with self.assertRaisesRegex(kind, "^a run is "):
                store.put("gdp", 1, run=run)  # type: ignore[arg-type]
            with self.assertRaisesRegex(kind, "^a run is "):
                self.open(run=run)
        self.assertEqual(len(store), 0)

    def test_other_versions_ignore_it_and_give_0(self) -> None:
        for version in (1, 2):
            with self.open(version) as store:
                with self.assertLogs("palhavento", "WARNING") as log:
                    self.assertEqual((store.put("gdp", 1, run=7), store.put("gdp", 2, run=6)), (None, (1, 0)))
                # Said once.
                self.assertEqual([record.getMessage() for record in log.records],
                                 [f"{self.path}: is of version {version}, which keeps no runs; run 7 is ignored"])
                self.assertEqual((store.entry("gdp"), store.entries()), ((2, 0), [("gdp", (2, 0))]))
            with self.assertLogs("palhavento", "WARNING"), self.open(version, run=7) as store:
                store["gdp"] = 3
                self.assertEqual((store.run, store.entry("gdp")), (0, (3, 0)))
            self.path.unlink()

    def test_absent_names_and_readers(self) -> None:
        self.open().put("gdp", 1, run=7)
        reader = self.open(readonly=True)
        self.assertEqual((reader.entry(b"gdp"), reader.entries("a", "z")), ((1, 7), [("gdp", (1, 7))]))
        with self.assertRaises(KeyError):
            reader.entry("cpi")
        with self.assertRaises(errors.IllegalName):
            reader.entry("a~b")
        with self.assertRaises(OSError):
            reader.put("gdp", 2, run=8)

    def test_every_call_of_a_mapping_over_a_store_with_runs(self) -> None:
        chance = random.Random(6)
        store, model = self.open(run=1), {}
        for turn in range(1500):
            name = chance.choice(WORDS + BLANKS)
            run = chance.randrange(turn // 100, turn // 100 + 4)
            if chance.random() < 0.2:
                self.assertEqual(store.pop(name, None), model.pop(name, (None,))[0])
                continue
            try:
                old = store.put(name, turn, run=run)
            except palhavento.OlderRun as refused:
                self.assertEqual((refused.run, refused.held), (run, model[name][1]))
                self.assertGreater(model[name][1], run)
            else:
                self.assertEqual(old, model.get(name))
                model[name] = turn, run
            self.assertEqual(store.entries(), sorted(model.items()))
        store.close()
        with self.open() as store:
            self.assertEqual((dict(store.entries()), store.snapshot()), (model, {name: value for name, (value, _) in model.items()}))

    def test_threads_with_runs_of_their_own(self) -> None:
        """The highest run wins, whoever comes last."""
        self.open()

        def work(run: int) -> None:
            with self.open(run=run) as store:
                for _ in range(30):
                    for name in WORDS:
                        try:
                            store[name] = run
                        except palhavento.OlderRun:
                            pass

        threads = [threading.Thread(target=work, args=(run,)) for run in (3, 1, 4, 2)]
        for thread in threads:
            thread.start()
        for thread in threads:
            thread.join()
        self.assertEqual(dict(self.open().entries()), {name: (4, 4) for name in WORDS})

    def test_a_killed_writers_runs_are_found(self) -> None:
        program = ("import os, palhavento, sys; store = palhavento.open(sys.argv[1], b=4, slots=8, version=3)\n"
                   "for run, name in enumerate('the of and to a in that is i'.split(), 1): store.put(name, run, run=100 * run)\n"
                   "os.kill(os.getpid(), 9)")
        place = os.path.dirname(os.path.dirname(palhavento.__file__))
        subprocess.run([sys.executable, "-c", program, self.path], env={**os.environ, "PYTHONPATH": place})
        self.assertTrue(os.path.exists(f"{self.path}.journal"))
        for readonly in (True, False):
            found = dict(self.open(readonly=readonly).entries())
            self.assertEqual(found, {name: (run, 100 * run) for run, name in enumerate(WORDS, 1)})


class Table(unittest.TestCase):
    def test_its_examples(self) -> None:
        self.assertEqual(doctest.testmod(versions, optionflags=doctest.ELLIPSIS).failed, 0)

    def test_some_lines_are_those_of_the_document(self) -> None:
        shown = (PROJECT / "docs/PERFORMANCE.md").read_text(encoding="utf-8")
        for kind, order, b in (("random", versions.SHUFFLED, 4), ("100 groups sharing 18 digits", versions.ASCENDING, 10)):
            self.assertTrue(versions.line(kind, order, b) in shown, "python3 python/versions.py prints the table anew")
        self.assertTrue(versions.HEADING in shown)


if __name__ == "__main__":
    unittest.main()
