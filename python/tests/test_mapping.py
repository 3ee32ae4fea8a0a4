"""A store behaves as a dict whose names are in order."""

from __future__ import annotations

import contextlib
import copy
import io
import os
import pickle
import random
import subprocess
import sys
import threading
import unittest
from collections.abc import Callable
from pathlib import Path
from unittest import mock

from support import BLANKS, WORDS, InFolder

import palhavento
from palhavento import errors, layout


def some_name(chance: random.Random) -> str:
    """A name of a small world, in which many begin alike."""
    return "".join(chance.choice("!am} ") for _ in range(chance.randint(1, 5))).strip() or "a  m"


class AsADict(InFolder):
    def test_random_operations(self) -> None:
        for seed in range(4):
            chance = random.Random(seed)
            path, b = self.folder / f"{seed}.tkf", chance.choice([2, 3, 4, 16])
            store, model = palhavento.open(path, b=b, slots=24, sync=False, version=seed % 2 + 1), {}
            for _ in range(400):
                self.one_operation(chance, store, model)
            self.assertGreater(len(model), 10)
            store.close()
            with palhavento.open(path) as store:
                self.assertEqual(list(store.items()), sorted(model.items()))

    def one_operation(self, chance: random.Random, store: palhavento.Store, model: dict[str, int]) -> None:
        name, value = some_name(chance), chance.getrandbits(64)
        match chance.randrange(10):
            case 0 | 1 | 2 | 3:
                try:
                    store[name] = value
                except errors.FileFull:
                    self.assertNotIn(name, model)
                    self.assertEqual(store.stats().free, 0)
                else:
                    model[name] = value
            case 4:
                if name in model:
                    del store[name], model[name]
                else:
                    with self.assertRaises(KeyError):
                        del store[name]
            case 5:
                self.assertEqual(store.get(name), model.get(name))
                self.assertEqual(store.get(name.encode(), -1), model.get(name, -1))
            case 6:
                self.assertEqual(name in store, name in model)
                self.assertEqual(store.pop(name, None), model.pop(name, None))
            case 7:
                self.assertEqual(len(store), len(model))
                self.assertEqual(list(store), sorted(model))
            case 8:
                other = some_name(chance)
                held = [(at, model[at]) for at in sorted(model) if name <= at <= other]
                self.assertEqual(store.range(name, other), held)
            case 9:
                self.assertEqual(dict(store), model)
                self.assertEqual(list(store.values()), [model[at] for at in sorted(model)])
        self.assertEqual(store.check(), "sound")

    def test_the_rest_of_a_mapping(self) -> None:
        with palhavento.open(self.path, b=4, slots=8, sync=False) as store:
            store.update({word: place for place, word in enumerate(WORDS, start=1)})
            store.update(the=10, them=11)
            self.assertEqual(store.setdefault("the", 0), 10)
            self.assertEqual(store.setdefault("new", 12), 12)
            self.assertEqual(store.pop("them"), 11)
            self.assertEqual(store.popitem(), ("a", 5))
            held = {"the": 10, "of": 2, "and": 3, "to": 4, "in": 6, "that": 7, "is": 8, "i": 9, "new": 12}
            self.assertEqual(store, held)
            self.assertEqual(store.keys() & {"the", "a"}, {"the"})
            self.assertIn(("new", 12), store.items())
            store.clear()
            self.assertEqual((len(store), list(store), bool(store)), (0, [], False))

    def test_an_iteration_sees_the_file_as_it_began(self) -> None:
        with palhavento.open(self.path, sync=False) as store:
            store.update(a=1, b=2)
            names = iter(store)
            del store["b"]
            self.assertEqual((list(names), list(store)), (["a", "b"], ["a"]))

    def test_values_are_64_bits(self) -> None:
        with palhavento.open(self.path, sync=False) as store:
            for value in (0, 1, 2**63, 2**64 - 1, True):
                store["n"] = value
                self.assertEqual(store["n"], value)
            for value in (-1, 2**64):
                with self.assertRaises(OverflowError):
                    store["n"] = value
            for value in (1.0, "1", None):
                with self.assertRaisesRegex(TypeError, f"a value is an int, not {type(value).__name__}"):
                    store["n"] = value  # type: ignore[assignment]
            self.assertEqual(store["n"], 1)

    def test_a_file_that_is_there_keeps_its_sizes(self) -> None:
        palhavento.open(self.path, b=2, slots=3).close()
        for b, slots in ((16, 64), (4, 8), (99, 0)):
            with palhavento.open(self.path, b=b, slots=slots) as store:
                self.assertEqual((store.b, store.slots), (2, 3))

    def test_sizes_are_ints(self) -> None:
        for size in (4.0, "4", None):
            for words in ({"b": size}, {"slots": size}, {"version": size}):
                with self.assertRaisesRegex(TypeError, f"version, b and slots are ints, not {type(size).__name__}"):
                    palhavento.open(self.path, **words)  # type: ignore[arg-type]
        self.assertFalse(self.path.exists())

    def test_names_are_str_or_bytes(self) -> None:
        with palhavento.open(self.path, sync=False) as store:
            store[b"one"] = 1
            self.assertEqual((store["one"], list(store), store.range(b"a", "p")), (1, ["one"], [("one", 1)]))
            for name in (1, None, bytearray(b"one")):
                with self.assertRaises(TypeError):
                    store[name]  # type: ignore[index]

    def test_threads_take_turns(self) -> None:
        with palhavento.open(self.path, b=4, slots=64, sync=False) as store:

            def put(letter: str) -> None:
                for number in range(20):
                    store[f"{letter}{number:02}"] = number

            threads = [threading.Thread(target=put, args=[letter]) for letter in "abcd"]
            for thread in threads:
                thread.start()
            for thread in threads:
                thread.join()
            self.assertEqual(list(store), [f"{letter}{number:02}" for letter in "abcd" for number in range(20)])


class OneReading(InFolder):
    """Beside another process that writes, several readings would be of several files."""

    def setUp(self) -> None:
        super().setUp()
        self.store = palhavento.open(self.path, sync=False)
        self.addCleanup(self.store.close)
        self.store.update({"b": 2, "a": 1, "c": 3})
        self.reader = palhavento.open(self.path, readonly=True)
        self.addCleanup(self.reader.close)

    def test_each_of_these_is_one(self) -> None:
        want = {"a": 1, "b": 2, "c": 3}
        ways: list[Callable[[palhavento.Store], object]] = [
            dict, palhavento.Store.snapshot, lambda store: {**store}, lambda store: dict(**store),
            lambda store: dict(store.items()), lambda store: {"z": 0, **store}, self.updated,
            list, tuple, sorted, set, len, lambda store: list(store.keys()), lambda store: list(store.items()),
            lambda store: list(store.values()), lambda store: sum(store.values()), lambda store: len(store.keys()),
            lambda store: store == want, lambda store: store.prefix("a"), lambda store: store.range("a", "b"),
            lambda store: repr(store.items()), lambda store: [name for name in store],
            lambda store: store.get("a"), lambda store: store["a"], lambda store: "a" in store,
        ]
        for store in (self.store, self.reader):
            for way in ways:
                readings = 0
                read = store._opened.read

                def counted(*given: object) -> bytes:
                    nonlocal readings
                    readings += 1
                    return read(*given)

                plain = way(want) if way in (dict, list, tuple, sorted, set, len) else None
                # A writer that knows its file need not read it to look up a name.
                store._opened._now = None
                with mock.patch.object(store._opened, "read", counted):
                    given = way(store)
                self.assertEqual(readings, 1, way)
                if plain is not None:
                    self.assertEqual(given, plain)
        self.assertEqual([ways[at](self.reader) for at in range(5)], [want] * 5)

    @staticmethod
    def updated(store: palhavento.Store) -> dict[str, int]:
        held: dict[str, int] = {}
        held.update(store)
        return held

    def test_names_that_are_looked_up_later_are_read_later(self) -> None:
        """What `dict(store)` is told is told to nobody else."""

        def call(function: Callable[..., object], *given: object) -> object:
            return function(*given)

        for store in (self.store, self.reader):
            for names in (store.keys(), iter(store), list(store.keys()), list(store), call(list, store.keys())):
                for name in names:
                    self.store["c"] += 1
                    self.assertEqual(store["c"], self.store["c"])
                    self.assertEqual(call(store.__getitem__, name), self.store[name])
            seen = []
            for name in store.keys():
                self.store["c"] += 1
                seen.append(store[name])
            self.assertEqual(seen, [1, 2, self.store["c"]])
            view = store.keys()
            call(list, view)
            self.store.increment("a", by=0)
            first = list(view)[0]
            self.store["a"] = 7
            self.assertEqual((call(store.__getitem__, first), store[first], len(store)), (7, 7, 3))
            self.store["a"] = 1
            steps: list[object] = []
            for function, given in ((iter, store), (self.store.__delitem__, "b"), (len, store)):
                steps.append(function(given))  # type: ignore[operator]
            self.assertEqual(steps[2], 2)
            self.store["b"] = 2

    def test_where_no_python_code_calls(self) -> None:
        """As at the end of a process, where there is no frame to be known by."""
        program = """if True:
            import atexit, palhavento, sys
            store = palhavento.open(sys.argv[1], readonly=True)
            for function, *given in ((len, store), (dict, store), (list, store), (store.keys,), (store.items().__len__,)):
                atexit.register(function, *given)
        """
        ended = subprocess.run([sys.executable, "-c", program, str(self.path)], capture_output=True, text=True,
                               env={**os.environ, "PYTHONPATH": str(Path(palhavento.__file__).parent.parent)})
        self.assertEqual((ended.returncode, ended.stderr), (0, ""))

    def test_what_is_told_does_not_become_old(self) -> None:
        with mock.patch("palhavento.store._Reading.SECONDS", 0):
            self.assertEqual((dict(self.reader), list(self.reader)), ({"a": 1, "b": 2, "c": 3}, ["a", "b", "c"]))
            self.assertEqual(self.reader._opened.told.keys() - {threading.get_ident()}, set())

    def test_threads_are_each_told_their_own(self) -> None:
        faults: list[object] = []
        stop = threading.Event()

        def look() -> None:
            try:
                while not stop.is_set():
                    held = dict(self.store)
                    if held["x"] != held["y"] or list(self.store) != ["a", "b", "c", "x", "y"]:
                        faults.append(held)
            except Exception as error:
                faults.append(error)

        self.store.update(x=0, y=0)
        threads = [threading.Thread(target=look) for _ in range(3)]
        for thread in threads:
            thread.start()
        for number in range(200):
            with self.store._opened.alone:
                self.store.update(x=number, y=number)
        stop.set()
        for thread in threads:
            thread.join()
        self.assertEqual(faults, [])


class Changes(InFolder):
    def setUp(self) -> None:
        super().setUp()
        self.store = palhavento.open(self.path, b=2, slots=4, sync=False)
        self.addCleanup(self.store.close)

    def test_update_takes_what_a_dict_takes(self) -> None:
        class Other:
            def keys(self) -> list[str]:
                return ["i"]

            def __getitem__(self, name: str) -> int:
                return 9

        with palhavento.open(self.folder / "other.tkf", sync=False) as other:
            for given, named in (({"a": 1}, {"b": 2}), ([("a", 3), ("c", 4)], {}), ([["a", 5]], {}), (Other(), {}), ((), {})):
                model: dict[str, int] = {}
                model.update(given, **named)  # type: ignore[arg-type]
                other.clear()
                other.update(given if given != [["a", 5]] else iter([["a", 5]]), **named)
                self.assertEqual(dict(other), model)
            other.update({b"d": 6, "d": 7})
            self.store.update(other)
            self.assertEqual(self.store, other)
            for wrong in (1, [1], [("a",)], [("a", 1, 2)], None):
                with self.assertRaises((TypeError, ValueError)):
                    self.store.update(wrong)

    def test_update_looks_at_all_names_and_values_first(self) -> None:
        for wrong in ({"a": 1, "b c ": 2}, {"a": 1, "b": -1}, {"a": 1, "b": "2"}, {"a": 1, 2: 2}, {"a": 1, "é": 2}):
            with self.assertRaises((errors.IllegalName, OverflowError, TypeError)):
                self.store.update(wrong)
            self.assertEqual(dict(self.store), {})

    def test_a_refused_update_says_how_many_were_put(self) -> None:
        entries = [(letter * 3, place) for place, letter in enumerate("abcdefghijklmnop")]
        with self.assertRaises(errors.FileFull) as caught:
            self.store.update(entries)
        held = len(self.store)
        self.assertEqual(dict(self.store), dict(entries[:held]))
        self.assertEqual((caught.exception.put, caught.exception.number), (held, 5))  # type: ignore[attr-defined]
        self.assertTrue(str(caught.exception).endswith(f" Of 16 entries {held} were put."), caught.exception)
        self.assertEqual(caught.exception.args, (5, str(caught.exception)))

    def test_an_update_that_fails_otherwise_says_it_too(self) -> None:
        store, made = self.store._opened.disk.store, 0

        def fails(*given: object) -> None:
            nonlocal made
            made += 1
            if made > 2:
                raise OSError(28, "No space left on device")
            store(*given)

        with mock.patch.object(self.store._opened.disk, "store", fails), self.assertRaises(OSError) as caught:
            self.store.update(a=1, b=2, c=3)
        notes, put = caught.exception.__notes__, caught.exception.put  # type: ignore[attr-defined]
        self.assertEqual((notes, put), (["Of 3 entries 2 were put."], 2))
        self.assertEqual(dict(self.store), {"a": 1, "b": 2})

    def test_prefix(self) -> None:
        chance = random.Random(3)
        names = {some_name(chance) for _ in range(60)} | {"}" * 24, "}" * 23, "a" * 24, *BLANKS}
        with palhavento.open(self.folder / "large.tkf", sync=False) as store:
            store.update((name, len(name)) for name in names)
            beginnings = {name[:length] for name in names for length in range(len(name) + 1)}
            for beginning in sorted(beginnings | {"z", "mm", "}!"}):
                want = sorted((name, len(name)) for name in names if name.startswith(beginning))
                self.assertEqual(store.prefix(beginning), want)
                self.assertEqual(store.prefix(beginning.encode()), want)
            for wrong in (" ", " a", "a~b", "~", "é", "a" * 25, "a" * 23 + " "):
                with self.assertRaises(errors.IllegalName):
                    store.prefix(wrong)
            with self.assertRaises(TypeError):
                store.prefix(None)  # type: ignore[arg-type]

    def test_increment(self) -> None:
        sums = [self.store.increment("n"), self.store.increment(b"n", 5), self.store.increment("n", by=-6)]
        self.assertEqual(sums, [1, 6, 0])
        self.store["n"] = 2**64 - 1
        for by in (1, -(2**64)):
            with self.assertRaises(OverflowError):
                self.store.increment("n", by)
        for by in (1.0, "1", None):
            with self.assertRaises(TypeError):
                self.store.increment("n", by)  # type: ignore[arg-type]
        with self.assertRaises(errors.IllegalName):
            self.store.increment("a~b")
        self.assertEqual(dict(self.store), {"n": 2**64 - 1})

    def test_pop_popitem_setdefault_and_clear(self) -> None:
        self.store.update(b=2, a=1, c=3)
        self.assertEqual((self.store.pop("b"), self.store.pop("b", None), self.store.pop("b", 7)), (2, None, 7))
        for call in (lambda: self.store.pop("b"), lambda: self.store.pop(b"b")):
            with self.assertRaises(KeyError):
                call()
        self.assertEqual((self.store.setdefault("a", 9), self.store.setdefault("z", 9)), (1, 9))
        with self.assertRaises(TypeError):
            self.store.setdefault("y")  # type: ignore[call-arg]
        with self.assertRaises(OverflowError):
            self.store.setdefault("y", -1)
        self.assertEqual((self.store.popitem(), dict(self.store)), (("a", 1), {"c": 3, "z": 9}))
        self.store.clear()
        self.assertEqual(dict(self.store), {})
        with self.assertRaisesRegex(KeyError, "empty"):
            self.store.popitem()

    def test_a_reader_makes_none_of_them(self) -> None:
        self.store["a"] = 1
        with palhavento.open(self.path, readonly=True) as reader:
            for call in (lambda: reader.update(b=2), lambda: reader.increment("a"), lambda: reader.pop("a"),
                         lambda: reader.popitem(), lambda: reader.setdefault("a", 1), lambda: reader.clear(),
                         lambda: reader.update()):
                with self.assertRaises(io.UnsupportedOperation):
                    call()
            reader.flush()
            self.assertEqual(dict(reader), {"a": 1})

    def test_flush_waits_for_the_disk(self) -> None:
        with mock.patch("os.fdatasync") as synced:
            self.store["a"] = 1
            synced.assert_not_called()
            self.store.flush()
            synced.assert_called()
        self.store.close()
        with self.assertRaisesRegex(ValueError, "closed"):
            self.store.flush()


class Threads(InFolder):
    """What `opened.py` says that threads may share."""

    def run_each(self, *works: Callable[[], object]) -> None:
        faults: list[BaseException] = []

        def kept(work: Callable[[], object]) -> None:
            try:
                work()
            except BaseException as error:
                faults.append(error)

        threads = [threading.Thread(target=kept, args=[work]) for work in works]
        for thread in threads:
            thread.start()
        for thread in threads:
            thread.join()
        self.assertEqual(faults, [])

    def test_nothing_is_lost_with_increment(self) -> None:
        with palhavento.open(self.path, sync=False) as first, palhavento.open(self.path, sync=False) as second:
            self.run_each(*[lambda store=store: [store.increment("n") for _ in range(250)] for store in (first, second) * 2])
            self.assertEqual(first["n"], 1000)

    def test_each_name_is_popped_once(self) -> None:
        with palhavento.open(self.path, sync=False) as store:
            names = [f"n{number:03}" for number in range(200)]
            store.update((name, 1) for name in names)
            taken: list[list[str]] = [[], [], [], []]
            self.run_each(*[lambda mine=mine: [mine.append(n) for n in names if store.pop(n, None)] for mine in taken[:2]],
                          *[lambda mine=mine: self.take(store, mine) for mine in taken[2:]])
            self.assertEqual(sorted(sum(taken, [])), names)

    @staticmethod
    def take(store: palhavento.Store, mine: list[str]) -> None:
        with contextlib.suppress(KeyError):
            while True:
                mine.append(store.popitem()[0])

    def test_gets_beside_puts_see_every_put_whole(self) -> None:
        with palhavento.open(self.path, b=4, slots=64, sync=False) as store:
            store["n"] = 0
            done = threading.Event()

            def put() -> None:
                for number in range(1, 300):
                    store[f"m{number % 90:02}"] = number
                    store["n"] = number
                done.set()

            def get() -> None:
                last = 0
                while not done.is_set():
                    now = store["n"]
                    assert now >= last and "absent" not in store
                    last = now

            self.run_each(put, get, get)

    def test_many_open_at_once(self) -> None:
        stores: list[palhavento.Store] = []
        self.run_each(*[lambda: stores.append(palhavento.open(self.path, sync=False))] * 8)
        for store in stores:
            store.increment("n")
        self.assertEqual([store["n"] for store in stores], [8] * 8)
        self.run_each(*[store.close for store in stores])
        with palhavento.open(self.path) as store:
            self.assertEqual(store["n"], 8)

    def test_opening_beside_closing(self) -> None:
        def open_and_close() -> None:
            for _ in range(50):
                with palhavento.open(self.path, sync=False) as store:
                    store.increment("n")

        palhavento.open(self.path).close()
        self.run_each(*[open_and_close] * 4)
        with palhavento.open(self.path) as store:
            self.assertEqual(store["n"], 200)


class CommonPath(InFolder):
    def test_a_writers_get_asks_nothing_of_the_system(self) -> None:
        with palhavento.open(self.path, sync=False) as store:
            store["a"] = 1
            names = ("stat", "fstat", "lstat", "getpid", "pread", "read", "open", "pwrite")
            with contextlib.ExitStack() as patched:
                for name in names:
                    patched.enter_context(mock.patch(f"os.{name}", side_effect=AssertionError(name)))
                patched.enter_context(mock.patch("fcntl.fcntl", side_effect=AssertionError("fcntl")))
                self.assertEqual((store["a"], store.get("b"), "a" in store, dict(store)), (1, None, True, {"a": 1}))


class ForTheMaintainer(InFolder):
    def setUp(self) -> None:
        super().setUp()
        self.store = palhavento.open(self.path, b=4, slots=8, sync=False, version=1)
        self.addCleanup(self.store.close)
        for place, word in enumerate(WORDS, start=1):
            self.store[word] = place

    def test_stats(self) -> None:
        stats = palhavento.Stats(version=1, b=4, slots=8, used=4, free=4, entries=9, strings=3, bytes=1552, load=9 / 16)
        self.assertEqual(self.store.stats(), stats)

    def test_buckets(self) -> None:
        buckets = [(0, "", "i ", 3), (3, "i ", "i", 2), (2, "i", "o", 1), (1, "o", "", 3)]
        self.assertEqual(self.store.buckets(), [palhavento.Bucket(*bucket) for bucket in buckets])

    def test_the_rebuilt_trie(self) -> None:
        self.store.rebuild()
        trie = self.store.trie()
        self.assertEqual((trie.count, trie.first), (3, 0))
        self.assertEqual(trie.cells[0], palhavento.Cell("i", 0, ("cell", 1), ("cell", 2)))
        self.assertEqual(trie.cells[1], palhavento.Cell(" ", 1, ("slot", 0), ("slot", 3)))
        self.assertEqual(trie.cells[2], palhavento.Cell("o", 0, ("slot", 2), ("slot", 1)))

    def test_pictures_are_drawn_from_contents_and_trie(self) -> None:
        with mock.patch("palhavento.store.drawing") as drawing:
            self.assertIs(self.store.svg(), drawing.store_svg.return_value)
            self.assertIs(self.store.trie_svg(), drawing.trie_svg.return_value)
        contents = layout.contents(self.path.read_bytes())
        self.assertEqual([entry for _, entries in contents for entry in entries], self.store.range())
        drawing.store_svg.assert_called_once_with(contents, 4, 8, self.store.trie(), 1)
        drawing.trie_svg.assert_called_once_with(self.store.trie())

    def test_a_store_shows_itself(self) -> None:
        shown = self.store.path, self.store.version, self.store.b, self.store.slots
        self.assertEqual(shown, (str(self.path), 1, 4, 8))
        self.assertEqual((self.store.readonly, self.store.closed), (False, False))
        self.assertTrue(repr(self.store).endswith("b=4, slots=8>"))
        self.store.close()
        self.assertEqual((self.store.readonly, self.store.closed), (False, True))
        self.assertTrue(repr(self.store).endswith("b=4, slots=8, closed>"))
        with palhavento.open(self.path, readonly=True) as reader:
            self.assertTrue(repr(reader).endswith("b=4, slots=8, readonly>"))
        self.assertEqual((reader.readonly, reader.closed), (True, True))
        self.assertTrue(repr(reader).endswith("b=4, slots=8, readonly, closed>"))

    def test_a_view_shows_what_it_holds(self) -> None:
        entries = sorted((word, place) for place, word in enumerate(WORDS, start=1))
        keys, items, values = self.store.keys(), self.store.items(), self.store.values()
        self.assertEqual(repr(items), f"items({entries})")
        self.assertEqual(repr(keys), f"keys({[name for name, _ in entries]})")
        self.assertEqual(repr(values), f"values({[value for _, value in entries]})")
        self.store.close()
        for view in (items, keys, values):
            self.assertIn("closed>)", repr(view))

    def test_a_store_is_neither_copied_nor_pickled(self) -> None:
        for call in (copy.copy, copy.deepcopy, pickle.dumps):
            for given in (self.store, {"store": self.store} if call is not copy.copy else self.store):
                with self.assertRaisesRegex(TypeError, "a store is an open file: snapshot"):
                    call(given)
        self.assertEqual(copy.copy(self.store.snapshot()), self.store)


if __name__ == "__main__":
    unittest.main()
