"""The calls by the extension and by ctypes give the same, whatever they are lent; and the extension takes nothing else."""

from __future__ import annotations

import os
import random
import subprocess
import sys
import unittest
from collections.abc import Callable
from pathlib import Path

from support import WORDS, cut_file, sound_file

import palhavento
from palhavento import calls, compacting, errors, library

TESTS = Path(__file__).resolve().parent

# A file that was stored in, its trie, and one that is stale; and a file that keeps runs.
FILE = sound_file(WORDS, b=4, slots=8)
RUNS = sound_file(WORDS, b=4, slots=8, version=3)
TRIE = library.rebuild(FILE)
STALE = library.create(4, 8)[1]


def leads_to(slot: int) -> bytes:
    """A trie without cells, which leads every name to one slot."""
    return bytes([0, 0, slot, 0]).ljust(library.TRIE_BYTES, b"\0")


def outcome(call: Callable[..., object], *given: object) -> object:
    """What a call gives, or what it raises."""
    try:
        return call(*given)
    except Exception as error:
        return type(error), error.args, getattr(error, "digit", None)


class Index:
    """What counts as an int."""

    def __index__(self) -> int:
        return 7


class BothWays(unittest.TestCase):
    def setUp(self) -> None:
        # The gate compiles the extension: without it these tests would compare ctypes with itself.
        self.assertEqual(getattr(calls.used, "__name__", ""), "palhavento._calls", "run `make python`")

    def same(self, name: str, *given: object) -> object:
        """What both ways give."""
        by_extension = outcome(getattr(calls.used, name), *given)
        self.assertTrue(by_extension == outcome(getattr(calls.ByCtypes, name), *given), name)
        return by_extension

    def test_each_answer(self) -> None:
        self.assertEqual(self.same("look_up", FILE, TRIE, "that"), 7)
        self.assertEqual(self.same("look_up", FILE, TRIE, b"that"), 7)
        self.assertIsNone(self.same("look_up", FILE, TRIE, "absent"))
        self.assertEqual(self.same("content", FILE, TRIE, "that"), (7, 0))
        self.assertIsNone(self.same("content", FILE, TRIE, "absent"))
        self.assertEqual(self.same("put", FILE, TRIE, "that", 7, 5, 0)[0], library.STOPPED)
        self.assertEqual(self.same("put", FILE, TRIE, "that", 8, 5, 1)[0], library.REPLACED)
        self.assertEqual(self.same("put", FILE, TRIE, "new", 2**64 - 1, 2**64 - 1, 2)[0], library.ADDED)
        self.assertEqual(self.same("remove", FILE, TRIE, "that", 1)[0], library.REMOVED)
        self.assertEqual(self.same("remove", FILE, TRIE, "absent", 1), (library.ABSENT, FILE, TRIE))
        self.assertEqual(self.same("entries", FILE, TRIE, "i", "of"), [("i", 9), ("in", 6), ("is", 8), ("of", 2)])
        self.assertEqual(self.same("entries", FILE, TRIE, "z", "a"), [])
        self.assertEqual(self.same("rows", FILE, TRIE, "in", "of"), [("in", 6, 0), ("is", 8, 0), ("of", 2, 0)])
        self.assertEqual(self.same("count", FILE, TRIE), 9)
        self.assertIsNone(self.same("changed", FILE, FILE))

    def test_runs(self) -> None:
        trie, largest = library.rebuild(RUNS), 2**64 - 1
        self.assertEqual(self.same("look_up", RUNS, trie, "that"), 7)
        self.assertEqual(self.same("content", RUNS, trie, "that"), (7, 700))
        self.assertEqual(self.same("entries", RUNS, trie, "in", "of"), [("in", 6), ("is", 8), ("of", 2)])
        self.assertEqual(self.same("rows", RUNS, trie, "in", "of"), [("in", 6, 600), ("is", 8, 800), ("of", 2, 200)])
        self.assertEqual(self.same("count", RUNS, trie), 9)
        for run, answer in ((700, library.REPLACED), (701, library.REPLACED), (largest, library.REPLACED)):
            made = self.same("put", RUNS, trie, "that", largest, run, 1)
            self.assertEqual((made[0], self.same("content", made[1], trie, "that")), (answer, (largest, run)))
            offset, slot = self.same("changed", RUNS, made[1])
            self.assertEqual((len(slot), RUNS[:offset] + slot + RUNS[offset + len(slot) :]), (224, made[1]))
            again = self.same("put", made[1], trie, "that", 1, largest, 1)
            self.assertEqual(again[0], library.REPLACED)
            self.assertEqual(self.same("remove", made[1], trie, "that", 1)[0], library.REMOVED)
        # An older run is refused whatever the limit, and before a stop; a new name may be of any run.
        for run in (0, 699):
            for limit in (0, 1, 2):
                self.assertIs(self.same("put", RUNS, trie, "that", 7, run, limit)[0], errors.OlderRun)
        self.assertEqual(self.same("put", RUNS, trie, "new", 7, 0, 2)[0], library.ADDED)
        self.assertIs(self.same("put", RUNS, trie, "that", 7, 0, 3)[0], errors.WrongSize)
        self.assertIs(self.same("put", RUNS, STALE, "that", 7, 0, 2)[0], errors.StaleTrie)
        for run in (-1, 2**64):
            self.assertIs(self.same("put", RUNS, trie, "that", 7, run, 2)[0], OverflowError)
        self.assertIs(self.same("put", RUNS, trie, "that", 7, None, 2)[0], TypeError)

    def test_the_largest_file(self) -> None:
        names = [f"name{number:04}" for number in range(1024)]
        file, trie = library.create(16, 64, 3)
        self.assertEqual(len(file), library.LARGEST_FILE)
        plain = [name.encode() for name in names]
        contents = {name: (place, 2**64 - 1 - place) for place, name in enumerate(plain)}
        file, trie = compacting._filled((file, trie), compacting._packed(plain, 16, 3, 0.0), contents)
        self.assertEqual((len(file), library.check(file)), (45072, library.SOUND))
        self.assertEqual(self.same("count", file, trie), 1024)
        rows = [(name, place, 2**64 - 1 - place) for place, name in enumerate(names)]
        self.assertEqual(self.same("rows", file, trie, "a", "z"), rows)
        self.assertEqual(len(library.entries(file, trie, b"a", b"z", 1024)), 40960)
        with self.assertRaises(errors.ShortOutput):
            library.entries(file, trie, b"a", b"z", 1023)

    def test_each_refusal(self) -> None:
        for name in ("", " a", "a ", " ", "x" * 25, "preço", "\ud800", b"\xff", "a\0"):
            self.assertIs(self.same("look_up", FILE, TRIE, name)[0], errors.IllegalName)
            self.assertIs(self.same("content", FILE, TRIE, name)[0], errors.IllegalName)
            self.assertIs(self.same("put", FILE, TRIE, name, 1, 0, 2)[0], errors.IllegalName)
            self.assertIs(self.same("remove", FILE, TRIE, name, 2)[0], errors.IllegalName)
            self.assertIs(self.same("entries", FILE, TRIE, name, "a")[0], errors.IllegalName)
            self.assertIs(self.same("entries", FILE, TRIE, "a", name)[0], errors.IllegalName)
        cut, full = cut_file(), sound_file(["a", "b"], b=2, slots=1)
        for file, trie, kind in (
            (b"", TRIE, errors.BadFile), (FILE[:-1], TRIE, errors.BadFile), (FILE, STALE, errors.StaleTrie),
            (cut, library.rebuild(sound_file(["rate1", "rate2"], b=2, slots=3)), errors.CutFile),
            (FILE, TRIE[:-1], errors.Malformed), (FILE, TRIE + b"\0", errors.Malformed), (FILE, b"", errors.Malformed),
        ):
            self.assertIs(self.same("put", file, trie, "c", 1, 0, 2)[0], kind)
            self.assertIs(self.same("remove", file, trie, "c", 2)[0], kind)
            self.assertIs(self.same("entries", file, trie, "a", "z")[0], kind)
            self.assertIs(self.same("rows", file, trie, "a", "z")[0], kind)
            self.assertIs(self.same("count", file, trie)[0], kind)
        self.assertIs(self.same("look_up", FILE, STALE, "that")[0], errors.StaleTrie)
        self.assertIs(self.same("put", full, library.rebuild(full), "c", 1, 0, 2)[0], errors.FileFull)
        self.assertIs(self.same("put", FILE, TRIE, "c", 1, 0, 3)[0], errors.WrongSize)

    def test_where_a_name_left_the_range(self) -> None:
        # One bound of 24 digits: slot 0 ends there, and slot 1 begins.
        bound = "m" * 23 + "b"
        file = sound_file(["m" * 23 + digit for digit in "abc"], b=2, slots=3)
        for number in range(24):
            for slot, digit in ((0, "z"), (1, "!")):
                refused = self.same("look_up", file, leads_to(slot), bound[:number] + digit)
                self.assertEqual((refused[0], refused[2]), (errors.StaleTrie, number))
        self.assertEqual(self.same("look_up", file, leads_to(1), bound)[2], 24)
        self.assertEqual(self.same("look_up", file, leads_to(0), bound), 2)
        # Where a name begins with a whole lower bound, the number is the bound's length. Of these "i " is slot 3's.
        for name, slot, number in (("in", 2, 1), ("i", 2, 1), ("of", 1, 1), ("i", 3, 2), ("i x", 3, 2), ("a", 3, 0), ("j", 3, 0)):
            self.assertEqual(self.same("look_up", FILE, leads_to(slot), name)[2], number)

    def test_every_other_stale_trie_says_no_digit(self) -> None:
        free, past, many = leads_to(5), leads_to(8), b"\x01\x01" + bytes(1538)
        for trie in (free, past, many, b"\1\0\0\0" + b"a\1\0\0\0\0" + bytes(1530), b"\1\0\0\0" + b"}\0\xff\xff\0\0" + bytes(1530)):
            self.assertEqual(self.same("look_up", FILE, trie, "that")[::2], (errors.StaleTrie, None))
        for name, given in (("put", ("that", 1, 0, 2)), ("remove", ("that", 2)), ("entries", ("a", "z")), ("count", ())):
            for trie in (STALE, free, past, many):
                self.assertEqual(self.same(name, FILE, trie, *given)[::2], (errors.StaleTrie, None))

    def test_the_words_of_a_refusal(self) -> None:
        for file, trie, name, want in (
            (FILE, leads_to(0), b"that", [0, 7, 7, 7]), (FILE, leads_to(5), b"that", [255, 7, 7, 7]),
            (FILE, TRIE, b"a~", [7] * 4), (FILE[:-1], TRIE, b"that", [7] * 4), (FILE, TRIE[:-1], b"that", [7] * 4),
        ):
            words = library._Words(*[7] * 4)
            library._LIBRARY.pal_lookup(file, len(file), trie, len(trie), name, len(name), words)
            self.assertEqual(list(words), want)

    def test_what_counts_as_an_int(self) -> None:
        for value in (Index(), True, 0, 2**63, 2**64 - 1):
            _, file, trie = self.same("put", FILE, TRIE, "new", value, 0, 2)
            self.assertEqual(self.same("look_up", file, trie, "new"), value if isinstance(value, int) else 7)
        for value in (-1, 2**64, 2**200):
            self.assertIs(self.same("put", FILE, TRIE, "new", value, 0, 2)[0], OverflowError)
        for value in (1.0, "1", None):
            self.assertIs(self.same("put", FILE, TRIE, "new", value, 0, 2)[0], TypeError)

    def test_other_types_are_no_names(self) -> None:
        for name in (1, None, bytearray(b"that"), memoryview(b"that"), ["that"]):
            for given in ((FILE, TRIE, name), (FILE, TRIE, name, 1, 0, 2), (FILE, TRIE, name, 2)):
                call = {3: "look_up", 6: "put", 4: "remove"}[len(given)]
                self.assertIs(self.same(call, *given)[0], TypeError)

    def test_a_name_may_be_of_a_subclass(self) -> None:
        self.assertEqual(self.same("look_up", FILE, TRIE, type("S", (str,), {})("that")), 7)
        self.assertEqual(self.same("look_up", FILE, TRIE, type("B", (bytes,), {})(b"that")), 7)

    def test_histories_and_damage(self) -> None:
        chance = random.Random(5)
        for turn in range(40):
            b, slots = chance.choice((2, 3, 4, 16)), chance.choice((1, 2, 8, 64))
            file, trie = library.create(b, slots, turn % 3 + 1)
            for _ in range(chance.choice((4, 40))):
                name = "".join(chance.choice("abc}! ") for _ in range(chance.choice((1, 2, 5, 24))))
                content = chance.getrandbits(64), chance.choice((0, 1, 2, 2**64 - 1))
                call, given = ("put", (name, *content)) if chance.random() < 0.8 else ("remove", (name,))
                stopped = self.same(call, file, trie, *given, 1)
                made = self.same(call, file, trie, *given, 2)
                if isinstance(made[0], int):
                    for before, after in ((file, stopped[1]), (stopped[1], made[1])):
                        change = self.same("changed", before, after)
                        if change:
                            at, slot = change
                            self.assertEqual(before[:at] + slot + before[at + len(slot) :], after)
                    file, trie = made[1:]
                self.same("look_up", file, trie, name)
                self.same("content", file, trie, name)
            self.same("entries", file, trie, "!", "}" * 24)
            self.same("rows", file, trie, "!", "}" * 24)
            for _ in range(30):
                damaged, worn = bytearray(file), bytearray(trie)
                damaged[chance.randrange(len(file))] ^= 1 << chance.randrange(8)
                worn[chance.randrange(40)] ^= 1 << chance.randrange(8)
                for lent in ((bytes(damaged), trie), (file, bytes(worn)), (bytes(damaged), bytes(worn))):
                    self.same("look_up", *lent, name)
                    self.same("content", *lent, name)
                    self.same("put", *lent, name, 1, 1, 2)
                    self.same("remove", *lent, name, 2)
                    self.same("entries", *lent, "a", "}")
                    self.same("rows", *lent, "a", "}")
                    self.same("count", *lent)

    def test_what_is_lent_is_never_changed(self) -> None:
        file, trie = bytes(bytearray(FILE)), bytes(bytearray(TRIE))
        calls.used.put(file, trie, "new", 1, 0, 2)
        calls.used.remove(file, trie, "that", 2)
        self.assertEqual((file, trie), (FILE, TRIE))
        # Python has but one object for each single byte.
        for single in (bytes([number]) for number in range(256)):
            for call in (calls.used.put, calls.ByCtypes.put):
                with self.assertRaises((errors.BadFile, errors.Malformed)):
                    call(single, single, "new", 1, 0, 2)
        self.assertEqual([bytes([number])[0] for number in range(256)], list(range(256)))

    def test_files_that_cannot_be_compared(self) -> None:
        for before, after in ((b"", b""), (FILE, FILE[:-1]), (bytes(143), bytes(143))):
            self.assertIs(self.same("changed", before, after)[0], ValueError)
        # The slots of a file that has no such b end with the file.
        for b in (0, 1, 17, 255):
            for version in (0, 1, 2, 3, 255):
                before = FILE[:3] + bytes([version, 0, b]) + FILE[6:]
                self.same("changed", before, before[:-1] + b"x")


class TheExtension(unittest.TestCase):
    def test_it_takes_bytes_only(self) -> None:
        for other in (bytearray(FILE), memoryview(FILE), "file", None, 1):
            for given in ((other, TRIE), (FILE, other)):
                for name, more in (("look_up", ("a",)), ("content", ("a",)), ("put", ("a", 1, 0, 2)), ("remove", ("a", 2)),
                                   ("entries", ("a", "b")), ("rows", ("a", "b")), ("count", ()), ("changed", ())):
                    with self.subTest(name=name, other=other), self.assertRaises(TypeError):
                        getattr(calls.used, name)(*given, *more)

    def test_it_takes_so_many_arguments(self) -> None:
        for name, wanted in (("look_up", 3), ("content", 3), ("put", 6), ("remove", 4), ("entries", 4), ("rows", 4), ("count", 2),
                             ("changed", 2)):
            for count in {*range(8)} - {wanted}:
                with self.assertRaisesRegex(TypeError, f"{name} takes {wanted} arguments, not {count}"):
                    getattr(calls.used, name)(*[FILE] * count)

    def test_a_library_without_the_calls_is_not_loaded(self) -> None:
        program = """if True:
            import sys
            from palhavento import _calls
            try:
                _calls.look_up(b"", b"", "a")
            except RuntimeError as error:
                print(error)
            for path in sys.argv[1:]:
                try:
                    _calls.load(path, print, print, print)
                except ImportError as error:
                    print("ImportError")
        """
        # The package loads the library when it is imported, so this leaves the package out.
        program = program.replace("from palhavento import _calls", "import _calls")
        folder = str(Path(palhavento.__file__).parent)
        printed = subprocess.check_output([sys.executable, "-c", program, "/nowhere.so", calls.used.__file__], text=True,
                                          env={**os.environ, "PYTHONPATH": folder})
        self.assertEqual(printed, "the library is not loaded\nImportError\nImportError\n")


class WithoutTheExtension(unittest.TestCase):
    def test_the_package_does_the_same(self) -> None:
        """The tests of the mapping and of its refusals, where Python finds no extension."""
        program = (
            "import sys, unittest; sys.modules['palhavento._calls'] = None; sys.path.insert(0, sys.argv[1]);"
            "import support; from palhavento import calls; assert calls.used is calls.ByCtypes;"
            "unittest.main(None, argv=['', 'test_mapping', 'test_errors'])"
        )
        ran = subprocess.run([sys.executable, "-c", program, str(TESTS)], capture_output=True, text=True)
        self.assertEqual(ran.returncode, 0, ran.stderr)
        self.assertRegex(ran.stderr, r"Ran [3-9]\d tests")


if __name__ == "__main__":
    unittest.main()
