"""Every refusal is raised by its own class, with its number, and changes nothing."""

from __future__ import annotations

import contextlib
import io
import os
import pickle
import time
import unittest
from unittest import mock

from support import InFolder, cut_file, sound_file

import palhavento
from palhavento import disk, errors, library

NUMBERS = {
    errors.IllegalName: 1,
    errors.BadFile: 2,
    errors.CutFile: 3,
    errors.StaleTrie: 4,
    errors.FileFull: 5,
    errors.TrieFull: 6,
    errors.ShortOutput: 7,
    errors.WrongSize: 8,
    errors.OlderRun: 12,
    errors.Locked: 254,
    errors.Malformed: 255,
}


class Classes(unittest.TestCase):
    def test_each_has_its_number_and_one_sentence(self) -> None:
        for kind, number in NUMBERS.items():
            refused = errors.refusal(number, "about")
            self.assertIs(type(refused), kind)
            self.assertEqual((kind.number, refused.number), (number, number))
            self.assertEqual(str(refused), f"about: {kind.__doc__}")
            self.assertEqual((kind.__doc__ or "").count("."), 1)
            self.assertIsInstance(refused, errors.PalhaventoError)

    def test_an_unknown_number_is_still_a_refusal(self) -> None:
        self.assertEqual((type(errors.refusal(9)), errors.refusal(9).number), (errors.PalhaventoError, 9))

    def test_each_can_be_sent_to_another_process(self) -> None:
        for number in NUMBERS.values():
            refused = errors.refusal(number, "about")
            back = pickle.loads(pickle.dumps(refused))
            self.assertEqual((type(back), back.args), (type(refused), refused.args))
        self.assertEqual([pickle.loads(pickle.dumps(errors.stale(word))).digit for word in (0, 24, 255)], [0, 24, None])
        back = pickle.loads(pickle.dumps(errors.older("a", 6, 7)))
        self.assertEqual((back.run, back.held, str(back)), (6, 7, str(errors.older("a", 6, 7))))


class Raised(InFolder):
    def open(self, **words: object) -> palhavento.Store:
        store = palhavento.open(self.path, sync=False, **words)  # type: ignore[arg-type]
        self.addCleanup(store.close)
        return store

    def refused(self, kind: type[errors.PalhaventoError], call: object, *words: object) -> None:
        """The call is refused so, and leaves the file as it was."""
        before = self.path.read_bytes() if self.path.exists() else None
        with self.assertRaises(kind) as caught:
            call(*words)  # type: ignore[operator]
        self.assertEqual(caught.exception.number, NUMBERS[kind])
        self.assertEqual(self.path.read_bytes() if self.path.exists() else None, before)

    def test_illegal_name(self) -> None:
        store = self.open()
        store["}" * 24] = 1
        for name in ("", " a", "a ", " " * 24, "~", "\x7f", "x" * 25, "é", b"\x80", b"\x00", "a\n"):
            self.refused(errors.IllegalName, store.__setitem__, name, 1)
            self.refused(errors.IllegalName, store.__getitem__, name)
            self.refused(errors.IllegalName, store.__delitem__, name)
            self.refused(errors.IllegalName, store.__contains__, name)
            self.refused(errors.IllegalName, store.range, name, "b")
            self.refused(errors.IllegalName, store.range, "b", name)
        with self.assertRaises(ValueError):
            store.get("a~b")

    def test_an_illegal_name_is_told_what_is_wrong_with_it(self) -> None:
        store = self.open()
        rule = "A name has 1 to 24 bytes, each 0x20 to 0x7D, no blank first or last"
        for name, shown, wrong in (
            (" a b", "' a b'", "this one begins with a blank"),
            ("a b ", "'a b '", "this one ends with a blank"),
            (" ", "' '", "this one begins with a blank"),
            ("", "''", "this one is empty"),
            ("x" * 25, f"'{'x' * 25}'", "this one has 25"),
            ("x" * 1000, f"'{'x' * 32}'...", "this one has 1000"),
            ("y z" + "x" * 22, f"'y z{'x' * 22}'", "this one has 25"),
            ("x" * 24 + " ", f"'{'x' * 24} '", "this one has 25, and ends with a blank"),
            ("y~z" + "x" * 22, f"'y~z{'x' * 22}'", "this one has 25, and byte 2 is 0x7E ('~')"),
            (" a\n", "' a\\n'", "byte 3 of this one is 0x0A (a line feed)"),
            ("gdp~", "'gdp~'", "byte 4 of this one is 0x7E ('~')"),
            ("gdp\n", "'gdp\\n'", "byte 4 of this one is 0x0A (a line feed)"),
            ("preço", "'preço'", "byte 4 of this one is 0xC3 (of 'ç')"),
            ("\ud800", "'\\ud800'", "byte 1 of this one is 0xED"),
            (b"a\xff", "'a\\xff'", "byte 2 of this one is 0xFF"),
        ):
            for call in (store.__getitem__, store.__contains__, store.__delitem__, lambda name: store.range("a", name),
                         lambda name: store.update([(name, 1)])):
                with self.assertRaises(errors.IllegalName) as caught:
                    call(name)
                self.assertEqual(str(caught.exception), f"{shown}: {rule}; {wrong}.")

    def test_a_bad_file_is_told_what_is_wrong_with_it(self) -> None:
        self.path.write_bytes(sound_file(["a"], b=2, slots=2)[:-1])
        for readonly in (False, True):
            with self.assertRaisesRegex(errors.BadFile, r"store\.tkf: length: it has 271 bytes, .* \(R2\.7\): The file is"):
                palhavento.open(self.path, readonly=readonly)

    def test_bad_file(self) -> None:
        self.path.write_bytes(b"not a file of names")
        self.refused(errors.BadFile, palhavento.open, self.path)
        with self.assertRaisesRegex(errors.BadFile, "store.tkf: "):
            palhavento.open(self.path, readonly=True)

    def test_bad_file_while_it_is_open(self) -> None:
        for readonly in (False, True):
            self.path.write_bytes(sound_file(["a"], b=2, slots=2))
            with self.open(readonly=readonly) as store:
                self.path.write_bytes(b"TKF")
                # A writer takes its file for its own, and looks every so often whether it is.
                time.sleep(2 * disk.LOOK_AGAIN)
                self.refused(errors.BadFile, store.__getitem__, "a")
                self.refused(errors.BadFile, store.__len__)
                self.refused(errors.BadFile, store.rebuild)
                self.assertEqual(store.check(), "bad")
                for call in (store.__len__, store.rebuild, store.stats, *([] if readonly else [store.recover])):
                    with self.assertRaisesRegex(errors.BadFile, "store.tkf: "):
                        call()

    def test_cut_file(self) -> None:
        store = self.open(b=2, slots=3)
        self.path.write_bytes(cut_file())
        self.refused(errors.CutFile, store.rebuild)
        self.assertEqual(store.check(), "cut")
        with self.assertLogs("palhavento", "WARNING"):
            self.assertEqual(store.recover(), 1)
        self.assertEqual((store.check(), store.recover()), ("sound", None))
        self.assertEqual(dict(store), {"rate1": 1, "rate2": 2})

    def test_stale_trie(self) -> None:
        self.path.write_bytes(sound_file(["rate1", "rate2", "rate3"], b=2, slots=3))
        store = self.open()
        # A trie that stays stale when it is rebuilt, as no file gives one.
        store._opened.trie = bytes(library.TRIE_BYTES)
        with mock.patch.object(library, "rebuild", return_value=store._opened.trie) as rebuild:
            self.refused(errors.StaleTrie, store.__getitem__, "rate3")
            self.refused(errors.StaleTrie, store.__setitem__, "rate4", 4)
            with self.assertRaises(errors.StaleTrie) as caught:
                store.get("rate3")
        self.assertEqual(rebuild.call_count, 3)
        self.assertEqual(caught.exception.digit, 4)
        said = "'rate3': The trie does not agree with the file: rebuild it. The name left the bucket's range at digit number 4, from 0."
        self.assertEqual(str(caught.exception), said)
        self.assertEqual(store["rate3"], 3)

    def test_where_a_name_left_its_range_is_logged(self) -> None:
        self.path.write_bytes(sound_file(["rate1", "rate2", "rate3"], b=2, slots=3))
        for readonly in (False, True):
            with self.open(readonly=readonly) as store:
                for name, said in (("rate3", "; a name left its bucket's range at digit number 4"), ("rate4", "")):
                    store._opened.trie = bytes(library.TRIE_BYTES)
                    with self.assertLogs("palhavento", "INFO") as logs:
                        # To count asks for agreement, and so does a put; neither says where.
                        self.assertEqual(store.get(name) if said else len(store), 3)
                    self.assertEqual(logs.output, [f"INFO:palhavento:{self.path}: the trie was stale and is rebuilt{said}"])

    def test_file_full(self) -> None:
        store = self.open(b=2, slots=1)
        store.update(a=1, b=2)
        self.refused(errors.FileFull, store.__setitem__, "c", 3)
        store["a"] = 4
        self.assertEqual(dict(store), {"a": 4, "b": 2})

    def test_trie_full(self) -> None:
        store = self.open(b=2, slots=64)
        groups = [letter * 23 for letter in "abcdefghij"]
        store.update({group + digit: 0 for group in groups for digit in "123"})
        self.assertEqual(store.stats().strings, 240)
        store.update({"k" * 23 + digit: 0 for digit in "12"})
        self.refused(errors.TrieFull, store.__setitem__, "k" * 23 + "3", 0)
        self.assertEqual(len(store), 32)

    def test_short_output(self) -> None:
        file = sound_file(["a", "b"], b=2, slots=1)
        self.refused(errors.ShortOutput, library.entries, file, library.rebuild(file), b"a", b"b", 1)

    def test_wrong_size(self) -> None:
        for sizes in ((1, 64), (17, 64), (16, 0), (16, 65), (-1, 1), (2**64 + 2, 1), (2, 2**64 + 1), (2**70, 2**70)):
            self.refused(errors.WrongSize, palhavento.open, self.path, *sizes)
        self.assertEqual(os.listdir(self.folder), [])

    def test_a_limit_above_two(self) -> None:
        file, trie = library.create(2, 1)
        self.refused(errors.WrongSize, library.put, file, trie, b"a", 1, 0, 3)

    def test_malformed(self) -> None:
        file, trie = library.create(2, 1)
        self.refused(errors.Malformed, library.look_up, file, trie[:-1], b"a")

    def test_locked(self) -> None:
        store = self.open()
        self.refused(errors.Locked, palhavento.open, self.path)
        store.close()
        self.open()["a"] = 1


class OfPython(InFolder):
    def test_key_error(self) -> None:
        with palhavento.open(self.path, sync=False) as store:
            for call in (store.__getitem__, store.__delitem__, store.pop):
                with self.assertRaises(KeyError) as caught:
                    call("absent")
                self.assertEqual(caught.exception.args, ("absent",))
            with self.assertRaises(KeyError):
                store.popitem()

    def test_a_closed_store(self) -> None:
        store = palhavento.open(self.path)
        store.close()
        store.close()
        for call in (store.check, store.recover, store.rebuild, store.stats, store.buckets, store.range, store.__len__):
            with self.assertRaisesRegex(ValueError, "closed"):
                call()
        with self.assertRaisesRegex(ValueError, "closed"):
            store["a"] = 1

    def test_a_reader_changes_nothing(self) -> None:
        self.path.write_bytes(sound_file(["a"], b=2, slots=2))
        before = self.path.read_bytes()
        with palhavento.open(self.path, readonly=True) as store:
            for call in (store.clear, store.recover, lambda: store.__setitem__("b", 1), lambda: store.pop("a")):
                with self.assertRaises(io.UnsupportedOperation):
                    call()
            self.assertEqual(dict(store), {"a": 1})
        self.assertEqual(self.path.read_bytes(), before)

    def test_faults_of_the_system_are_its_own(self) -> None:
        pipe = self.folder / "pipe"
        os.mkfifo(pipe)
        cases = [
            (FileNotFoundError, self.path, {"create": False}),
            (FileNotFoundError, self.path, {"readonly": True}),
            (FileNotFoundError, self.folder / "none" / "store.tkf", {}),
            (IsADirectoryError, self.folder, {}),
            (IsADirectoryError, self.folder, {"readonly": True}),
            (OSError, self.folder / ("x" * 256), {}),
            (NotADirectoryError, pipe / "store.tkf", {}),
            (OSError, pipe, {}),
            (OSError, pipe, {"readonly": True}),
        ]
        for kind, path, words in cases:
            with self.subTest(path=path, words=words), self.assertRaises(kind) as caught:
                palhavento.open(path, **words)  # type: ignore[arg-type]
            # The file that was asked for, and none on the way to it.
            self.assertEqual(caught.exception.filename, str(path))
            self.assertIsNone(caught.exception.filename2)
        self.assertEqual(os.listdir(self.folder), ["pipe"])

    def test_a_path_without_a_name_touches_no_other_folder(self) -> None:
        inner = self.folder / "inner"
        inner.mkdir()
        with contextlib.chdir(inner), mock.patch("os.link", side_effect=AssertionError) as link:
            with self.assertRaises(FileNotFoundError):
                palhavento.open("")
        link.assert_not_called()


if __name__ == "__main__":
    unittest.main()
