"""Several processes over one file: one writer, readers beside it, and kills while it is created.

Kills at every moment of the stores are tried by `tests/src/killer.rs`, over `life.py`.
"""

from __future__ import annotations

import os
import random
import signal
import threading
import time
import unittest
from collections.abc import Callable
from pathlib import Path
from unittest import mock

from support import InFolder, cut_file

import palhavento
from palhavento import errors, library

B, SLOTS = 2, 30


def forked(work: Callable[[int], None]) -> tuple[int, int]:
    """A child that does this work with a pipe to tell of it, and then dies: its id, and where to listen."""
    listen, tell = os.pipe()
    child = os.fork()
    if child == 0:
        # Nothing of the parent's may run in the child, whatever happens there.
        try:
            os.close(listen)
            work(tell)
            os._exit(0)
        finally:
            os._exit(1)
    os.close(tell)
    return child, listen


def heard(listen: int) -> bytes:
    """All that a child has told, when it is dead."""
    with open(listen, "rb") as told:
        return told.read()


class Killed(InFolder):
    def test_while_creating(self) -> None:
        for turn in range(60):
            child, listen = forked(lambda tell: palhavento.open(self.path, B, SLOTS).close())
            time.sleep(0.0001 * (turn % 30))
            os.kill(child, signal.SIGKILL)
            os.waitpid(child, 0)
            os.close(listen)
            if self.path.exists():
                self.assertEqual(self.path.read_bytes(), library.create(B, SLOTS)[0])
                self.path.unlink()


class Together(InFolder):
    def ends(self, child: int) -> None:
        _, status = os.waitpid(child, 0)
        self.assertEqual(os.waitstatus_to_exitcode(status), 0)

    def test_a_second_writer_is_told(self) -> None:
        def second(tell: int) -> None:
            try:
                palhavento.open(self.path)
            except errors.Locked as refused:
                os.write(tell, str(refused.number).encode())

        with palhavento.open(self.path) as store:
            child, listen = forked(second)
            self.ends(child)
            self.assertEqual(heard(listen), b"254")
            store["a"] = 1
        child, listen = forked(second)
        self.ends(child)
        self.assertEqual(heard(listen), b"")

    def test_a_killed_writer_holds_no_lock(self) -> None:
        def wait(tell: int) -> None:
            store = palhavento.open(self.path)
            os.write(tell, b"o")
            signal.pause()
            store.close()

        child, listen = forked(wait)
        self.assertEqual(os.read(listen, 1), b"o")
        with self.assertRaises(errors.Locked):
            palhavento.open(self.path)
        os.kill(child, signal.SIGKILL)
        os.waitpid(child, 0)
        os.close(listen)
        palhavento.open(self.path).close()

    def test_a_reader_sees_the_puts_in_their_order_and_none_in_part(self) -> None:
        names = random.Random(1).sample([f"n{number:03}" for number in range(600)], 600)

        def write(tell: int) -> None:
            with palhavento.open(self.path, sync=False) as store:
                for place, name in enumerate(names):
                    store[name] = place
                    # Leaves the reader some time, also where both share a processor.
                    time.sleep(0.0001)

        palhavento.open(self.path, 16, 64).close()
        with palhavento.open(self.path, readonly=True) as store:
            child, listen = forked(write)
            seen = 0
            while seen < len(names):
                entries = store.range()
                self.assertGreaterEqual(len(entries), seen)
                seen = len(entries)
                self.assertEqual(entries, sorted((name, place) for place, name in enumerate(names[:seen])))
                if seen:
                    self.assertEqual(store[names[seen - 1]], seen - 1)
            self.ends(child)
            os.close(listen)

    def test_a_change_elsewhere_makes_the_trie_stale_and_it_is_rebuilt(self) -> None:
        with palhavento.open(self.path, 2, 8, sync=False) as writer:
            with palhavento.open(self.path, readonly=True) as reader:
                self.assertEqual(dict(reader), {})
                writer.update(rate1=1, rate2=2, rate3=3)
                with self.assertLogs("palhavento", "INFO") as logged:
                    self.assertEqual((reader["rate3"], dict(reader)), (3, dict(writer)))
        self.assertEqual(len(logged.output), 1)
        self.assertIn("rebuilt", logged.output[0])

    def test_a_reader_waits_for_a_writer_without_locks(self) -> None:
        palhavento.open(self.path, 2, 8).close()
        whole = self.path.read_bytes()
        self.path.write_bytes(whole[:100])

        def finish(tell: int) -> None:
            time.sleep(0.01)
            Path(self.path).write_bytes(whole)

        child, listen = forked(finish)
        # More patience than a user has, for a machine that is busy.
        with mock.patch("palhavento.opened._PAUSES", [0.01] * 500):
            with palhavento.open(self.path, readonly=True) as store:
                self.assertEqual(dict(store), {})
        self.ends(child)
        os.close(listen)

    def test_a_forked_child_must_open_the_file_itself(self) -> None:
        with palhavento.open(self.path) as store, palhavento.open(self.path, readonly=True) as reader:
            store["a"] = 1

            def use(tell: int) -> None:
                for call in (lambda: store.__setitem__("a", 2), lambda: store.get("a"), lambda: reader.get("a")):
                    try:
                        call()
                    except errors.Locked:
                        os.write(tell, b"l")
                # What the refusals advise.
                with palhavento.open(self.path, readonly=True) as own:
                    os.write(tell, str(own["a"]).encode())
                store.close()
                reader.close()
                # That close has not ended the parent's lock.
                try:
                    palhavento.open(self.path)
                except errors.Locked as refused:
                    os.write(tell, b"p" if f"process {os.getppid()} " in str(refused) else b"?")

            child, listen = forked(use)
            self.ends(child)
            self.assertEqual(heard(listen), b"lll1p")
            store["a"] = 3
            self.assertEqual((store["a"], reader["a"]), (3, 3))

    def test_a_forked_child_writes_once_its_parent_has_closed_the_file(self) -> None:
        wait, go = os.pipe()
        store = palhavento.open(self.path, sync=False)

        def write(tell: int) -> None:
            os.read(wait, 1)
            with palhavento.open(self.path, sync=False) as own:
                os.write(tell, str(own.increment("a")).encode())

        store["a"] = 1
        child, listen = forked(write)
        store.close()
        os.write(go, b"!")
        self.ends(child)
        self.assertEqual(heard(listen), b"2")
        os.close(wait)
        os.close(go)

    def test_a_lock_does_not_last_as_long_as_a_forked_child(self) -> None:
        def middle(tell: int) -> None:
            store = palhavento.open(self.path)
            store["a"] = 1
            if os.fork() == 0:
                os.write(tell, f"{os.getpid()} ".encode())
                signal.pause()
                os._exit(0)
            os.kill(os.getpid(), signal.SIGKILL)

        child, listen = forked(middle)
        os.waitpid(child, 0)
        grandchild = int(os.read(listen, 100))
        try:
            with palhavento.open(self.path, timeout=5) as store:
                self.assertEqual(store["a"], 1)
        finally:
            os.kill(grandchild, signal.SIGKILL)
            os.close(listen)

    def test_a_fork_in_the_middle_of_another_threads_call(self) -> None:
        """The child must not wait for a thread that it has not got."""
        with palhavento.open(self.path) as store:
            inside, done = threading.Event(), threading.Event()

            def hold() -> None:
                with store._opened.alone:
                    inside.set()
                    done.wait()

            thread = threading.Thread(target=hold)
            thread.start()
            inside.wait()

            def use(tell: int) -> None:
                signal.alarm(10)
                try:
                    store["a"] = 1
                except errors.Locked:
                    os.write(tell, b"l")
                store.close()

            child, listen = forked(use)
            done.set()
            thread.join()
            self.ends(child)
            self.assertEqual(heard(listen), b"l")

    def test_many_create_at_once_and_one_writes(self) -> None:
        def try_it(tell: int) -> None:
            try:
                store = palhavento.open(self.path, B, SLOTS)
            except errors.Locked:
                os.write(tell, b"l")
            else:
                os.write(tell, b"w")
                signal.pause()
                store.close()

        children = [forked(try_it) for _ in range(6)]
        answers = sorted(os.read(listen, 1) for _, listen in children)
        self.assertEqual(answers, [b"l"] * 5 + [b"w"])
        for child, listen in children:
            os.kill(child, signal.SIGKILL)
            os.waitpid(child, 0)
            os.close(listen)
        self.assertEqual(os.listdir(self.folder), [self.path.name])

    def test_a_reader_of_a_cut_file_sees_the_recovery_of_the_writer(self) -> None:
        self.path.write_bytes(cut_file())
        with palhavento.open(self.path, readonly=True) as reader, self.assertLogs("palhavento", "WARNING"):
            with palhavento.open(self.path, sync=False) as writer:
                writer["rate4"] = 4
                self.assertEqual(dict(reader), {"rate1": 1, "rate2": 2, "rate4": 4})


if __name__ == "__main__":
    unittest.main()
