"""The command line with standard streams that are closed or full, and interrupted at any moment: one line at most, and the
right status."""

from __future__ import annotations

import os
import shlex
import signal
import subprocess
import sys
import time
import unittest
from concurrent.futures import ThreadPoolExecutor
from pathlib import Path

from support import WORDS, InFolder, cut_file, sound_file

from palhavento import library

PACKAGE = Path(__file__).resolve().parent.parent
SCRIPT = PACKAGE / "bin" / "palhavento"
MODULE = f"{shlex.quote(sys.executable)} -m palhavento"

# Counts the calls and returns of Python's functions, and interrupts the process at one of them. It counts from where the
# command line can answer for itself: before that, an interrupt is Python's.
INTERRUPTER = """\
import atexit, os, signal, sys
moment, seen = int(os.environ["MOMENT"]), 0
def watch(frame, event, argument):
    global seen
    in_script = frame.f_code.co_filename.endswith("bin/palhavento") and event != "call"
    if seen or in_script or sys.excepthook is not sys.__excepthook__:
        seen += 1
        if seen == moment:
            sys.setprofile(None)
            signal.raise_signal(signal.SIGINT)
if moment == 0:
    atexit.register(lambda: os.write(2, b"%d" % seen))
sys.setprofile(watch)
"""


class InShell(InFolder):
    def setUp(self) -> None:
        super().setUp()
        self.path.write_bytes(sound_file(WORDS, b=4, slots=8))
        (self.folder / "lines.txt").write_text("oil 71\n")

    def shell(self, line: str, **environment: str) -> subprocess.CompletedProcess[str]:
        """A line of shell, in the test's folder."""
        both = {**os.environ, "PYTHONPATH": str(PACKAGE), "PATH": f"{SCRIPT.parent}:{os.environ['PATH']}", **environment}
        return subprocess.run(["bash", "-c", line], capture_output=True, text=True, cwd=self.folder, env=both, timeout=60)

    def shells(self, *lines: str, **environment: str) -> list[tuple[int, str, str]]:
        """Lines of shell, side by side: the status, output and complaint of each."""
        with ThreadPoolExecutor(3) as side_by_side:
            all_ended = list(side_by_side.map(lambda line: self.shell(line, **environment), lines))
        return [(ended.returncode, ended.stdout, ended.stderr) for ended in all_ended]


class Streams(InShell):
    def test_output_that_cannot_be_had_is_one_line_and_74(self) -> None:
        commands = ("ls store.tkf", "get --json store.tkf the", "check store.tkf", "--help", "--version")
        lines = [f"{MODULE} {command} {output}" for command in commands for output in (">&-", ">/dev/full")]
        for line, ended in zip(lines, self.shells(*lines)):
            why = "is closed" if ">&-" in line else "No space left on device"
            self.assertEqual(ended, (74, "", f"palhavento: standard output: {why}\n"), line)

    def test_a_put_that_cannot_be_told_is_made(self) -> None:
        ended = self.shell("palhavento put store.tkf oil 71 >&-")
        self.assertEqual((ended.returncode, ended.stderr), (74, "palhavento: standard output: is closed\n"))
        self.assertEqual(self.shell("palhavento get store.tkf oil").stdout, "71\n")

    def test_what_needs_no_output_needs_none(self) -> None:
        ended = self.shells("palhavento get store.tkf oil >&-", "palhavento get store.tkf oil >/dev/full")
        self.assertEqual(ended, [(101, "", "palhavento: oil: absent\n")] * 2)

    def test_a_complaint_that_cannot_be_made_leaves_the_status(self) -> None:
        for closed in ("2>&-", "2>/dev/full"):
            ended = self.shells(f"palhavento get store.tkf oil {closed}", f"palhavento get store.tkf 'a ' {closed}",
                                f"palhavento get {closed}", f"palhavento ls none.tkf {closed}",
                                f"palhavento import none.tkf lines.txt {closed}", f"{MODULE} ls store.tkf >&- {closed}",
                                f"palhavento get --json store.tkf oil {closed}")
            self.assertEqual([status for status, _, _ in ended], [101, 1, 64, 74, 74, 74, 101])
            self.assertEqual([said for _, said, _ in ended[:-1]], [""] * 6)
            self.assertEqual(ended[-1][1], '{"error": "oil: absent", "status": 101}\n')
            self.assertEqual({complaint for _, _, complaint in ended}, {""})

    def test_what_is_logged_leaves_the_status_too(self) -> None:
        for closed in ("2>&-", "2>/dev/full"):
            self.path.write_bytes(cut_file())
            ended = self.shell(f"palhavento put store.tkf rate3 3 {closed}")
            self.assertEqual((ended.returncode, ended.stdout, ended.stderr), (0, "added\n", ""))

    def test_input_that_cannot_be_had(self) -> None:
        before = self.path.read_bytes()
        ended = self.shells("palhavento import store.tkf - <&-", "palhavento import store.tkf - <&- 2>&-")
        self.assertEqual(ended, [(74, "", "palhavento: standard input: is closed\n"), (74, "", "")])
        self.assertEqual(self.path.read_bytes(), before)
        self.assertEqual(self.shell("palhavento get store.tkf the <&-").stdout, "1\n")

    def test_no_stream_becomes_the_store(self) -> None:
        ended = self.shell("palhavento import store.tkf lines.txt <&- >&- 2>&-; palhavento draw store.tkf a.svg <&- >&- 2>&-")
        self.assertEqual((ended.returncode, ended.stdout, ended.stderr), (74, "", ""))
        self.assertEqual(library.check(self.path.read_bytes()), library.SOUND)
        self.assertTrue((self.folder / "a.svg").read_text(encoding="utf-8").endswith("</svg>\n"))


class Interrupts(InShell):
    def interrupted(self, command: str, count: int) -> None:
        """A command that is interrupted at so many moments of its life: always 130, and one line at most."""
        (self.folder / "sitecustomize.py").write_text(INTERRUPTER)
        paths = f"{self.folder}:{PACKAGE}"
        last = int(self.shell(command, PYTHONPATH=paths, MOMENT="0").stderr)
        moments = [1 + last * number // count for number in range(count)]
        lines = [f"MOMENT={moment} {command}" for moment in moments]
        for line, (status, _, complaint) in zip(lines, self.shells(*lines, PYTHONPATH=paths)):
            self.assertEqual(status, 130, (line, complaint))
            self.assertRegex(complaint, r"^(palhavento: .*interrupted\..*\n)?$", line)
        self.assertNotEqual(library.check(self.path.read_bytes()), library.BAD)

    def test_the_module_at_any_moment(self) -> None:
        self.interrupted(f"{MODULE} put store.tkf oil 71", 10)

    def test_the_script_at_any_moment(self) -> None:
        self.interrupted("palhavento import store.tkf lines.txt", 10)

    def test_an_interrupted_import_says_which_line_may_be_in(self) -> None:
        lines = self.folder / "many.txt"
        lines.write_text("the 1\nthe 2\n" * 100_000)
        command = [SCRIPT, "import", "--no-sync", self.path, lines]
        started = subprocess.Popen(command, stdout=subprocess.PIPE, stderr=subprocess.PIPE, text=True)
        before, deadline = self.path.stat().st_mtime_ns, time.monotonic() + 30
        while self.path.stat().st_mtime_ns == before and time.monotonic() < deadline:
            time.sleep(0.01)
        started.send_signal(signal.SIGINT)
        said, complaint = started.communicate(timeout=60)
        self.assertEqual((started.returncode, said), (130, ""))
        self.assertRegex(complaint, r"^palhavento: \S+many\.txt:(\d+): interrupted\. "
                                    r"(The \d+ lines before it are|The line before it is|No line before it is) in the store, "
                                    r"and line \1 may be\.\n$")

    def test_a_process_that_ignores_interrupts_ignores_them(self) -> None:
        ended = self.shell(f"trap '' INT; {MODULE} get store.tkf the")
        self.assertEqual((ended.returncode, ended.stdout), (0, "1\n"))


if __name__ == "__main__":
    unittest.main()
