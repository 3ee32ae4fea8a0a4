"""When scripts/prove fails, with an `rt` that says what it is told to."""

import os
import pathlib
import subprocess
import tempfile
import unittest

SCRIPT = pathlib.Path(__file__).resolve().parents[2] / "scripts" / "prove"
OK = "rt: ok; handles allowed: none; must-fail edits: 3 refused; every proof and must-fail edit was done in this run\n"


class Prove(unittest.TestCase):
    def setUp(self):
        place = tempfile.TemporaryDirectory()
        self.addCleanup(place.cleanup)
        self.top = pathlib.Path(place.name)
        for folder in ("scripts", "bin"):
            (self.top / folder).mkdir()
        (self.top / "scripts" / "prove").write_text(SCRIPT.read_text())
        (self.top / "bin" / "rt").write_text('#!/bin/sh\n[ "$*" = ci ] && [ -f scripts/prove ] || exit 2\ncat said\nexit "$(cat status)"\n')
        for file in ("scripts/prove", "bin/rt"):
            (self.top / file).chmod(0o755)

    def run_script(self, said, status=0):
        (self.top / "said").write_text(said)
        (self.top / "status").write_text(str(status))
        path = f"{self.top / 'bin'}:{os.environ['PATH']}"
        run = subprocess.run([self.top / "scripts" / "prove"], capture_output=True, text=True, check=False, env={**os.environ, "PATH": path})
        return run.returncode, run.stdout.splitlines()[-1]

    def test_what_rt_passes_passes(self):
        self.assertEqual(self.run_script(OK + "5 passed, 0 failed\n"), (0, "5 passed, 0 failed"))

    def test_what_rt_fails_fails(self):
        self.assertEqual(self.run_script("rt: FAILED: c\n4 passed, 1 failed\n", 1), (1, "4 passed, 1 failed"))

    def test_a_bad_edit_fails(self):
        said = OK.replace("3 refused", "2 refused, 1 bad") + "5 passed, 0 failed\n"
        self.assertEqual(self.run_script(said), (1, "5 passed, 1 failed"))

    def test_an_edit_refused_by_a_limit_alone_fails(self):
        said = OK.replace("3 refused", "3 refused, 1 of them only by a limit") + "5 passed, 0 failed\n"
        self.assertEqual(self.run_script(said), (1, "5 passed, 1 failed"))

    def test_an_edit_refused_for_a_name_alone_fails(self):
        said = "rt: must-fail c/one.edit: refused, as it must be (only because a proof file names what the edit took away, so ..\n"
        self.assertEqual(self.run_script(said + OK + "5 passed, 0 failed\n"), (1, "5 passed, 1 failed"))

    def test_the_libraries_that_lie_there_are_listed(self):
        self.run_script(OK + "5 passed, 0 failed\n")
        self.assertEqual((self.top / "build" / "libraries-before").read_text(), "")
        (self.top / "crates" / "c" / "out" / "rlib").mkdir(parents=True)
        self.run_script(OK + "5 passed, 0 failed\n")
        self.assertEqual((self.top / "build" / "libraries-before").read_text(), "crates/c/out/rlib\n")

    def test_a_run_that_does_not_say_ok_fails(self):
        self.assertEqual(self.run_script("5 passed, 0 failed\n"), (1, "5 passed, 1 failed"))


if __name__ == "__main__":
    unittest.main()
