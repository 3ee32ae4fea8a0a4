"""What scripts/edits counts and what it does not, with a prover in place of `rt` that answers as it is told to."""

import doctest
import importlib.machinery
import importlib.util
import os
import pathlib
import re
import subprocess
import tempfile
import unittest

PROJECT = pathlib.Path(__file__).resolve().parents[2]
SCRIPT = PROJECT / "scripts" / "edits"

# Proves crate d, and crate c over it as d was; says of c over another d what the file `answer` has, whose first line is the status.
PROVER = """\
#!/usr/bin/env bash
[ "$*" = check ] || exit 2
crate=$(basename "$PWD")
if [ "$crate" = d ]; then
    ls proofs >"$PLACE/proofs"
    echo logic=$(cat "$PLACE/verdict")
    exit "$(cat "$PLACE/alone")"
fi
cp proofs/C.antt "$PLACE/cases"
! grep -q three_hold proofs/C.antt || { echo logic=not-proved; exit 1; }
[ -e ../d/proofs/Laws.antt ] || [ ! -e "$PLACE/needs-laws" ] || { echo logic=not-proved; exit 1; }
if grep -q edited ../d/specs/D.antt; then
    tail -n +2 "$PLACE/answer"
    exit "$(head -n 1 "$PLACE/answer")"
fi
cat "$PLACE/control"
exit "$(cat "$PLACE/status")"
"""

REFUSED = "1\nfn c::f: proved\nproofs/f/Answers.antt:7:1: error: 1 is not 2\n  at f\nfn c::g: proved\nlogic=not-proved functions=2\n"
PROVED = "fn c::f: proved\nlogic=proved functions=1\n"


class Edits(unittest.TestCase):
    def setUp(self):
        place = tempfile.TemporaryDirectory()
        self.addCleanup(place.cleanup)
        self.top = pathlib.Path(place.name)
        self.write("scripts/edits", SCRIPT.read_text())
        self.write("crates.txt", "d:\nc: d\n")
        self.write("crates/d/specs/D.antt", "first; twice; twice;")
        self.write("crates/d/proofs/Prelude.antt", "")
        self.write("crates/d/proofs/Laws.antt", "")
        self.write("alone", "0")
        self.write("verdict", "proved")
        self.write("crates/c/proofs/C.antt", "use Rattle.d.proofs.Prelude.{refl}\n  one_hold = refl;\n  two_hold = refl;\n")
        self.write("crates/c/src/lib.rt", "fn f() {\n    first;\n}\n")
        self.write("bin/rt", PROVER)
        (self.top / "bin" / "rt").chmod(0o755)
        self.write("control", PROVED)
        self.write("status", "0")
        self.write("answer", REFUSED)
        self.write("edits/c/one.edit", "Why.\ncrate: d\nfile: specs/D.antt\nold: first;\nnew: edited;\n")

    def write(self, name, text):
        path = self.top / name
        path.parent.mkdir(parents=True, exist_ok=True)
        path.write_text(text)

    def run_script(self, *crates):
        path = f"{self.top / 'bin'}:{os.environ['PATH']}"
        run = subprocess.run(
            ["python3", self.top / "scripts" / "edits", *crates],
            capture_output=True, text=True, check=False, env={**os.environ, "PATH": path, "PLACE": str(self.top), "RT_JOBS": "1"},
        )
        return run.returncode, run.stdout

    def fails(self, why):
        status, said = self.run_script()
        self.assertEqual(status, 1, said)
        self.assertIn("FAILED: c", said)
        self.assertIn(why, said)
        self.assertTrue(said.endswith("0 passed, 1 failed\n"), said)

    def test_an_edit_that_is_refused_counts(self):
        status, said = self.run_script()
        self.assertEqual(status, 0, said)
        self.assertIn("c/one: refused, first at proofs/f/Answers.antt:7:1", said)
        self.assertTrue(said.endswith("1 passed, 0 failed\n"), said)

    def test_its_first_error_is_kept(self):
        self.run_script()
        kept = (self.top / "build/edits/c/one.txt").read_text()
        self.assertEqual(kept, "proofs/f/Answers.antt:7:1: error: 1 is not 2\n  at f\n")

    def test_the_repository_stays_as_it_was(self):
        def files():
            return {path: path.read_text() for path in (self.top / "crates").rglob("*.*t")}

        were = files()
        self.run_script()
        self.assertEqual(files(), were)

    def test_an_edit_that_is_proved_fails(self):
        self.write("answer", "0\nlogic=proved functions=1\n")
        self.fails("NOT REFUSED")

    def test_a_compiler_error_is_no_refusal(self):
        self.write("answer", "1\nsrc/lib.rt:2:5: error: no such name\n")
        self.fails("did not come to a verdict")

    def test_a_prover_that_cannot_tell_is_no_refusal(self):
        self.write("answer", "3\nlogic=not-proved\n")
        self.fails("status 3")

    def test_the_control_must_be_proved(self):
        self.write("status", "1")
        self.fails("c is not proved over d cut down")

    def test_an_old_text_must_stand_once(self):
        for old, times in (("nowhere;", 0), ("twice;", 2)):
            self.write("edits/c/one.edit", f"crate: d\nfile: specs/D.antt\nold: {old}\nnew: edited;\n")
            self.fails(f"stands {times} times")

    def test_an_edit_without_a_pair_fails(self):
        for text in ("", "file: specs/D.antt\n", "old: first;\nnew: edited;\n"):
            self.write("edits/c/one.edit", "crate: d\n" + text)
            status, said = self.run_script()
            self.assertEqual(status, 1, said)

    def test_an_edit_of_its_own_crate_is_left_to_rt(self):
        self.write("edits/c/one.edit", "file: src/lib.rt\nold: first;\nnew: edited;\n")
        self.fails("belongs in crates/c/must-fail")

    def test_an_edit_of_another_crates_definition_that_is_refused_counts(self):
        status, said = self.run_script()
        self.assertEqual(status, 0, said)
        self.assertTrue(said.endswith("1 passed, 0 failed\n"), said)
        self.assertEqual((self.top / "proofs").read_text(), "Lib.antt\nPrelude.antt\n")
        self.assertIn("first;", (self.top / "crates/d/specs/D.antt").read_text())

    def test_only_the_lists_of_cases_that_are_named_are_tried(self):
        self.write("edits/c/one.edit", "crate: d\ncases: two\nfile: specs/D.antt\nold: first;\nnew: edited;\n")
        status, said = self.run_script()
        self.assertEqual(status, 0, said)
        self.assertNotIn("one_hold", (self.top / "cases").read_text())
        self.assertIn("two_hold", (self.top / "cases").read_text())

    def test_the_control_has_the_lists_of_the_edit(self):
        self.write("crates/c/proofs/C.antt", "use Rattle.d.proofs.Prelude.{refl}\n  two_hold = refl;\n  three_hold = refl;\n")
        for lists, passes in (("two", True), ("two three", False), ("three", False)):
            self.write("edits/c/one.edit", f"crate: d\ncases: {lists}\nfile: specs/D.antt\nold: first;\nnew: edited;\n")
            if passes:
                self.assertEqual(self.run_script()[0], 0)
            else:
                self.fails("c is not proved over d cut down")

    def test_the_control_must_be_proved_over_the_other_crate_cut_down(self):
        self.write("needs-laws", "")
        self.fails("c is not proved over d cut down")

    def test_the_other_crate_must_be_proved_by_its_definitions(self):
        for status, verdict in (("1", "not-proved"), ("1", "proved"), ("0", "not-proved")):
            self.write("alone", status)
            self.write("verdict", verdict)
            self.fails("not proved by its definitions alone")

    def test_only_a_definition_of_another_crate_is_changed(self):
        self.write("crates/d/src/lib.rt", "first;")
        for crate, file, why in (
            ("d", "src/lib.rt", "is no file of the crate's specs"),
            ("d", "proofs/Prelude.antt", "is no file of the crate's specs"),
            ("d", "specs/../src/lib.rt", "is no file of the crate's specs"),
            ("d", "specs/None.antt", "is no file of the crate's specs"),
            ("none", "specs/D.antt", "is no other crate"),
            ("c", "specs/D.antt", "is no other crate"),
        ):
            self.write("edits/c/one.edit", f"crate: {crate}\nfile: {file}\nold: first;\nnew: edited;\n")
            status, said = self.run_script()
            self.assertEqual(status, 1, said)
            self.assertIn(why, said)

    def test_every_edit_starts_from_the_crate_as_it_stands(self):
        self.write("edits/c/two.edit", "crate: d\nfile: specs/D.antt\nold: first;\nnew: edited;\n")
        status, said = self.run_script("c")
        self.assertEqual(status, 0, said)
        self.assertTrue(said.endswith("2 passed, 0 failed\n"), said)


class Repository(unittest.TestCase):
    """The repository's own edits, of which `rt ci` tries those in must-fail/."""

    def test_an_edit_changes_code_or_definitions_only(self):
        edits = [*PROJECT.glob("crates/*/must-fail/*.edit"), *PROJECT.glob("edits/*/*.edit")]
        self.assertTrue(edits)
        for edit in edits:
            files = re.findall(r"^file: (.*)$", edit.read_text(), re.M)
            self.assertTrue(files, edit)
            for file in files:
                self.assertRegex(file, r"^(src|specs)/[\w/]+\.(rt|antt)$", edit)


def load_tests(loader, tests, pattern):
    """The examples in the script's own comments, too."""
    made = importlib.machinery.SourceFileLoader("edits", str(SCRIPT))
    module = importlib.util.module_from_spec(importlib.util.spec_from_loader("edits", made))
    made.exec_module(module)
    tests.addTests(doctest.DocTestSuite(module))
    return tests


if __name__ == "__main__":
    unittest.main()
