"""Over which libraries scripts/archive builds, with an `rt` and a compiler that write down that they were called."""

import os
import pathlib
import subprocess
import tempfile
import unittest

SCRIPT = pathlib.Path(__file__).resolve().parents[2] / "scripts" / "archive"

RT = """\
#!/bin/sh
case "$1" in
doc) echo "$PLACE/kit/START-HERE.md" ;;
all) echo "$*" > "$PLACE/checked" ;;
lib) mkdir -p out && echo "rt $*" > out/libcapi_c.a ;;
*) exit 2 ;;
esac
"""
COMPILER = """\
#!/bin/sh
[ ! -e "$PLACE/fails" ] || exit 1
while [ "$1" != -o ]; do shift; done
echo compiler > "$2"
"""


class Archive(unittest.TestCase):
    def setUp(self):
        place = tempfile.TemporaryDirectory()
        self.addCleanup(place.cleanup)
        self.top = pathlib.Path(place.name)
        for name, text in (("scripts/archive", SCRIPT.read_text()), ("bin/rt", RT), ("kit/bin/rattle", COMPILER)):
            self.write(name, text)
            (self.top / name).chmod(0o755)
        for name in ("crates.txt", "crates/capi_c/src/lib.rt", "crates/capi/src/lib.rt", "crates/capi/specs/C.antt", "crates/capi/proofs/C.antt"):
            self.write(name, "")
            os.utime(self.top / name, (1, 1))
        self.write("build/libraries-before", "")
        self.write("crates/capi/out/rlib/capi.rlib", "")

    def write(self, name, text):
        path = self.top / name
        path.parent.mkdir(parents=True, exist_ok=True)
        path.write_text(text)

    def built(self, *words):
        """What the archive was built by, or None where the script failed."""
        path = f"{self.top / 'bin'}:{os.environ['PATH']}"
        run = subprocess.run(
            [self.top / "scripts" / "archive", *words],
            capture_output=True, text=True, check=False, env={**os.environ, "PATH": path, "PLACE": str(self.top)},
        )
        return (self.top / "target/staticlib/libcapi.a").read_text().strip() if run.returncode == 0 else None

    def test_after_ci_the_archive_is_built_over_what_it_made(self):
        self.assertEqual(self.built("--after-ci"), "compiler")
        self.assertFalse((self.top / "checked").exists())

    def test_these_libraries_do_not_stay_for_a_later_run(self):
        self.built("--after-ci")
        self.assertEqual(list(self.top.glob("crates/*/out/rlib")), [])

    def test_by_itself_every_crate_is_checked_first(self):
        self.assertEqual(self.built(), "rt lib --cpu x86-64")
        self.assertEqual((self.top / "checked").read_text(), "all check\n")

    def test_libraries_that_lay_there_before_are_not_taken(self):
        self.write("build/libraries-before", "crates/capi/out/rlib\n")
        self.assertEqual(self.built("--after-ci"), "rt lib --cpu x86-64")

    def test_without_a_run_of_ci_none_is_taken(self):
        (self.top / "build/libraries-before").unlink()
        self.assertEqual(self.built("--after-ci"), "rt lib --cpu x86-64")

    def test_after_a_check_none_is_taken(self):
        self.write("crates/capi/out/rlib/stamp", "")
        self.assertEqual(self.built("--after-ci"), "rt lib --cpu x86-64")

    def test_after_a_change_none_is_taken(self):
        for name in ("crates.txt", "crates/capi/src/lib.rt", "crates/capi/specs/C.antt", "crates/capi/proofs/C.antt"):
            os.utime(self.top / name, (4e9, 4e9))
            self.assertEqual(self.built("--after-ci"), "rt lib --cpu x86-64", name)
            os.utime(self.top / name, (1, 1))

    def test_a_compiler_that_fails_leaves_no_archive(self):
        self.write("fails", "")
        self.assertIsNone(self.built("--after-ci"))
        self.assertFalse((self.top / "target/staticlib/libcapi.a").exists())


if __name__ == "__main__":
    unittest.main()
