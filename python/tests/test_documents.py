"""What the documents show is what the library gives: bytes, pictures, README's Python and its five minutes.

And the rules that are cited anywhere are there.
"""

import ast
import contextlib
import os
import re
import subprocess
import sys
import unittest
from collections.abc import Iterator
from pathlib import Path

from support import WORDS, InFolder, sound_file

import palhavento

PROJECT = Path(__file__).resolve().parent.parent.parent


def bound(digits: bytes) -> str:
    return f'"{digits.decode()}"' if digits else "no limit"


def explained(file: bytes) -> Iterator[str]:
    """The bytes of a file with b = 4, sixteen a line, and what each line is."""

    def line(at: int, says: str) -> str:
        return f"{at:04x}  {file[at:at + 16].hex(' ')}  {says}".rstrip()

    yield line(0, f'"TKF", version 1, b = {file[5]}, {file[6]} slots; the rest of the header is zero')
    last_used = max(slot for slot in range(file[6]) if file[16 + 192 * slot])
    for slot in range(last_used + 1):
        at = 16 + 192 * slot
        _, count, lower, upper = file[at:at + 4]
        yield ""
        low, high = bound(file[at + 8:at + 8 + lower]), bound(file[at + 32:at + 32 + upper])
        yield line(at, f"slot {slot}: used, entries {count}, lengths {lower} and {upper}; zero; lower {low}")
        yield line(at + 16, "  lower goes on")
        yield line(at + 32, f"  upper {high}")
        yield line(at + 48, "  upper goes on; zero")
        for entry in range(4):
            place = at + 64 + 32 * entry
            name, value = file[place:place + 24].decode().rstrip(), int.from_bytes(file[place + 24:place + 32], "little")
            if entry < count:
                yield line(place, f"  entry {entry}: {name}")
                yield line(place + 16, f"    name goes on; value {value}")
            else:
                yield line(place, f"  entry {entry}: unused")
                yield line(place + 16, "")
    free = 16 + 192 * (last_used + 1)
    yield ""
    yield f"{free:04x} to {len(file) - 1:04x} are zero: slots {last_used + 1} to {file[6] - 1} are free"


def texts() -> Iterator[tuple[str, str]]:
    """The texts of the project that cite rules: code, definitions, tests and documents."""
    for folder in ("bench", "crates", "docs", "edits", "examples", "include", "python", "tests"):
        for kind in ("antt", "c", "edit", "h", "md", "py", "rs", "rt"):
            for path in (PROJECT / folder).rglob(f"*.{kind}"):
                place = path.relative_to(PROJECT)
                if "out" not in place.parts:  # what `rt` makes
                    yield str(place), path.read_text(encoding="utf-8")
    yield "README.md", (PROJECT / "README.md").read_text(encoding="utf-8")


class Rules(unittest.TestCase):
    def test_each_rule_that_is_cited_is_there_once(self):
        rules = (PROJECT / "docs/RULES.md").read_text(encoding="utf-8")
        numbers = re.findall(r"\*\*(R\d+\.\d+)\*\*", rules)
        self.assertGreater(len(numbers), 100)
        self.assertEqual(len(numbers), len(set(numbers)))
        for place, text in texts():
            self.assertLessEqual(set(re.findall(r"\bR\d+\.\d+\b", text)), set(numbers), place)

    def test_each_reading_that_is_cited_is_there(self):
        rules = (PROJECT / "docs/RULES.md").read_text(encoding="utf-8")
        decisions = (PROJECT / "docs/DECISIONS.md").read_text(encoding="utf-8")
        readings = decisions[decisions.index("## How the rules are read"):decisions.index("## How it is built")]
        there = set(re.findall(r"^(\d+)\. ", readings, re.MULTILINE))
        cited = set(re.findall(r"readings? (\d+)", rules)) | set(re.findall(r"readings \d+, (\d+)", rules))
        self.assertTrue(cited and cited <= there, cited - there)


class Reading(unittest.TestCase):
    """READING.md gives for each file the lines to read: those that are neither blank nor `use` lines."""

    def test_the_lines_of_each_file_and_of_each_table(self):
        text = (PROJECT / "docs/READING.md").read_text(encoding="utf-8")
        row = re.compile(r"^\| `(crates/\S+)` \| (\d+) \|", re.MULTILINE)
        tables = [rows for rows in map(row.findall, text.split("\n\n")) if rows]
        for path, lines in (row for rows in tables for row in rows):
            read = (PROJECT / path).read_text(encoding="utf-8").splitlines()
            self.assertEqual(sum(bool(line.strip()) and not line.startswith("use ") for line in read), int(lines), path)
        believed, _, stated, _, interface = (sum(int(lines) for _, lines in rows) for rows in tables)
        self.assertEqual([int(n) for n in re.findall(r": (\d+) lines", text)], [believed, stated, interface])

    def test_no_definition_of_the_model_is_left_out(self):
        text = (PROJECT / "docs/READING.md").read_text(encoding="utf-8")
        for path in (PROJECT / "crates/model/specs").glob("*.antt"):
            self.assertTrue(path.name == "Lib.antt" or f"`crates/model/specs/{path.name}`" in text, path)


class Documents(InFolder):
    def setUp(self) -> None:
        super().setUp()
        self.path.write_bytes(sound_file(WORDS, b=4, slots=8))

    def test_the_bytes_of_the_nine_words(self):
        shown = (PROJECT / "docs/FORMAT.md").read_text(encoding="utf-8")
        self.assertIn("\n".join(explained(self.path.read_bytes())), shown)

    def test_readmes_lines_and_their_pictures(self):
        readme = (PROJECT / "README.md").read_text(encoding="utf-8")
        lines = re.search(r"```python\n(.*?)```", readme, re.DOTALL)[1].splitlines()
        self.assertEqual(len(lines), 6)
        asked, answer = lines[3].split("#")
        named: dict[str, object] = {}
        with contextlib.chdir(self.folder):
            exec("\n".join(lines[:3]), named)
        self.assertEqual(eval(asked, named), ast.literal_eval(answer.strip()))
        shown = re.findall(r"^!\[.*\]\((.*\.svg)\)$", readme, re.MULTILINE)
        self.assertEqual(shown, ["docs/store.svg", "docs/trie.svg"])
        for line, picture in zip(lines[4:], shown):
            self.assertEqual(eval(line, named)._repr_svg_(), (PROJECT / picture).read_text(encoding="utf-8"))

    def five_minutes(self, old: str = "", new: str = "") -> subprocess.CompletedProcess[str]:
        """README's story, told in bash, with one of its lines changed."""
        story = re.search(r"```sh\n(.*?)```", (PROJECT / "README.md").read_text(encoding="utf-8"), re.DOTALL)[1]
        self.assertIn(old, story)
        changed = story.replace(old, new, 1).replace("sleep 1;", "sleep 0.2;") if old else story
        return subprocess.run(["bash", "-c", changed], cwd=PROJECT, capture_output=True, text=True,
                              env={**os.environ, "TMPDIR": str(self.folder)}, timeout=60)

    def test_readmes_five_minutes(self):
        ended = self.five_minutes()
        self.assertEqual((ended.returncode, ended.stderr.count("Killed")), (0, 3), ended.stderr)
        self.assertRegex(ended.stdout, r"^[1-9]\d* names said, 0 lost\nsound\ndrew rates.svg\n$", ended.stderr)

    def test_readmes_five_minutes_on_a_slow_machine(self):
        ended = self.five_minutes("store = palhavento.open", "time.sleep(0.5); store = palhavento.open")
        self.assertEqual(ended.returncode, 0, ended.stderr)
        self.assertRegex(ended.stdout, r"^[1-9]\d* names said, 0 lost\n", ended.stderr)

    def test_readmes_five_minutes_fail_where_nothing_was_said(self):
        for old, new in (("while True:", "while False:"), ("store = palhavento.open", "exit(); store = palhavento.open")):
            ended = self.five_minutes(old, new)
            self.assertNotEqual(ended.returncode, 0, ended.stdout)
            self.assertNotIn("sound", ended.stdout)

    def test_readmes_late_run(self):
        _, story = re.findall(r"```sh\n(.*?)```", (PROJECT / "README.md").read_text(encoding="utf-8"), re.DOTALL)
        ended = subprocess.run(["bash", "-c", story], cwd=PROJECT, capture_output=True, text=True,
                               env={**os.environ, "TMPDIR": str(self.folder)}, timeout=60)
        self.assertEqual((ended.returncode, ended.stderr), (0, ""))
        refused = "'gdp.de': The name is held with a higher run: run 2 wrote it, and this put is of run 1."
        self.assertEqual(ended.stdout.splitlines()[1:], ["run 2 saved 4330", f"run 1 came late: {refused}", "gdp.de 4330@2"])

    def test_readmes_refusals(self):
        readme = (PROJECT / "README.md").read_text(encoding="utf-8")
        refusals = re.findall(r"^\| (\d+) \| .* \| `(\w+)` \|$", readme, re.MULTILINE)
        self.assertEqual([int(number) for number, _ in refusals], [*range(1, 9), 12])
        for number, kind in refusals:
            self.assertEqual(getattr(palhavento, kind).number, int(number))

    def test_what_is_left_of_a_bad_file(self):
        operations = (PROJECT / "docs/OPERATIONS.md").read_text(encoding="utf-8")
        program = re.search(r"```python\n(.*?)```", operations, re.DOTALL)
        for version, size in ((1, 192), (3, 224)):
            file = bytearray(sound_file(WORDS, 4, 8, version))
            file[16 + size * 2 + 4] = 1
            self.path.write_bytes(file)
            printed = subprocess.check_output([sys.executable, "-c", program[1], str(self.path)], text=True)
            found = {name: int(value) for name, value in map(str.split, printed.splitlines())}
            self.assertEqual(found, {word: place for place, word in enumerate(WORDS, 1)})


if __name__ == "__main__":
    unittest.main()
