"""The C header and the examples: every answer has its sentence, the versions are one, and what keep.c says is kept."""

from __future__ import annotations

import os
import random
import re
import signal
import subprocess
import threading
import time
import tomllib
from pathlib import Path

from support import BLANKS, InFolder, cut_file

import packing
import palhavento

PROJECT = Path(__file__).resolve().parent.parent.parent
PACKAGE = Path(palhavento.__file__).parent
STRICT = ["-Wall", "-Wextra", "-Wpedantic", "-Werror", f"-I{PROJECT / 'include'}"]

SENTENCES = r"""
#include <stdio.h>
#include "palhavento.h"
int main(void)
{
    printf("%s\n", PALHAVENTO_VERSION);
    for (uint64_t answer = 0; answer < 1000; answer++)
        printf("%s\n", pal_answer_text(answer));
    return pal_answer_text(UINT64_MAX) != pal_answer_text(0);
}
"""

# In the place of fdatasync: kills the process when it has made so many stores.
KILL = r"""
#include <signal.h>
#include <stdlib.h>
int kill_after(int file)
{
    static int stores;
    const char *last = getenv("STORES");
    if (last && ++stores == atoi(last))
        raise(SIGKILL);
    return file < 0;
}
"""


def entry_of(line: str) -> tuple[str, int]:
    """A line `name value`; a name may have blanks."""
    name, value = line.rsplit(" ", 1)
    return name, int(value)


class Header(InFolder):
    def compiled(self, *command: str) -> list[str]:
        (self.folder / "sentences.c").write_text(SENTENCES, encoding="ascii")
        program = str(self.folder / "sentences")
        subprocess.run([*command, *STRICT, str(self.folder / "sentences.c"), "-o", program], check=True)
        return subprocess.check_output([program], text=True).splitlines()

    def test_every_answer_has_its_sentence(self):
        version, *sentences = self.compiled("gcc", "-std=c99")
        self.assertEqual(self.compiled("g++", "-std=c++11", "-x", "c++"), [version, *sentences])
        header = (PROJECT / "include/palhavento.h").read_text(encoding="ascii")
        numbers = {int(number) for number in re.findall(r"ANSWER\(PAL_[A-Z_]+, +(\d+),", header)}
        done = 100, 101, 110, 111, 112, 120, 130, 131, 140, 141, 142, 150, 151, 152
        self.assertEqual(numbers, {*range(1, 9), 12, *done, 255})
        for number, sentence in enumerate(sentences):
            self.assertRegex(sentence, r"^[A-Z].*[^.]\.$")
            self.assertEqual(sentence == "No call gives this answer.", number not in numbers, number)
        self.assertEqual(len(set(sentences)), len(numbers) + 1)

    def test_one_version(self):
        project = tomllib.loads((packing.HERE / "pyproject.toml").read_text(encoding="utf-8"))["project"]
        self.assertEqual(self.compiled("gcc", "-std=c99")[0], project["version"])
        self.assertEqual(getattr(palhavento, "__version__", project["version"]), project["version"])


class Keep(InFolder):
    """examples/keep.c, killed between any two stores, and at any time."""

    def build(self, *more: str) -> str:
        program = str(self.folder / "keep")
        sources = *more, str(PROJECT / "examples/keep.c"), str(PACKAGE / "libpalhavento.so")
        subprocess.run(["gcc", "-std=c99", *STRICT, *sources, f"-Wl,-rpath,{PACKAGE}", "-o", program], check=True)
        return program

    def listed(self) -> dict[str, int]:
        lines = subprocess.check_output([str(self.folder / "keep"), "-l", str(self.path)], text=True).splitlines()
        return dict(map(entry_of, lines))

    def test_killed_after_each_store(self):
        (self.folder / "kill.c").write_text(KILL, encoding="ascii")
        keep = self.build("-Dfdatasync=kill_after", str(self.folder / "kill.c"))
        names = [f"rate {place * 37 % 41} real" for place in range(41)]
        lines = "".join(f"{name} {2**64 - 1 - place}\n" for place, name in enumerate(names))
        states, stores = set(), 0
        while True:
            stores += 1
            self.path.unlink(missing_ok=True)
            ended = subprocess.run([keep, str(self.path)], input=lines, text=True, capture_output=True,
                                   env={**os.environ, "STORES": str(stores)})
            if ended.returncode == 0:
                break
            self.assertEqual((ended.returncode, ended.stderr), (-signal.SIGKILL, ""))
            with palhavento.open(self.path, readonly=True) as store:
                states.add(store.check())
                seen = dict(store.items())
            said = dict(map(entry_of, ended.stdout.splitlines()))
            made = len(seen) - len(said)
            self.assertIn(made, (0, 1))
            self.assertEqual(seen, {name: 2**64 - 1 - place for place, name in enumerate(names[:len(said) + made])})
            self.assertEqual(self.listed(), seen)
        # Each name takes one store, and each split one more.
        self.assertEqual(states, {"sound", "cut"})
        self.assertGreater(stores, len(names) + 2)

    def test_killed_at_any_time(self):
        keep, chance, said = self.build(), random.Random(23), {}
        for _ in range(8):
            process = subprocess.Popen([keep, str(self.path)], stdin=subprocess.PIPE, stdout=subprocess.PIPE)

            def feed(pipe=process.stdin):
                try:
                    while True:
                        pipe.write(b"rate %d %d\n" % (chance.randrange(60), time.time_ns()))
                except (OSError, ValueError):
                    pass

            feeder = threading.Thread(target=feed)
            feeder.start()
            first = process.stdout.readline()
            time.sleep(chance.uniform(0, 0.1))
            process.kill()
            lines = [line for line in [first, *process.stdout] if line.endswith(b"\n")]
            process.wait()
            feeder.join()
            process.stdout.close()
            with self.assertRaises(BrokenPipeError):
                process.stdin.close()
            self.assertTrue(lines)
            said |= dict(entry_of(line.decode()) for line in lines)
        kept = self.listed()
        self.assertEqual([name for name in said if kept.get(name, 0) < said[name]], [])
        with palhavento.open(self.path) as store:
            self.assertEqual(dict(store.items()), kept)

    def test_names_with_blanks(self):
        lines = "".join(f"{name} {value}\n" for value, name in enumerate(BLANKS))
        self.assertEqual(subprocess.check_output([self.build(), str(self.path)], input=lines, text=True), lines)
        self.assertEqual(self.listed(), dict(zip(BLANKS, range(99))))

    def test_files_of_every_version(self):
        keep = self.build()
        for version, length in ((1, 36880), (2, 36880), (3, 45072)):
            with palhavento.open(self.path, version=version) as store:
                store.update({f"name {place}": 2**64 - 1 - place for place in range(300)})
            self.assertEqual(len(self.path.read_bytes()), length)
            lines = "new name 7\nname 1 8\n"
            self.assertEqual(subprocess.check_output([keep, str(self.path)], input=lines, text=True), lines)
            with palhavento.open(self.path) as store:
                self.assertEqual((store.check(), store["new name"], store["name 1"]), ("sound", 7, 8))
                kept = dict(store.items())
                store.put("name 1", 8, run=3)
            self.assertEqual(self.listed(), kept)
            ended = subprocess.run([keep, str(self.path)], input="name 1 9\n", text=True, capture_output=True)
            self.assertEqual((ended.returncode, self.listed()["name 1"]), (12, 8) if version == 3 else (0, 9), ended.stderr)
            self.path.unlink()

    def test_it_recovers_and_refuses(self):
        keep = self.build()

        def run(lines: str) -> tuple[int, str, str]:
            ended = subprocess.run([keep, str(self.path)], input=lines, text=True, capture_output=True)
            return ended.returncode, ended.stdout, ended.stderr.removeprefix(f"{self.path}: ").rstrip("\n")

        self.path.write_bytes(cut_file())
        self.assertEqual(run("rate3 3\nrate4 18446744073709551615\n"), (0, "rate3 3\nrate4 18446744073709551615\n", ""))
        self.assertEqual(self.listed(), {"rate1": 1, "rate2": 2, "rate3": 3, "rate4": 2**64 - 1})
        for illegal in ("a~ 1", " a 1", "a  1", " 1"):
            rule = "A name is not 1 to 24 bytes, each 0x20 to 0x7D, no blank first or last."
            self.assertEqual(run(f"{illegal}\n"), (1, "", rule))
        for wrong in ("a", "a -1", "a 18446744073709551616", "a 1 b", "a 1 ", ""):
            self.assertEqual(run(wrong + "\n"), (64, "", "each line has a name and a number of 64 bits"))
        with palhavento.open(self.path):
            self.assertIn("another process has it open for writing", run("a 1\n")[2])
        before = self.path.read_bytes()
        journal = Path(f"{self.path}.journal")
        journal.touch()
        self.assertIn("was left behind by another writer", run("a 1\n")[2])
        journal.unlink()
        self.path.write_bytes(before + b"\0")
        self.assertEqual(run("a 1\n")[0], 2)


if __name__ == "__main__":
    import unittest

    unittest.main()
