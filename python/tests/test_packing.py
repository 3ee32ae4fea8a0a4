"""The wheel that pip installs is whole, and works from another folder than this one."""

from __future__ import annotations

import base64
import csv
import hashlib
import os
import subprocess
import sys
import tomllib
import unittest
import zipfile
from pathlib import Path
from unittest import mock

from support import InFolder

import packing
import palhavento


class Wheel(InFolder):
    def test_it_holds_the_package_and_works_elsewhere(self) -> None:
        wheel = self.folder / packing.build_wheel(str(self.folder))
        with zipfile.ZipFile(wheel) as packed:
            self.assertIsNone(packed.testzip())
            packed.extractall(self.folder / "site")
        here = {path.name for path in Path(palhavento.__file__).parent.iterdir() if path.is_file()}
        self.assertEqual({path.name for path in (self.folder / "site/palhavento").iterdir()}, here)
        self.assertLessEqual({"libpalhavento.so", *(packing.compiled(name).name for name in packing.EXTENSIONS)}, here)
        program = "import palhavento; store = palhavento.open('a.tkf'); store['a'] = 7; print(palhavento.__file__, store['a'])"
        printed = subprocess.check_output([sys.executable, "-c", program], text=True, cwd=self.folder,
                                          env={**os.environ, "PYTHONPATH": str(self.folder / "site")})
        self.assertEqual(printed, f"{self.folder}/site/palhavento/__init__.py 7\n")

    def test_it_works_without_the_extensions(self) -> None:
        with zipfile.ZipFile(self.folder / packing.build_wheel(str(self.folder))) as packed:
            packed.extractall(self.folder / "site")
        for name in packing.EXTENSIONS:
            (self.folder / "site/palhavento" / packing.compiled(name).name).unlink()
        program = """if True:
            import palhavento
            from palhavento import calls
            with palhavento.open("a.tkf") as store:
                store.update({"b": 2, "a": 1})
                print(calls.used.__name__, dict(palhavento.open("a.tkf", readonly=True)), store["b"])
        """
        printed = subprocess.check_output([sys.executable, "-c", program], text=True, cwd=self.folder,
                                          env={**os.environ, "PYTHONPATH": str(self.folder / "site")})
        self.assertEqual(printed, "ByCtypes {'a': 1, 'b': 2} 2\n")

    def test_what_is_installed_beside_the_package(self) -> None:
        with zipfile.ZipFile(self.folder / packing.build_wheel(str(self.folder))) as packed:
            [data] = {name.split("/")[0] for name in packed.namelist() if ".data/" in name}
            script = packed.read(f"{data}/scripts/palhavento").decode()
            self.assertEqual(packed.getinfo(f"{data}/scripts/palhavento").external_attr >> 16, 0o100755)
            for place, here in (("man/man1/palhavento.1", "man/palhavento.1"),
                                ("bash-completion/completions/palhavento", "completion/palhavento.bash")):
                self.assertEqual(packed.read(f"{data}/data/share/{place}"), (packing.HERE / here).read_bytes())
            packed.extractall(self.folder / "site")
        # pip puts its own Python there.
        self.assertTrue(script.startswith("#!python\n"))
        installed = self.folder / "bin" / "palhavento"
        installed.parent.mkdir()
        installed.write_text(script)
        command = [sys.executable, installed, "create", "a.tkf", "--slots", "2"]
        printed = subprocess.check_output(command, text=True, cwd=self.folder,
                                          env={**os.environ, "PYTHONPATH": str(self.folder / "site")})
        self.assertEqual(printed, "created a.tkf: 2 slots of up to 16 names, version 2\n")

    def test_an_editable_one_leads_to_the_package_here(self) -> None:
        with zipfile.ZipFile(self.folder / packing.build_editable(str(self.folder))) as packed:
            self.assertNotIn("palhavento/__init__.py", packed.namelist())
            packed.extractall(self.folder / "site")
        program = f"import site; site.addsitedir({str(self.folder / 'site')!r}); import palhavento; print(palhavento.__file__)"
        printed = subprocess.check_output([sys.executable, "-c", program], text=True, cwd=self.folder)
        self.assertEqual(printed, f"{packing.HERE}/palhavento/__init__.py\n")

    def test_its_record_lists_every_file_with_its_sum(self) -> None:
        with zipfile.ZipFile(self.folder / packing.build_wheel(str(self.folder))) as packed:
            record = next(name for name in packed.namelist() if name.endswith("/RECORD"))
            rows = list(csv.reader(packed.read(record).decode().splitlines()))
            self.assertEqual([name for name, _, _ in rows], packed.namelist())
            for name, digest, size in rows:
                content = packed.read(name)
                told = base64.urlsafe_b64encode(hashlib.sha256(content).digest()).decode().rstrip("=")
                self.assertEqual((digest, size), ("", "") if name == record else (f"sha256={told}", str(len(content))))

    def test_a_package_without_its_library_is_not_packed(self) -> None:
        (self.folder / "palhavento").mkdir()
        (self.folder / "pyproject.toml").write_bytes((packing.HERE / "pyproject.toml").read_bytes())
        with mock.patch.object(packing, "HERE", self.folder), self.assertRaisesRegex(FileNotFoundError, "make python"):
            packing.build_wheel(str(self.folder))
        self.assertEqual(list(self.folder.glob("*.whl")), [])


class Extensions(InFolder):
    def setUp(self) -> None:
        super().setUp()
        package = self.folder / "python/palhavento"
        package.mkdir(parents=True)
        (self.folder / "include").symlink_to(packing.HERE.parent / "include")
        for name in packing.EXTENSIONS:
            (package / f"{name}.c").write_bytes((packing.HERE / f"palhavento/{name}.c").read_bytes())
        here = mock.patch.object(packing, "HERE", self.folder / "python")
        here.start()
        self.addCleanup(here.stop)
        self.made = [packing.compiled(name) for name in packing.EXTENSIONS]
        for path in self.made:
            path.write_text("of an earlier run")

    def test_they_are_compiled(self) -> None:
        self.assertEqual(packing.compile_extensions(), "compiled _calls, _system")
        program = "import _calls, _system; print(_calls.__file__, _system.__file__)"
        printed = subprocess.check_output([sys.executable, "-c", program], text=True, cwd=self.made[0].parent)
        self.assertEqual(printed.split(), [str(path) for path in self.made])

    def test_without_headers_compiler_or_sense_there_are_none_and_that_is_said(self) -> None:
        with mock.patch("sysconfig.get_path", return_value=str(self.folder)):
            self.assertRegex(packing.compile_extensions(), "Python.h is not here")
        self.assertEqual([path.exists() for path in self.made], [False, False])
        with mock.patch.dict(os.environ, {"PATH": str(self.folder)}):
            self.assertRegex(packing.compile_extensions(), "gcc is not here")
        self.made[1].write_text("of an earlier run")
        (self.made[0].parent / "_calls.c").write_text("#error no sense\n")
        self.assertRegex(packing.compile_extensions(), "no extension _calls; ctypes takes its place:\n.*no sense")
        self.assertEqual([path.exists() for path in self.made], [False, False])


class Version(unittest.TestCase):
    def test_the_package_knows_its_own(self) -> None:
        project = tomllib.loads((packing.HERE / "pyproject.toml").read_text(encoding="utf-8"))["project"]
        self.assertEqual(palhavento.__version__, project["version"])


if __name__ == "__main__":
    unittest.main()
