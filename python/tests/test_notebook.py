"""The example notebook: its cells run without Jupyter, one after the other, and show what a notebook would draw."""

from __future__ import annotations

import ast
import contextlib
import io
import json
import os
import unittest
from pathlib import Path
from unittest import mock
from xml.etree import ElementTree

import support  # noqa: F401  (gives the package's place)

import palhavento

PROJECT = Path(__file__).resolve().parent.parent.parent
NOTEBOOK = PROJECT / "examples/vintages.ipynb"


def run(source: str, names: dict[str, object]) -> object:
    """Run one cell; what its last line is worth, if it is an expression, is what a notebook shows."""
    tree = ast.parse(source)
    last = tree.body.pop() if isinstance(tree.body[-1], ast.Expr) else None
    exec(compile(tree, str(NOTEBOOK), "exec"), names)
    return eval(compile(ast.Expression(last.value), str(NOTEBOOK), "eval"), names) if last else None


class Notebook(unittest.TestCase):
    def setUp(self) -> None:
        self.notebook = json.loads(NOTEBOOK.read_text(encoding="utf-8"))
        self.cells = [cell for cell in self.notebook["cells"] if cell["cell_type"] == "code"]

    def test_its_cells_run(self) -> None:
        # The processes that it starts find the package where this one has it.
        place = {"PYTHONPATH": str(Path(palhavento.__file__).parent.parent)}
        names: dict[str, object] = {"__name__": "__main__"}
        pictures, printed = [], io.StringIO()
        with mock.patch.dict(os.environ, place), contextlib.redirect_stdout(printed), self.assertLogs("palhavento"):
            for cell in self.cells:
                shown = run("".join(cell["source"]), names)
                if shown is not None:
                    pictures.append(shown._repr_svg_())
        self.assertEqual(len(pictures), 4)
        for picture in pictures:
            ElementTree.fromstring(picture)
        self.assertIn("the colleague sees 24 names", printed.getvalue())
        self.assertRegex(printed.getvalue(), r"\n\d+ found, [1-9]\d* refused as stale, none wrong\n")
        self.assertRegex(printed.getvalue(), r"\n\d+ names said, 0 lost, ")
        self.assertFalse(names["results"].exists())

    def test_it_is_kept_without_what_it_showed(self) -> None:
        self.assertEqual((self.notebook["nbformat"], self.notebook["nbformat_minor"]), (4, 5))
        for cell in self.cells:
            self.assertEqual((cell["outputs"], cell["execution_count"]), ([], None))


if __name__ == "__main__":
    unittest.main()
