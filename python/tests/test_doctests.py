"""The examples in the docstrings of every module, each run in an empty folder."""

from __future__ import annotations

import contextlib
import doctest
import importlib
import tempfile
import unittest
from pathlib import Path

import support  # noqa: F401  (gives the package's place)

import palhavento


_STAY = contextlib.ExitStack()


def _enter(test: doctest.DocTest) -> None:
    _STAY.enter_context(contextlib.chdir(_STAY.enter_context(tempfile.TemporaryDirectory(prefix="palhavento-"))))
    test.globs.setdefault("palhavento", palhavento)


def _leave(test: doctest.DocTest) -> None:
    _STAY.close()


def load_tests(loader: unittest.TestLoader, tests: unittest.TestSuite, pattern: str | None) -> unittest.TestSuite:
    """One test for each docstring with an example; `__main__` is no module to import."""
    files = Path(palhavento.__file__).parent.glob("[a-z]*.py")
    for module in [palhavento, *(importlib.import_module(f"palhavento.{file.stem}") for file in sorted(files))]:
        tests.addTests(doctest.DocTestSuite(module, setUp=_enter, tearDown=_leave, optionflags=doctest.ELLIPSIS))
    return tests
