"""The first and the last moments of the command line: whatever comes, there is one line at most, and the right status.

The package is imported before a line of the command line runs; so the package imports this module first.
"""

from __future__ import annotations

import os
import sys
from types import TracebackType

# As sysexits.h has them, and the shell for an interrupt.
FAULT = 70
NO_ACCESS = 74
INTERRUPTED = 130


def begin() -> None:
    """From here on no interrupt shows a traceback, and no file becomes one of the three standard streams."""
    sys.excepthook, sys.unraisablehook = _told, _lost
    for stream in range(3):
        try:
            os.fstat(stream)
        except OSError:
            # It gets the lowest number that is free, this one.
            os.open(os.devnull, os.O_RDWR)


def complain(sentence: str, end: str = "\n") -> None:
    """Say something on standard error, where that is to be had: `print` would take standard output in its place."""
    if sys.stderr is None:
        return
    try:
        print(sentence, end=end, file=sys.stderr, flush=True)
    except OSError:
        hush(2)


def hush(stream: int) -> None:
    """Let go of what is still to be written, which Python would try again at its end."""
    os.dup2(os.open(os.devnull, os.O_WRONLY), stream)


def _told(kind: type[BaseException], error: BaseException | None, trace: TracebackType | None) -> None:
    """What nobody has caught: an interrupt is quiet, a library that is not there one line, and the rest our own fault."""
    if issubclass(kind, KeyboardInterrupt):
        os._exit(INTERRUPTED)
    if issubclass(kind, ImportError):
        complain(f"palhavento: {error}")
        os._exit(NO_ACCESS)
    if sys.stderr is not None:
        sys.__excepthook__(kind, error, trace)
    os._exit(FAULT)


def _lost(unraisable: sys.UnraisableHookArgs) -> None:
    """What was raised where nobody can catch it, as in a finalizer: an interrupt there is one all the same."""
    if issubclass(unraisable.exc_type, KeyboardInterrupt):
        os._exit(INTERRUPTED)
    sys.__unraisablehook__(unraisable)


def _is_the_program() -> bool:
    """Whether this is the script, or `python3 -m palhavento` on its way to `__main__`."""
    if sys.argv[:1] == ["-m"]:
        return any(pair == ("-m", "palhavento") for pair in zip(sys.orig_argv, sys.orig_argv[1:]))
    return getattr(sys.modules.get("__main__"), "IS_PALHAVENTO", False)


if _is_the_program():
    begin()
