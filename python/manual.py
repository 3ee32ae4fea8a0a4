"""Writes man/palhavento.1, the manual page, from what the command line says of itself:  python3 python/manual.py"""

from __future__ import annotations

import argparse
import re
from pathlib import Path

import palhavento
from palhavento import cli

PAGE = Path(__file__).resolve().parent / "man" / "palhavento.1"

DESCRIPTION = """\
A store is one file: names of 1 to 24 bytes in ascending order, each byte from the blank to }, with no blank first or last, and
for each name a number from 0 to 18446744073709551615; in a store of version 3 also the number of the run that wrote it. It has room for up to 1,024 names, in up to 64 buckets of up to 16. A
change is on disk when its command ends. One process at a time writes a store, and any number read it beside."""

JSON = """\
With --json a command prints one object on one line, also where it cannot be done: then with the keys error, a sentence, and
status; of status 4 also digit, the number of the digit, from 0, at which a name left its bucket's range, or null; of status 12
also run and held, the run that was given and the higher one. A value is there as a number and, since many readers of JSON change a
number above 2^53, as text too: value and value_text, old and old_text (null where the name is new), entries and entries_text. So is
its run, which is 0 where the store keeps none: run, old_run, and runs in the order of entries. What check prints has the worst word under check, and under files for
each file its store, check, reason and faults, each of these with its rule in docs/RULES.md, its slot and what it says."""


def plain(text: str) -> str:
    """A text as roff prints it: neither a backslash nor a point at the beginning of a line nor a minus means anything."""
    return re.sub(r"^([.'])", r"\\&\1", text.replace("\\", "\\e").replace("-", "\\-"), flags=re.MULTILINE)


def verbatim(text: str) -> list[str]:
    return [".nf", plain(text), ".fi"]


def arguments_of(parser: cli.Parser) -> list[argparse.Action]:
    return [action for action in parser._actions if not isinstance(action, argparse._SubParsersAction)]


def written(action: argparse.Action) -> str:
    """An argument as the user writes it."""
    if not action.option_strings:
        word = f"\\fI{action.metavar}\\fR"
        return {"+": f"{word} ...", "*": f"[{word}]"}.get(str(action.nargs), word)
    word = "" if action.nargs == 0 else f" \\fI{action.dest.upper()}\\fR"
    return ", ".join(f"\\fB{plain(option)}\\fR" for option in action.option_strings) + word


def command(name: str, says: str, parser: cli.Parser) -> list[str]:
    """A command, what it does, and its own arguments; those that all have are told once."""
    words = [written(action) for action in arguments_of(parser) if not action.option_strings]
    lines = [f".SS \\fB{name}\\fR {' '.join(words)}", plain(f"{says[0].upper()}{says[1:]}.")]
    for action in arguments_of(parser):
        if action.help and action.dest not in ("help", "json", "store", "stores"):
            lines += [".TP", written(action), plain(action.help)]
    return lines


def page() -> str:
    """The whole page."""
    top = cli.parser()
    [commands] = [action for action in top._actions if isinstance(action, argparse._SubParsersAction)]
    says = {choice.dest: choice.help or "" for choice in commands._choices_actions}
    lines = [
        r'.\" Written by manual.py from what the command line says of itself.',
        f'.TH PALHAVENTO 1 "" "palhavento {palhavento.__version__}" "User Commands"',
        ".SH NAME", r"palhavento \- ordered files of names, each with a 64\-bit value",
        ".SH SYNOPSIS", r"\fBpalhavento\fR \fICOMMAND\fR [\fB\-\-json\fR] \fISTORE\fR ...",
        ".SH DESCRIPTION", plain(cli.PURPOSE), ".PP", plain(DESCRIPTION),
        ".SH COMMANDS", *(line for name, parser in top.commands.items() for line in command(name, says[name], parser)),
        ".SH OPTIONS", ".TP", r"\fB\-\-json\fR", "print one JSON object, for scripts; see JSON below",
        ".TP", r"\fB\-h\fR, \fB\-\-help\fR", "print help; behind a command, help about that command",
        ".TP", r"\fB\-\-version\fR", "print the version",
        ".TP", r"\fB\-\-\fR", plain("what follows are no options: palhavento put rates.tkf -- -x 3"),
        ".SH JSON", plain(JSON),
        ".SH EXIT STATUS", *verbatim(cli.STATUSES.removeprefix("exit status:\n")),
        ".SH EXAMPLES", *verbatim(cli.EXAMPLES.removeprefix("examples:\n").partition("\n\n")[0]),
        ".SH FILES", ".TP", plain("STORE.journal"),
        plain("the journal of a store that is being written, or whose writer was stopped: the next to open the store finishes what it "
              "says. It belongs to the store: move or copy both, or neither."),
        ".TP", plain(".palhavento-*"), plain("what a killed create may have left. The next create in the folder removes it."),
    ]
    return "\n".join([*lines, ""])


if __name__ == "__main__":
    PAGE.write_text(page(), encoding="utf-8")
