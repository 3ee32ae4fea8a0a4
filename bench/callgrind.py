"""The instructions of each operation, from the files that callgrind writes while `bench/count.c` runs."""

from __future__ import annotations

import re
from collections import Counter
from collections.abc import Iterable
from pathlib import Path

from figures import Key

LABEL = re.compile(r"^desc: Trigger: Client Request: (.*)\|(.*)\|(.*)$", re.MULTILINE)
SUMMARY = re.compile(r"^summary: (\d+)$", re.MULTILINE)


def total(text: str) -> tuple[Key, int] | None:
    """The label and the instructions of one file; None for the last one, which holds what came behind all labels.

    >>> total("desc: Trigger: Client Request: small|check|now\\nevents: Ir\\nsummary: 12\\n")
    (('small', 'check', 'now'), 12)
    >>> total("desc: Trigger: Program termination\\nsummary: 0\\n")
    """
    label = LABEL.search(text)
    if not label:
        return None
    return label.groups(), int(SUMMARY.search(text)[1])


def instructions(texts: Iterable[str], counts: dict[Key, int]) -> dict[Key, float]:
    """Instructions an operation; an operation that is measured in parts has one file a part.

    >>> part = "desc: Trigger: Client Request: small|put|now\\nsummary: {}\\n"
    >>> instructions([part.format(30), part.format(12)], {("small", "put", "now"): 4})
    {('small', 'put', 'now'): 10.5}
    """
    totals: Counter[Key] = Counter()
    for key, number in filter(None, map(total, texts)):
        totals[key] += number
    return {key: totals[key] / operations for key, operations in counts.items()}


def read(folder: Path, counts: dict[Key, int]) -> dict[Key, float]:
    return instructions((path.read_text(encoding="utf-8") for path in folder.iterdir()), counts)
