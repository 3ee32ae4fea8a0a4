"""What the benchmark measured, read from the lines that its programs print; and medians of ratios within rounds.

>>> lines = ["scene\\tsmall\\t1\\t4\\t8\\t1552\\t22\\t8\\t10\\t0\\t2"]
>>> for number, ours, theirs in ((0, 10, 20), (1, 30, 30), (2, 8, 20)):
...     lines += [f"lap\\t{number}\\tsmall\\tcheck\\tnow\\t{ours}", f"lap\\t{number}\\tsmall\\tcheck\\tarray\\t{theirs}"]
>>> measured = read(lines)
>>> measured.time("small", "check", "now").median, measured.time("small", "check", "array").median
(10.0, 20.0)
>>> measured.ratio(("small", "check", "now"), ("small", "check", "array"))
Figure(median=0.5, low=0.45, high=0.75, rounds=3)
"""

from __future__ import annotations

import statistics
from collections.abc import Iterable
from dataclasses import dataclass, field
from typing import NamedTuple

# A scene's title, an operation's, a contestant's.
Key = tuple[str, str, str]


class Figure(NamedTuple):
    """The median of the rounds, and the quartiles about it."""

    median: float
    low: float
    high: float
    rounds: int

    @property
    def spread(self) -> float:
        """Half the distance between the quartiles, as a part of the median.

        >>> Figure(median=2.0, low=1.9, high=2.3, rounds=21).spread
        0.1
        """
        return round((self.high - self.low) / 2 / self.median, 12) if self.median else 0.0


class Scene(NamedTuple):
    title: str
    version: int
    b: int
    slots: int
    length: int
    held: int
    used: int
    cells: int
    ended_by: int  # the refusal that ended the filling, or 0
    tenth: int


def figure(values: Iterable[float]) -> Figure | None:
    """None where nothing was measured.

    >>> figure([3, 1, 2]), figure([7]), figure([])
    (Figure(median=2, low=1.5, high=2.5, rounds=3), Figure(median=7, low=7, high=7, rounds=1), None)
    """
    values = sorted(values)
    if len(values) < 2:
        return Figure(values[0], values[0], values[0], 1) if values else None
    low, middle, high = statistics.quantiles(values, n=4, method="inclusive")
    return Figure(statistics.median(values), low, high, len(values))


@dataclass
class Measured:
    facts: dict[str, str] = field(default_factory=dict)
    contestants: dict[str, str] = field(default_factory=dict)  # what each one is, by title
    scenes: dict[str, Scene] = field(default_factory=dict)
    laps: dict[Key, dict[int, float]] = field(default_factory=dict)  # ns an operation, by round
    counts: dict[Key, int] = field(default_factory=dict)  # operations that callgrind has seen

    def operations(self) -> list[str]:
        """In the order in which they were measured."""
        return list(dict.fromkeys(operation for _, operation, _ in self.laps))

    def time(self, scene: str, operation: str, contestant: str) -> Figure | None:
        return figure(self.laps.get((scene, operation, contestant), {}).values())

    def ratio(self, over: Key, under: Key) -> Figure | None:
        """Of the times of two keys, within each round that has both."""
        above, below = self.laps.get(over, {}), self.laps.get(under, {})
        return figure(above[at] / below[at] for at in above if below.get(at))


def read(lines: Iterable[str]) -> Measured:
    """A line of a kind that is not known is an error: nothing measured is passed over."""
    measured = Measured()
    for line in lines:
        kind, *words = line.rstrip("\n").split("\t")
        match kind, words:
            case "fact", [name, text]:
                measured.facts[name] = text
            case "contestant", [title, what]:
                measured.contestants[title] = what
            case "scene", [title, *numbers]:
                measured.scenes[title] = Scene(title, *map(int, numbers))
            case "lap", [number, scene, operation, contestant, ns]:
                measured.laps.setdefault((scene, operation, contestant), {})[int(number)] = float(ns)
            case "count", [scene, operation, contestant, operations]:
                if int(operations):
                    measured.counts[scene, operation, contestant] = int(operations)
            case _:
                raise ValueError(f"not a line of the benchmark: {line!r}")
    return measured
