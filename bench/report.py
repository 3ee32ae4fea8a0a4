"""Prints what the benchmark measured as tables in markdown, and keeps all of it as JSON.

    python3 bench/report.py LINES CALLGRIND-FOLDER TABLES.md ALL.json        # bench/run.sh calls it so
"""

from __future__ import annotations

import json
import sys
from collections.abc import Iterable, Iterator, Sequence
from pathlib import Path

import callgrind
import figures
from figures import Figure, Key, Measured, Scene

OURS, BEFORE = "now", "before"
NONE = "–"


def ns(time: float) -> str:
    """
    >>> ns(12.345), ns(99.96), ns(255.4), ns(13207.2)
    ('12.3', '100', '255', '13,207')
    """
    return f"{time:.1f}" if time < 99.95 else f"{time:,.0f}"


def quotient(value: float) -> str:
    """Three digits that matter, and below 1 two.

    >>> [quotient(value) for value in (1234.5, 99.96, 12.34, 9.996, 1.234, 0.1234, 0.0996, 0.04, 0.0001234)]
    ['1,234', '100', '12.3', '10.0', '1.23', '0.12', '0.10', '0.040', '0.00012']
    """
    if value >= 99.95:
        return f"{value:,.0f}"
    if value >= 9.995:
        return f"{value:.1f}"
    exponent = int(f"{value:.1e}".partition("e")[2])
    return f"{value:.{max(2, 1 - exponent)}f}"


def cell(shown: Figure | None, number=quotient) -> str:
    """A median and its spread.

    >>> cell(Figure(0.871, 0.86, 0.89, 21)), cell(None)
    ('0.87 ±2%', '–')
    """
    return f"{number(shown.median)} ±{shown.spread:.0%}" if shown else NONE


def table(heading: Sequence[str], rows: Iterable[Sequence[str]]) -> Iterator[str]:
    """
    >>> print("\\n".join(table(["", "ns"], [["check", "12"]])))
    | | ns |
    |---|---|
    | check | 12 |
    """
    yield "|" + "".join(f" {word} |" if word else " |" for word in heading)
    yield "|" + "---|" * len(heading)
    for row in rows:
        yield "| " + " | ".join(row) + " |"


def times(measured: Measured, scene: str) -> Iterator[str]:
    """One scene: our times, and their ratios to those of all others."""
    others = [title for title in measured.contestants if title != OURS]
    rows = []
    for operation in measured.operations():
        ours = (scene, operation, OURS)
        shown = measured.time(*ours)
        if shown:
            ratios = (measured.ratio(ours, (scene, operation, other)) for other in others)
            rows.append([operation, cell(shown, ns), *map(cell, ratios)])
    yield from table(["", "ns", *others], rows)


def about(scene: Scene) -> str:
    ended = f"; refusal {scene.ended_by} ended the filling" if scene.ended_by else ""
    return (f"{scene.length:,} bytes, {scene.held:,} of {scene.b * scene.slots:,} entries, {scene.used} slots used, "
            f"{scene.cells} cells{ended}. A tenth is {scene.tenth} entries.")


def growth(measured: Measured, small: str, large: str) -> Iterator[str]:
    """How many times as long everyone takes in the larger of two files, within a round."""
    titles = list(measured.contestants)
    rows = []
    for operation in measured.operations():
        ratios = [measured.ratio((large, operation, title), (small, operation, title)) for title in titles]
        if ratios[0]:
            rows.append([operation, *map(cell, ratios)])
    yield from table(["", *titles], rows)


def growths(measured: Measured) -> Iterator[tuple[Scene, Scene]]:
    """The pairs of files that differ in their slots alone, the smaller one first."""
    scenes = list(measured.scenes.values())
    for small in scenes:
        for large in scenes:
            if (small.version, small.b) == (large.version, large.b) and small.slots < large.slots:
                yield small, large


def counted(instructions: dict[Key, float]) -> Iterator[str]:
    """Instructions an operation, and in brackets their ratio to those of the earlier commit."""
    scenes = list(dict.fromkeys(scene for scene, _, _ in instructions))
    rows = []
    for operation in dict.fromkeys(operation for _, operation, _ in instructions):
        row = [operation]
        for scene in scenes:
            ours, before = (instructions.get((scene, operation, title)) for title in (OURS, BEFORE))
            text = f"{ours:,.0f}" if ours else NONE
            row.append(f"{text} ({ours / before:.2f})" if ours and before else text)
        rows.append(row)
    yield from table(["", *scenes], rows)


def opening(measured: Measured) -> Iterator[str]:
    rounds = max((len(laps) for laps in measured.laps.values()), default=0)
    yield (f"Medians of {rounds} rounds. The first column is our time in ns an operation. In each other column our time is divided "
           "by that contestant's, within each round: below 1 we are faster. ± is half the distance between the quartiles.")
    yield ""
    for title, what in measured.contestants.items():
        commit = measured.facts.get(title)
        yield f"- **{title}**: {what}" + (f" ({commit})" if commit else "")
    told = [f"{name}: {text}" for name, text in measured.facts.items() if name not in measured.contestants]
    if told:
        yield ""
        yield "; ".join(told) + "."


def tables(measured: Measured, instructions: dict[Key, float]) -> Iterator[str]:
    yield from opening(measured)
    for scene in measured.scenes.values():
        yield from ("", f"## {scene.title}", "", about(scene), "")
        yield from times(measured, scene.title)
    for small, large in growths(measured):
        yield from ("", f"## From {small.slots} to {large.slots} slots, b = {small.b}, version {small.version}", "",
                    "How many times as long an operation takes in the larger file.", "")
        yield from growth(measured, small.title, large.title)
    if instructions:
        yield from ("", "## Instructions an operation", "", "Counted by callgrind, inside our calls alone"
                    + ("; in brackets: now / before." if BEFORE in measured.contestants else "."), "")
        yield from counted(instructions)


def everything(measured: Measured, instructions: dict[Key, float]) -> dict:
    """All laps, the figures made of them, and the instructions."""
    lines = []
    for key in dict.fromkeys((*measured.laps, *instructions)):
        scene, operation, contestant = key
        time, ratio = measured.time(*key), measured.ratio((scene, operation, OURS), key)
        lines.append({"scene": scene, "operation": operation, "contestant": contestant,
                      "ns": time and time._asdict(), "ours / theirs": ratio and ratio._asdict(),
                      "laps": list(measured.laps.get(key, {}).values()), "instructions": instructions.get(key)})
    return {"facts": measured.facts, "contestants": measured.contestants,
            "scenes": [scene._asdict() for scene in measured.scenes.values()], "measured": lines}


def main(lines: str, folder: str, markdown: str, kept: str) -> None:
    measured = figures.read(Path(lines).read_text(encoding="utf-8").splitlines())
    instructions = callgrind.read(Path(folder), measured.counts)
    text = "\n".join(tables(measured, instructions)) + "\n"
    Path(markdown).write_text(text, encoding="utf-8")
    Path(kept).write_text(json.dumps(everything(measured, instructions)) + "\n", encoding="utf-8")
    print(text, end="")


if __name__ == "__main__":
    main(*sys.argv[1:])
