"""The benchmark's medians, ratios and tables; nothing is measured here."""

from __future__ import annotations

import doctest
import json
import sys
import unittest

from test_documents import PROJECT

sys.path.insert(0, str(PROJECT / "bench"))

import callgrind  # noqa: E402  (the path above comes first)
import figures  # noqa: E402
import report  # noqa: E402

SCENES = [f"scene\t{slots} slots\t1\t16\t{slots}\t{16 + slots * 576}\t{10 * slots}\t{slots}\t17\t{ended}\t{slots}"
          for slots, ended in ((64, 5), (16, 0))]
CONTESTANTS = ["contestant\tnow\tours", "contestant\tbefore\tours, earlier", "contestant\tarray\ta sorted array"]
LARGE, SMALL = "64 slots", "16 slots"


def lap(number: int, scene: str, operation: str, contestant: str, ns: float) -> str:
    return f"lap\t{number}\t{scene}\t{operation}\t{contestant}\t{ns}"


def cells(line: str) -> list[str]:
    return [word.strip() for word in line.strip("|").split("|")]


class Modules(unittest.TestCase):
    def test_their_examples(self) -> None:
        for module in (figures, callgrind, report):
            ran = doctest.testmod(module)
            self.assertTrue(ran.attempted and not ran.failed, module)


class Figures(unittest.TestCase):
    def test_a_machine_that_gets_slower_changes_no_ratio(self) -> None:
        lines = []
        for number, slower in enumerate((1, 1, 7, 30, 400)):
            lines += [lap(number, LARGE, "check", "now", 3.0 * slower), lap(number, LARGE, "check", "array", 2.0 * slower)]
        measured = figures.read(lines)
        self.assertEqual(measured.ratio((LARGE, "check", "now"), (LARGE, "check", "array")), (1.5, 1.5, 1.5, 5))
        self.assertEqual(measured.time(LARGE, "check", "now"), (21.0, 3.0, 90.0, 5))

    def test_one_bad_round_does_not_move_the_median(self) -> None:
        lines = []
        for number, ours in enumerate((10, 11, 9, 10, 5000)):
            lines += [lap(number, LARGE, "check", "now", ours), lap(number, LARGE, "check", "array", 10)]
        found = figures.read(lines).ratio((LARGE, "check", "now"), (LARGE, "check", "array"))
        self.assertEqual((found.median, found.low, found.high), (1.0, 1.0, 1.1))

    def test_a_round_that_lacks_one_of_the_two_is_left_out(self) -> None:
        measured = figures.read([lap(0, LARGE, "check", "now", 8), lap(1, LARGE, "check", "now", 9),
                                 lap(1, LARGE, "check", "array", 3), lap(2, LARGE, "check", "array", 1)])
        self.assertEqual(measured.ratio((LARGE, "check", "now"), (LARGE, "check", "array")), (3.0, 3.0, 3.0, 1))
        self.assertIsNone(measured.ratio((LARGE, "check", "now"), (LARGE, "check", "LMDB")))

    def test_no_line_is_passed_over(self) -> None:
        for line in ("", "lap\t1\tcheck", "time\t1", "count\ta\tb\tc"):
            with self.assertRaises(ValueError):
                figures.read([line])


class Tables(unittest.TestCase):
    def setUp(self) -> None:
        laps = [lap(number, scene, operation, contestant, ns * (2 if scene == LARGE else 1))
                for number in range(3) for scene in (LARGE, SMALL)
                for operation, contestant, ns in (("check", "now", 1200), ("check", "before", 2400), ("check", "array", 10),
                                                  ("rebuild", "now", 50), ("rebuild", "before", 40))]
        counts = [f"count\t{LARGE}\tcheck\t{contestant}\t2" for contestant in ("now", "before")] + [f"count\t{LARGE}\tlist\tnow\t0"]
        self.measured = figures.read(["fact\tnow\tabc", "fact\tload\t0.1", *CONTESTANTS, *SCENES, *laps, *counts])
        part = "desc: Trigger: Client Request: {}|check|{}\nsummary: {}\n"
        self.instructions = callgrind.instructions([part.format(LARGE, "now", 3000), part.format(LARGE, "before", 4000)],
                                                   self.measured.counts)

    def test_a_scene(self) -> None:
        self.assertEqual(list(report.times(self.measured, LARGE)), [
            "| | ns | before | array |",
            "|---|---|---|---|",
            "| check | 2,400 ±0% | 0.50 ±0% | 120 ±0% |",
            "| rebuild | 100 ±0% | 1.25 ±0% | – |"])

    def test_growth_is_from_the_smaller_file_to_the_larger(self) -> None:
        self.assertEqual([(small.title, large.title) for small, large in report.growths(self.measured)], [(SMALL, LARGE)])
        self.assertEqual(list(report.growth(self.measured, SMALL, LARGE))[2:], [
            "| check | 2.00 ±0% | 2.00 ±0% | 2.00 ±0% |",
            "| rebuild | 2.00 ±0% | 2.00 ±0% | – |"])

    def test_instructions(self) -> None:
        self.assertEqual(self.instructions, {(LARGE, "check", "now"): 1500.0, (LARGE, "check", "before"): 2000.0})
        self.assertEqual(list(report.counted(self.instructions)), [
            "| | 64 slots |", "|---|---|", "| check | 1,500 (0.75) |"])

    def test_the_whole_text(self) -> None:
        lines = list(report.tables(self.measured, self.instructions))
        self.assertIn("- **now**: ours (abc)", lines)
        self.assertIn("load: 0.1.", lines)
        self.assertIn("36,880 bytes, 640 of 1,024 entries, 64 slots used, 17 cells; refusal 5 ended the filling. A tenth is 64 entries.",
                      lines)
        heading = None
        for line in lines:
            if line.startswith("|"):
                heading = heading or cells(line)
                self.assertEqual(len(cells(line)), len(heading), line)
            else:
                heading = None

    def test_all_of_it_as_json(self) -> None:
        kept = json.loads(json.dumps(report.everything(self.measured, self.instructions)))
        self.assertEqual([scene["slots"] for scene in kept["scenes"]], [64, 16])
        first = kept["measured"][0]
        self.assertEqual((first["operation"], first["contestant"], first["laps"], first["instructions"]),
                         ("check", "now", [2400.0, 2400.0, 2400.0], 1500.0))
        self.assertEqual(kept["measured"][1]["ours / theirs"], {"median": 0.5, "low": 0.5, "high": 0.5, "rounds": 3})


if __name__ == "__main__":
    unittest.main()
