"""`regkit split --levels` and `regkit join`: the report of reglevel from those of the parts. In the place of
its runs stand the lines of the examples' reports."""
import json
import pathlib
import unittest
from typing import Any, Callable, Dict, List, Sequence, Tuple

from regkit.checker.levels import HALVES, LEVELS
from regkit.checker.programs import CHECK, LEVEL, SEARCH
from regkit.checker.report import Row
from regkit.commands import split
from regkit.commands.join import WITHOUT_CAUSAL
from regkit.parts.folder import BLANK, MAP, file_of, read_manifest
from regkit.verify import verify
from regkit.verify.rows import Wrong

from .split_support import run_command
from .test_join import HandMade, line_of

EXAMPLES = sorted((pathlib.Path(__file__).resolve().parents[2] / "examples/levels").glob("*.jsonl"))
COUNTS = ("back", "inverted", "lost", "own", "reads", "stale")
NOTHING: Row = {**dict.fromkeys(("atomic", "regular", "session", "sequential"), "yes"),
                **dict.fromkeys(COUNTS, 0), "operations": 0, "registers": 0}
FOLLOWER = next(path for path in EXAMPLES if path.stem == "follower_behind")
NOTE = f"regkit join: {WITHOUT_CAUSAL}\n"
LINES = {"first", "second", "writes", "steps", "read", "write", "newer", "seen", "earlier", "lost_write"}


def renumbered(value: Any, line_of_whole: Callable[[int], int], is_line: bool = False) -> Any:
    """A line of a report with other line numbers. `writes` is a count in the line of a register."""
    if isinstance(value, dict):
        return {key: renumbered(part, line_of_whole, key in LINES and (key, type(part)) != ("writes", int))
                for key, part in value.items()}
    if isinstance(value, list):
        return [renumbered(part, line_of_whole, is_line) for part in value]
    return line_of_whole(value) if is_line else value


def summary_of(row: Row) -> Row:
    """The summary of a report with one register."""
    levels = {level: row[level] for level in {*LEVELS, *HALVES} if level in row}
    gap = {"gap": row["gap"]["events"]} if "gap" in row else {}
    counts = {key: row[key] for key in COUNTS}
    return {**levels, **counts, **gap, "operations": row["reads"] + row["writes"], "registers": 1}


def without_gaps(rows: Sequence[Row]) -> bytes:
    """What of some rows comes together from parts."""
    left_out = ("gap", "causal", "causal_fault")
    return b"".join(line_of({key: row[key] for key in row if key not in left_out}) for row in rows)


def report_of(path: pathlib.Path) -> List[Row]:
    return [json.loads(line) for line in path.with_suffix(".report").read_bytes().splitlines()]


def later(lines: int) -> Callable[[int], int]:
    """The numbers of lines behind some more. Line 0 stays what it is."""
    return lambda line: line + lines if line else 0


def all_in_one() -> Tuple[bytes, List[Row]]:
    """All examples one after another, with registers of their own, and the lines of these registers."""
    history, rows, first = [], [], 0
    for number, path in enumerate(EXAMPLES):
        lines = [json.loads(line) for line in path.read_bytes().splitlines()]
        for line in lines:
            line["process"] += 10 * number
            if "register" in line:
                line["register"] = f"{path.stem}/{line['register']}"
        history += lines
        for row in report_of(path)[:-1]:
            moved: Dict[str, Any] = renumbered(row, later(first))
            rows.append({**moved, "register": f"{path.stem}/{row['register']}"})
        first += len(lines)
    return b"".join(map(line_of, history)), rows


class Levels(HandMade):
    def split(self, history: bytes, rows: Sequence[Row], parts: int, lines: str = BLANK) -> None:
        """Splits a history, and leaves what reglevel would say of parts that have a register at most."""
        folder = pathlib.Path(self.directory)
        (folder / "whole.jsonl").write_bytes(history)
        self.directory = str(folder / f"{parts} {lines}")
        done = run_command(split, str(folder / "whole.jsonl"), self.directory, "--parts", str(parts),
                           "--lines", lines, "--levels")
        self.assertEqual(done.status, 0, done.words)
        manifest = read_manifest(self.directory)
        self.assertEqual(manifest.program, LEVEL)
        for row, part in zip(rows, manifest.registers):
            self.answer(part, [row, summary_of(row)], lines)
        for part in set(range(parts)) - set(manifest.registers):
            self.answer(part, [NOTHING], lines)

    def answer(self, part: int, report: List[Row], lines: str = BLANK) -> None:
        history = file_of(self.directory, part, "jsonl").read_bytes()
        if lines == MAP:
            listed = file_of(self.directory, part, "lines").read_text().split()
            own = {int(line): place for place, line in enumerate(listed, 1)}
            report = [renumbered(row, lambda line: own[line] if line else 0) for row in report]
        self.part(part, "0" if report[-1]["atomic"] == "yes" else "1", report)
        file_of(self.directory, part, "jsonl").write_bytes(history)

    def test_one_part_gives_the_report_itself(self) -> None:
        base = self.directory
        for path in EXAMPLES:
            self.directory = f"{base}/{path.stem}"
            pathlib.Path(self.directory).mkdir()
            self.split(path.read_bytes(), [], 1)
            self.answer(0, report_of(path))
            self.assertEqual(self.join(), (1, path.with_suffix(".report").read_bytes(), ""), path)

    def test_several_parts_give_the_report_without_its_gaps(self) -> None:
        base = self.directory
        for path in EXAMPLES:
            *rows, summary = report_of(path)
            for lines in (BLANK, MAP):
                self.directory = f"{base}/{path.stem}-{lines}"
                pathlib.Path(self.directory).mkdir()
                self.split(path.read_bytes(), rows, 2, lines)
                joined = self.join()
                self.assertEqual(joined, (1, without_gaps([*rows, summary]), NOTE), path)
                self.assertEqual(verify(path.read_bytes(), joined.report, joined=True).operations,
                                 summary["operations"])
                with self.assertRaises(Wrong):
                    verify(path.read_bytes(), joined.report)

    def test_many_registers(self) -> None:
        """The sums are counted by hand."""
        history, rows = all_in_one()
        base = self.directory
        summary = {"atomic": "no", "back": 2, "inverted": 7, "lost": 1, "monotonic": "no", "operations": 59,
                   "own": 2, "own_writes": "no", "reads": 36, "registers": 14, "regular": "no",
                   "sequential": "no", "session": "no", "stale": 12}
        for lines in (BLANK, MAP):
            self.directory = f"{base}/{lines}"
            pathlib.Path(self.directory).mkdir()
            self.split(history, rows, len(rows), lines)
            joined = self.join()
            self.assertEqual(joined, (1, without_gaps([*rows, summary]), NOTE))
            self.assertEqual(verify(history, joined.report, joined=True).operations, 59)

    def test_registers_without_counts(self) -> None:
        events = [{"process": 1, "event": "call", "op": "read", "register": "x"},
                  {"process": 1, "event": "reply", "value": 5}]
        fault = {"kind": "unwritten", "read": 1}
        row = {"atomic": "no", "monotonic": "no", "monotonic_fault": fault, "own_writes": "no",
               "own_writes_fault": fault, "pending": 0, "reads": 1, "register": "x", "regular": "no",
               "sequential": "no", "sequential_fault": fault, "session": "no", "unwritten": 1, "writes": 0}
        summary: Row = {**NOTHING, **{level: "no" for level in LEVELS}, "operations": 1, "reads": 1,
                        "registers": 1, "unclean": 1}
        self.split(b"".join(map(line_of, events)), [], 2, MAP)
        self.answer(0, [row, summary])
        self.assertEqual(self.join(), (1, line_of(row) + line_of(summary), NOTE))

    def follower(self) -> None:
        self.split(FOLLOWER.read_bytes(), report_of(FOLLOWER)[:-1], 2)

    def test_the_required_level(self) -> None:
        self.follower()
        for level, status in [("atomic", 1), ("regular", 1), ("session", 0), ("own_writes", 0)]:
            self.assertEqual(self.join("--require", level).status, status, level)

    def test_causal_of_several_parts(self) -> None:
        """A part's own answer is no part of that of the whole."""
        self.follower()
        ran = self.join("--require", "causal")
        self.assertEqual((ran.status, ran.report), (3, b""))
        self.assertIn("causal is of all registers together, and doesn't come together from parts", ran.words)
        joined = self.join("--require", "session")
        self.assertEqual((joined.status, joined.words), (0, NOTE))
        self.assertNotIn("causal", json.loads(joined.report.splitlines()[-1]))

    def test_causal_of_one_part(self) -> None:
        """Its lines are those of the whole."""
        base = self.directory
        path = next(path for path in EXAMPLES if path.stem == "answer_before_question")
        spread = b"".join(b"\n" + line for line in path.read_bytes().splitlines(keepends=True))
        for verdict, status in (("no", 1), ("unknown", 6), ("yes", 0)):
            self.directory = f"{base}/{verdict}"
            pathlib.Path(self.directory).mkdir()
            self.split(spread, [], 1, MAP)
            *rows, summary = report_of(path)
            fault = summary.pop("causal_fault")
            more: Row = {"causal_fault": fault} if verdict == "no" else {}
            self.part(0, str(status), [*rows, {**summary, "causal": verdict, **more}])
            joined = self.join("--require", "causal")
            self.assertEqual((joined.status, joined.words), (status, ""))
            whole = json.loads(joined.report.splitlines()[-1])
            self.assertEqual(whole["causal"], verdict)
            if verdict == "no":
                self.assertEqual(whole["causal_fault"]["steps"], [
                    {"from": 2, "knew": [2, 6, 10, 14, 18], "read": 18, "to": 0, "why": "hidden"},
                    {"from": 0, "to": 2, "why": "initial"}])
                self.assertEqual(verify(spread, joined.report).operations, 5)

    def test_parts_that_were_asked_for_a_level(self) -> None:
        """Their status says whether they keep it, and not whether they are atomic."""
        self.follower()
        status = file_of(self.directory, 0, "status")
        status.write_text("0\n")
        self.assertEqual(self.join().status, 1)
        file_of(self.directory, 1, "status").write_text("1\n")
        ran = self.join()
        self.assertEqual((ran.status, ran.report), (4, b""))
        self.assertIn("part-001 has no answer", ran.words)
        self.assertIn("does not fit its status 1", ran.words)

    def test_options_that_dont_fit(self) -> None:
        self.follower()
        ran = self.join("--order", "always")
        self.assertEqual((ran.status, ran.report), (3, b""))
        self.assertIn("a report of reglevel has no merged order", ran.words)
        self.manifest(1, [])
        for program, words in [(CHECK, "a report of regcheck has no levels"),
                               (SEARCH, "a report of regsearch has no levels")]:
            order: Row = {"order": []} if program == CHECK else {}
            self.part(0, "0", [{"atomic": "yes", "operations": 0, "registers": 0, **order}])
            ran = self.join("--require", "session")
            self.assertEqual((ran.status, ran.report), (3, b""), program)
            self.assertIn(words, ran.words)

    def test_a_part_of_another_program(self) -> None:
        self.follower()
        self.part(1, "0", [{"atomic": "yes", "order": [13, 15], "points": [13, 15], "register": "stock"},
                           {"atomic": "yes", "operations": 2, "order": [13, 15], "registers": 1}])
        ran = self.join()
        self.assertEqual((ran.status, ran.report), (4, b""))
        self.assertIn("part-001 was checked by regcheck, and all parts need reglevel", ran.words)

    def test_refusals(self) -> None:
        """They are those of regcheck, which counts repeated values among them."""
        self.follower()
        for words in ["line 5: value already written to this register at line 1", "line 2: not JSON",
                      "line 5: op is neither read nor write"]:
            self.part(0, "2", words=words)
            self.assertEqual(self.join(), (2, b"", words + "\n"))


if __name__ == "__main__":
    unittest.main()
