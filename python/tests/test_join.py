"""Tests of regkit join: one report from those of the parts, and what is said of a part without an answer."""
import json
import os
import pathlib
import subprocess
import tempfile
import unittest
from typing import Callable, List, Optional, Sequence, Tuple
from unittest import mock

from regkit.checker.programs import CHECK, SEARCH, Answer, find_program, run_checker, run_search
from regkit.checker.refusals import NUMBERS, REPEATED, SEARCH_TEXTS, TEXTS
from regkit.checker.report import Row
from regkit.commands import join as command
from regkit.parts.folder import BLANK, MAP, MAP_LINE, Manifest, file_of, write_manifest
from tests import split_support
from tests.split_support import (check_parts, differences, random_history, random_search_history, run_command,
                                 search, whole)
from tests.test_split import Folder, call, cas, end, has_checker, history_of

YES = {"pending": 0, "reads": 0, "regular": "yes", "safe": "yes", "writes": 1}
COUNTS = {"cas": 1, "pending": 0, "reads": 0, "writes": 0}


def line_of(members: Row) -> bytes:
    text = json.dumps(members, sort_keys=True, separators=(",", ":"), ensure_ascii=False)
    return text.encode("utf-8") + b"\n"


def row(register: str, order: Sequence[int], points: Sequence[int]) -> Row:
    return {"atomic": "yes", "order": list(order), "points": list(points), "register": register, **YES}


def summary(atomic: str, operations: int, registers: int, order: Optional[List[int]] = None) -> Row:
    merged = {} if order is None else {"order": order}
    return {"atomic": atomic, "operations": operations, "registers": registers, **merged}


class HandMade(unittest.TestCase):
    """A folder of answers that no checker gave."""

    def setUp(self) -> None:
        folder = tempfile.TemporaryDirectory()
        self.addCleanup(folder.cleanup)
        self.directory = folder.name

    def manifest(self, parts: int, registers: List[int], lines: str = BLANK, stopped: int = 0,
                 program: str = CHECK) -> None:
        manifest = Manifest("history", lines, parts, program, 100, 100, stopped or None, registers)
        write_manifest(self.directory, manifest)

    def part(self, part: int, status: str, rows: Sequence[Row] = (), words: str = "") -> None:
        file_of(self.directory, part, "jsonl").write_bytes(b"")
        file_of(self.directory, part, "report").write_bytes(b"".join(map(line_of, rows)))
        file_of(self.directory, part, "err").write_text(words + "\n" if words else "")
        file_of(self.directory, part, "status").write_text(status + "\n")

    def map_of(self, part: int, lines: Sequence[int]) -> None:
        text = b"".join(b"%12d\n" % line for line in lines)
        self.assertEqual(MAP_LINE * len(lines), len(text))
        file_of(self.directory, part, "lines").write_bytes(text)

    def join(self, *options: str) -> split_support.Ran:
        return run_command(command, self.directory, *options)


class Reports(HandMade):
    """The lines of the registers by their first calls in the whole, then one summary."""

    def two_parts(self) -> None:
        self.manifest(2, [0, 1, 0])
        rows = [row("x", [1, 8], [1, 8]), row("z", [6, 5], [6, 6]), summary("yes", 4, 2, [1, 6, 5, 8])]
        self.part(0, "0", rows)
        self.part(1, "0", [row("y", [7, 3], [7, 7]), summary("yes", 2, 1, [7, 3])])

    def test_atomic(self) -> None:
        self.two_parts()
        rows = [row("x", [1, 8], [1, 8]), row("y", [7, 3], [7, 7]), row("z", [6, 5], [6, 6])]
        whole = [*rows, summary("yes", 6, 3, [1, 6, 5, 7, 3, 8])]
        self.assertEqual((0, b"".join(map(line_of, whole)), ""), self.join())

    def test_order(self) -> None:
        self.two_parts()
        for limit, option, there in [(100, "auto", True), (99, "auto", False),
                                     (99, "always", True), (100, "never", False)]:
            with self.subTest(option, limit=limit), mock.patch.object(command, "MAX_EVENTS", limit):
                last = self.join("--order", option).report.splitlines()[-1]
                self.assertEqual(there, "order" in json.loads(last))

    def test_not_atomic(self) -> None:
        self.two_parts()
        fault: Row = {"atomic": "no", "fault": {"kind": "unwritten", "read": 3}, "register": "y", **YES}
        self.part(1, "1", [fault, summary("no", 1, 1)])
        rows = [row("x", [1, 8], [1, 8]), fault, row("z", [6, 5], [6, 6]), summary("no", 5, 3)]
        self.assertEqual((1, b"".join(map(line_of, rows)), ""), self.join("--order", "always"))

    def test_lines_of_the_whole(self) -> None:
        """By a map every line number changes, and nothing else does; the initial write stays 0."""
        name = "".join(map(chr, range(0x20))) + "\x7f\"\\/<\u2028\u00e9\U0001f600"
        zones: Row = {"first": [0, 2], "kind": "zones", "second": [2, 3], "writes": [0, 1]}
        fault: Row = {"atomic": "no", "fault": zones, "inversion": [2, 3], "regular_read": 3, "safe_read": 2,
                      "register": name, **YES}
        early: Row = {"atomic": "no", "fault": {"kind": "early", "read": 4, "write": 5},
                      "register": "3", **YES}
        good: Row = {**row("z", [5, 4], [4, 5]), "reads": 4}
        self.manifest(1, [0, 0, 0], MAP)
        self.map_of(0, [10, 20, 30, 123456789012, 50])
        self.part(0, "1", [fault, early, good, summary("no", 9, 3)])
        zones = {"first": [0, 20], "kind": "zones", "second": [20, 30], "writes": [0, 10]}
        rows: List[Row] = [
            {**fault, "fault": zones, "inversion": [20, 30], "regular_read": 30, "safe_read": 20},
            {**early, "fault": {"kind": "early", "read": 123456789012, "write": 50}},
            {**good, "order": [50, 123456789012], "points": [123456789012, 50]}, summary("no", 9, 3)]
        self.assertEqual((1, b"".join(map(line_of, rows)), ""), self.join())

    def test_no_registers(self) -> None:
        self.manifest(2, [])
        for part in range(2):
            self.part(part, "0", [summary("yes", 0, 0, [])])
        self.assertEqual((0, line_of(summary("yes", 0, 0, [])), ""), self.join())


def searched(register: str, atomic: str, **told: object) -> Row:
    return {"atomic": atomic, "register": register, **COUNTS, **told}


FOUND = searched("x", "yes", order=[1], points=[1])
NO = searched("y", "no", fault={"asks": [2, 3], "before": [1, 3], "kind": "search", "reply": 4})
GAVE_UP = searched("z", "unknown", gave_up={"bound": "steps"})


class Searched(HandMade):
    """Reports of regsearch: the whole is one of it too, without a merged order."""

    def test_the_verdict_of_the_whole(self) -> None:
        rows = {"yes": FOUND, "no": NO, "unknown": GAVE_UP}
        status = {"yes": "0", "no": "1", "unknown": "6"}
        for parts, verdict in [(["yes", "yes"], "yes"), (["yes", "unknown"], "unknown"),
                               (["no", "yes"], "no"), (["unknown", "no"], "no"),
                               (["unknown", "unknown"], "unknown")]:
            with self.subTest(parts):
                self.manifest(2, [0, 1])
                for part, said in enumerate(parts):
                    self.part(part, status[said], [rows[said], summary(said, 1, 1)])
                expected: List[Row] = [*(rows[said] for said in parts), summary(verdict, 2, 2)]
                self.assertEqual((int(status[verdict]), b"".join(map(line_of, expected)), ""), self.join())

    def test_lines_of_the_whole(self) -> None:
        self.manifest(1, [0, 0, 0, 0], MAP)
        self.map_of(0, [10, 20, 30, 40, 50])
        unwritten = searched("u", "no", fault={"call": 5, "kind": "unwritten"})
        self.part(0, "1", [FOUND, NO, GAVE_UP, unwritten, summary("no", 4, 4)])
        rows: List[Row] = [
            {**FOUND, "order": [10], "points": [10]},
            {**NO, "fault": {"asks": [20, 30], "before": [10, 30], "kind": "search", "reply": 40}}, GAVE_UP,
            {**unwritten, "fault": {"call": 50, "kind": "unwritten"}}, summary("no", 4, 4)]
        self.assertEqual((1, b"".join(map(line_of, rows)), ""), self.join())

    def test_no_merged_order(self) -> None:
        self.manifest(1, [0])
        self.part(0, "0", [FOUND, summary("yes", 1, 1)])
        ran = self.join("--order", "always")
        self.assertEqual((3, b""), ran[:2])
        self.assertIn("a report of regsearch has no merged order: leave out --order", ran.words)
        self.assertEqual(self.join("--order", "never"), self.join())

    def test_a_status_that_does_not_fit(self) -> None:
        self.manifest(1, [0])
        for status, said in [("0", "unknown"), ("6", "yes"), ("6", "no"), ("1", "unknown")]:
            with self.subTest(status, said=said):
                self.part(0, status, [FOUND, summary(said, 1, 1)])
                ran = self.join()
                self.assertEqual((4, b""), ran[:2])
                self.assertIn(f"part-000.report does not fit its status {status}", ran.words)

    def test_parts_of_both_programs(self) -> None:
        """One report is of one program: those of regcheck run again, refused ones too."""
        again = "line 5: value already written to this register at line 1"
        table: List[Tuple[str, List[Row], str, List[int]]] = [
            ("0", [row("x", [1], [1]), summary("yes", 1, 1, [1])], "", [0]), ("2", [], again, [0]),
            ("2", [], "line 5: op is neither read nor write", [0])]
        for status, rows, words, named in table:
            with self.subTest(status, words=words):
                self.manifest(2, [0, 1])
                self.part(0, status, rows, words)
                self.part(1, "1", [NO, summary("no", 1, 1)])
                ran = self.join()
                self.assertEqual((4, b""), ran[:2])
                lines = ran.words.splitlines()
                self.assertEqual([f"part-{part:03} was checked by regcheck, and all parts need regsearch; "
                                  "run it again:" for part in named], lines[::2])
                self.assertRegex(lines[1], "regsearch'? .*part-000.jsonl > .*part-000.report")

    def test_parts_of_the_other_program(self) -> None:
        """What regcheck said of a history for regsearch doesn't count."""
        self.manifest(2, [0, 1], program=SEARCH)
        self.part(0, "2", words="line 5: value already written to this register at line 1")
        self.part(1, "0", [row("y", [3], [3]), summary("yes", 1, 1, [3])])
        ran = self.join()
        self.assertEqual((4, b""), ran[:2])
        for part in range(2):
            self.assertIn(f"part-00{part} was checked by regcheck, and all parts need regsearch", ran.words)

    def test_refusals(self) -> None:
        """Those that both programs have fit both; the first one counts."""
        self.manifest(2, [0, 1])
        self.part(0, "6", [GAVE_UP, summary("unknown", 1, 1)])
        for words in ("line 7: not JSON", "line 7: a cas's reply has no ok, true or false"):
            self.part(1, "2", words=words)
            self.assertEqual((2, b"", f"{words}\n"), self.join())

    def test_which_program_runs_a_part_again(self) -> None:
        """That of the manifest, or regsearch if another part has an answer of it."""
        for program, answered, expected in [(CHECK, False, "regcheck"), (SEARCH, False, "regsearch"),
                                            (CHECK, True, "regsearch")]:
            self.manifest(2, [0, 1], program=program)
            self.part(0, "4", words="no memory or no thread")
            self.part(1, "6" if answered else "4", [GAVE_UP, summary("unknown", 1, 1)] if answered else [])
            with mock.patch("regkit.parts.answers.find_program", lambda name: None):
                self.assertIn(f"  {expected} {self.directory}/part-000.jsonl > ", self.join().words)


class RefusedParts(HandMade):
    """The refusal of one run: of the first line, and on it the lowest number."""

    def test_first_refusal(self) -> None:
        again = "line 9: value already written to this register at line 3"
        busy = "line 9: the process has an open call at line 1"
        for words, expected in [
            (["line 9: not JSON", "line 10: not JSON", ""], "line 9: not JSON"),
            (["", "line 10: not an object", "line 9: reply disagrees with its call"],
             "line 9: reply disagrees with its call"),
            (["line 9: the process crashed at line 2", again, ""], again),
            ([again, "line 9: the process crashed at line 2", ""], again),
            ([again, busy, "line 9: the process crashed at line 2"], busy),
            (["", "", "line 7: event is not call, reply, fail or crash"],
             "line 7: event is not call, reply, fail or crash"),
        ]:
            with self.subTest(expected):
                self.manifest(3, [], stopped=11)
                for part, word in enumerate(words):
                    self.part(part, "2" if word else "0", [] if word else [summary("yes", 0, 0, [])], word)
                self.assertEqual((2, b"", expected + "\n"), self.join())

    def test_lines_of_the_whole(self) -> None:
        self.manifest(1, [], MAP)
        self.map_of(0, [4, 70])
        self.part(0, "2", words="line 2: the process has an open call at line 1")
        self.assertEqual((2, b"", "line 70: the process has an open call at line 4\n"), self.join())

    def test_every_text_of_the_format(self) -> None:
        """docs/format.md has each refusal of each program. Those of a line have the numbers and texts that
        `join` knows, but that of too many events."""
        text = (pathlib.Path(__file__).parents[2] / "docs" / "format.md").read_text(encoding="utf-8")
        rows = [[cell.strip(" `") for cell in line.split("|")[1:-1]] for line in text.splitlines()]
        of_search = {**TEXTS, **SEARCH_TEXTS}
        del of_search[REPEATED]
        numbers = {*range(1, 20)}
        programs = [(numbers, TEXTS), ((numbers - {REPEATED}) | {20, 21, 22}, of_search)]
        for column, (expected, texts) in enumerate(programs):
            table = {int(row[column]): row[2].replace(" at line N", "")
                     for row in rows if len(row) == 4 and row[column].isdigit()}
            self.assertEqual(set(table), expected)
            for number, words in texts.items():
                with self.subTest(column=column, number=number):
                    self.assertEqual(table[number], words)
                    self.assertEqual(NUMBERS[words], number)

    def test_a_line_that_split_could_not_read(self) -> None:
        """Never an answer about a half of the history."""
        self.manifest(1, [], stopped=7)
        self.part(0, "0", [summary("yes", 0, 0, [])])
        ran = self.join()
        self.assertEqual((4, b""), ran[:2])
        self.assertIn("line 7", ran.words)


class Unanswered(HandMade):
    """A part without a whole answer is named, with the command that runs it again."""

    def setUp(self) -> None:
        super().setUp()
        self.manifest(2, [0, 1, 1])
        self.part(0, "2", words="line 3: not JSON")
        self.good = [row("y", [7], [7]), row("z", [8], [8]), summary("yes", 2, 2, [7, 8])]

    def must_name(self, why: str) -> None:
        """Part 1, and not part 0, though its refusal is known: part 1 may have an earlier one."""
        ran = self.join()
        self.assertEqual((4, b""), ran[:2])
        self.assertTrue(ran.words.startswith("part-001 has no answer: "), ran.words)
        self.assertIn(why, ran.words)
        self.assertIn("part-001.jsonl > ", ran.words)
        self.assertNotIn("part-000", ran.words)

    def test_missing(self) -> None:
        for ending in ("status", "report", "err"):
            with self.subTest(ending):
                self.part(1, "0", self.good)
                file_of(self.directory, 1, ending).unlink()
                self.must_name(f"part-001.{ending} is missing")

    def test_failed(self) -> None:
        for status, words, why in [
            ("4", "no memory or no thread", "status 4: no memory or no thread"),
            ("137", "", "status 137;"),
            ("3", "usage", "status 3: usage"),
            ("", "", "status unknown"),
            ("2", "input is longer than 67108864 bytes", "unexpected refusal: input is longer"),
            ("2", "line 5: more than 1048576 events", "unexpected refusal: line 5: more than"),
        ]:
            with self.subTest(why):
                self.part(1, status, words=words)
                self.must_name(why)

    def test_report_that_is_not_whole(self) -> None:
        y, z, last = self.good
        table: List[Tuple[str, List[Row]]] = [
            ("4 lines", [y, y, z, last]),
            ("2 lines", [z, last]),
            ("0 lines", []),
            ("does not end with the summary", [y, z, z]),
            ("does not end with the summary", [y, z, {**last, "registers": 3}]),
            ("does not fit its status", [y, z, {**last, "atomic": "no"}]),
        ]
        for why, rows in table:
            with self.subTest(why):
                self.part(1, "0", rows)
                self.must_name(why)

    def test_report_that_is_cut(self) -> None:
        self.part(1, "0", self.good)
        report = file_of(self.directory, 1, "report")
        whole = report.read_bytes()
        for cut in (whole[:-1], whole[:-5], whole[:40]):
            with self.subTest(len(cut)):
                report.write_bytes(cut)
                self.must_name("report")

    def test_folder_without_a_manifest(self) -> None:
        for text, why in [(None, "did not finish"), ("{", "damaged"), ("[]", "damaged"),
                          ('{"format":"regkit split 1"}', "another version"),
                          ('{"format":"regkit split 2"}', "damaged")]:
            with self.subTest(text):
                path = pathlib.Path(self.directory, "split.json")
                path.unlink(missing_ok=True)
                if text is not None:
                    path.write_text(text)
                ran = self.join()
                self.assertEqual((4, b""), ran[:2])
                self.assertIn(why, ran.words)


BOTH = has_checker() and find_program(SEARCH)


@unittest.skipUnless(BOTH, "regcheck or regsearch is not built")
class WholeRuns(Folder):
    """Split, check by the program that the manifest names, and join: what one run of it answers."""

    def test_random_histories(self) -> None:
        """tests/scale_test runs thousands more."""
        statuses = set()
        for make, first, count in [(random_history, 10_000, 40), (random_search_history, 20_000, 150)]:
            for seed in range(first, first + count):
                with self.subTest(seed):
                    history = make(seed)
                    self.assertEqual([], differences(seed % 7 + 1, (BLANK, MAP)[seed // 7 % 2], history))
                    statuses.add(search(history).status)
        self.assertEqual(statuses, {0, 1, 2})

    def test_the_command_that_runs_a_part_again(self) -> None:
        for value in (None, 5):
            history = history_of(call(1, "x", 5), end(1), call(2, "y"), end(2, value=None),
                                 call(1, "x", value or 6))
            check: Callable[[bytes], Answer] = run_checker
            if value is not None:
                check = search
            with self.subTest(value), tempfile.TemporaryDirectory() as self.directory:
                self.split(history, 2)
                check_parts(self.directory, check)
                whole = run_command(command, self.directory)
                self.assertEqual(0, whole.status)
                file_of(self.directory, 1, "status").unlink()
                words = run_command(command, self.directory).words
                subprocess.run(["sh", "-c", words.splitlines()[1]], check=True, env={**os.environ})
                self.assertEqual(whole, run_command(command, self.directory))

    def test_unknown(self) -> None:
        history = history_of(cas(1, "x"), cas(2, "x", None, 2), call(3, "x", 7), end(3), end(1, ok=True),
                             end(2, ok=True), call(4, "y", 1), end(4), call(4, "y"), end(4, value=1))

        def bounded(data: bytes) -> Answer:
            return run_search(data, ("--configurations", "1"), find_program(SEARCH) or "")

        for parts in (1, 2):
            with self.subTest(parts):
                self.assertEqual(whole(history, bounded).status, 6)
                self.assertEqual([], differences(parts, MAP, history, by_search=bounded))


if __name__ == "__main__":
    unittest.main()
