"""The evidence of a beginning: a long history has at least so many reads, and the words say no more."""
import json
import random
import unittest
from typing import Any, List, NamedTuple, Tuple
from unittest import mock

from regkit.evidence import evidence
from regkit.evidence.evidence import Evidence, count_evidence, evidence_of_beginning
from regkit.history.operations import NotAHistory, read_history

from .events import Line, cas, crash, fail, gave, read, reply, run, text, took, write
from .test_excerpts import run_of, spelled

LINES = 8  # of a beginning, in these tests
BUSY = [write(1, 1), read(2), gave(2, 1), reply(1), read(2), gave(2, 1), read(2), gave(2, 1)]
QUIET = [write(1, 1), reply(1), *[read(2), gave(2, 1)] * 3]
SHUFFLED = b'{"register":"y","op":"read","event":"call","process":9}\n'


class Reads(NamedTuple):
    """The completed reads, and how many of them overlap a write."""

    completed: int
    overlapping: int


def reads_in(found: Evidence) -> Reads:
    return Reads(found.completed_reads, found.overlapping_reads)


def short(lines: int = LINES) -> Any:
    return mock.patch.object(evidence, "LINES", lines)


def after(events: List[Line]) -> bytes:
    """The same with two reads more, of which one overlaps a write."""
    return text(*events, write(5, 2), read(6), gave(6, 2), reply(5), read(6), gave(6, 2))


class Counts(unittest.TestCase):
    def test_what_is_certain(self) -> None:
        """Each history has its lines, what comes behind them, and what the lines alone make certain."""
        table = [
            ("all is answered", BUSY, Reads(3, 1)),
            ("nothing overlaps", QUIET, Reads(3, 0)),
            ("the write may still fail", [write(1, 1), *[read(2), gave(2, None)] * 3, read(3)], Reads(3, 0)),
            ("so may one before another",
             [write(1, 1), write(4, 2), read(2), gave(2, 2), reply(4), read(2), gave(2, 2), read(3)],
             Reads(2, 1)),
            ("the write failed",
             [write(1, 1), read(2), gave(2, None), fail(1), write(1, 2), read(2), gave(2, 2), reply(1)],
             Reads(2, 1)),
            ("the read failed",
             [write(1, 1), read(2), fail(2), reply(1), read(2), gave(2, 1), read(3), gave(3, 1)],
             Reads(2, 0)),
            ("who writes crashed", [write(1, 1), crash(1), *[read(2), gave(2, 1)] * 3], Reads(3, 0)),
        ]
        for name, lines, expected in table:
            self.assertEqual(len(lines), LINES, name)
            with self.subTest(name), short():
                self.assertFalse(evidence_of_beginning(text(*lines)).at_least)
                found = evidence_of_beginning(text(*lines) + b"\n")
                self.assertEqual((reads_in(found), found.at_least), (expected, True))

    def test_never_too_many(self) -> None:
        """Whatever comes behind a beginning; and most cuts miss something."""
        fewer = 0
        for seed in range(300):
            chance = random.Random(seed)
            registers = ["x", "y", "z"][:chance.randrange(1, 4)]
            history = spelled(run_of(chance, chance.randrange(20, 120), registers))
            whole = count_evidence(read_history(history))
            self.assertEqual(evidence_of_beginning(history), whole, f"seed {seed}")
            with short(chance.randrange(1, 20)):
                found = evidence_of_beginning(history)
            self.assertTrue(found.at_least)
            self.assertLessEqual(found.completed_reads, whole.completed_reads, f"seed {seed}")
            self.assertLessEqual(found.overlapping_reads, whole.overlapping_reads, f"seed {seed}")
            self.assertLessEqual(found.overlapping_reads, found.completed_reads, f"seed {seed}")
            fewer += found.overlapping_reads < whole.overlapping_reads
        self.assertGreater(fewer, 200)

    def test_a_cas_is_a_read_and_a_write(self) -> None:
        """One that was answered tells the value. It overlaps the write, and the read overlaps neither."""
        events = [write(1, 1), cas(2, 1, 2), took(2, True), reply(1), read(2), gave(2, 2), cas(3, 2, 1)]
        self.assertEqual(reads_in(evidence_of_beginning(text(*events))), Reads(2, 1))

    def test_lines_that_nothing_follows(self) -> None:
        with short():
            self.assertEqual(evidence_of_beginning(b""), Evidence(0, 0, 0, 0))
            self.assertFalse(evidence_of_beginning(text(*BUSY).rstrip(b"\n")).at_least)
            self.assertTrue(evidence_of_beginning(text(*BUSY, read(3))).at_least)

    def test_how_lines_are_made_is_all_the_same(self) -> None:
        """Blank lines, members in any order, and names in escapes."""
        history = text(*BUSY[:4]) + b" \r\n\n" + SHUFFLED + b'{"proces\\u0073":9,"value":null,"event":"reply"}'
        self.assertEqual(reads_in(evidence_of_beginning(history)), Reads(2, 1))

    def test_what_is_no_event(self) -> None:
        """What follows the beginning isn't looked at."""
        for line in (b"7", b"[]", b"{}", b'{"process":1}', b'{"process":1,"event":"call","op":"read"}',
                     b"\xff", b"[" * 9999, b"no JSON"):
            with self.subTest(line[:40]), short():
                self.assertRaises(NotAHistory, evidence_of_beginning, line)
                self.assertEqual(reads_in(evidence_of_beginning(text(*BUSY) + line)), Reads(3, 1))


class Words(unittest.TestCase):
    def said(self, history: bytes, *options: str) -> str:
        with short():
            ran = run("check", *options, given=history)
        self.assertEqual(ran.err, "")
        return ran.out

    def test_when_they_say_at_least(self) -> None:
        """Only if the beginning has the overlaps that are asked for, and not if all is asked for. If it
        has too few reads, the report says how many there are at least: all reads but as many as
        operations are pending."""
        least = "; at least 3 completed reads, at least 1 overlaps a write\n"
        whole = "; 5 completed reads, 2 overlap a write\n"
        table: List[Tuple[List[Line], List[str], str]] = [
            (BUSY, [], least),
            (BUSY, ["--least-reads", "3", "--least-overlaps", "1"], least),
            (BUSY, ["--least-reads", "4"], "; at least 5 completed reads, at least 1 overlaps a write\n"),
            ([*BUSY, read(3)], ["--least-reads", "5"],
             "; at least 5 completed reads, at least 1 overlaps a write\n"),
            ([*BUSY, write(3, 9)], ["--least-reads", "5"], "; 5 completed reads, 3 overlap a write\n"),
            (BUSY, ["--least-overlaps", "2"], whole),
            (BUSY, ["--count-all"], whole),
            (BUSY, ["--first"], least),
            (QUIET, [], "; at least 3 completed reads, no overlap with a write counted at the "
             "beginning (--count-all counts all)\n"),
        ]
        for events, options, words in table:
            with self.subTest(options=options, quiet=events is QUIET):
                self.assertIn(": linearizable: ", self.said(after(events), *options))
                self.assertIn(words, self.said(after(events), *options))

    def test_json_says_it_in_a_member(self) -> None:
        table: List[Tuple[List[str], Tuple[int, int, bool]]] = [
            ([], (3, 1, True)), (["--count-all"], (5, 2, False))]
        for options, counts in table:
            said = json.loads(self.said(after(BUSY), "--json", *options))
            self.assertEqual((said["completed_reads"], said["overlapping_reads"], said["at_least"]), counts)

    def test_too_little_evidence_is_told_of_the_whole(self) -> None:
        with short():
            ran = run("check", "--least-overlaps", "3", given=after(BUSY))
        self.assertEqual(ran.status, 5)
        self.assertIn("; 5 completed reads, 2 overlap a write; --least-overlaps asks for 3 reads", ran.out)
        self.assertNotIn("at least", ran.out)

    def test_a_fault_behind_the_beginning(self) -> None:
        out = self.said(text(*BUSY, read(2), gave(2, None)))
        self.assertIn(": not linearizable: 1 faulty register; 5 operations on 1 register; at least 3 "
                      "completed reads, at least 1 overlaps a write\n", out)


if __name__ == "__main__":
    unittest.main()
