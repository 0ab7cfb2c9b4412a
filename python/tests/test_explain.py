"""`regkit explain`: each sentence, the first read that can't be explained, the time line."""
import json
import os
import random
import unittest
from typing import Any, Dict, List, Optional, Sequence, Tuple
from unittest import mock

from regkit.checker.programs import run_checker
from regkit.checker.report import read_report
from regkit.explain.explanation import ExplainSettings, explain, explain_text
from regkit.explain.surroundings import find_surroundings, role_of
from regkit.explain.timeline import Entry, draw
from regkit.explain.unexplained import Peaks, find_unexplained
from regkit.history.operations import Operation, read_history
from regkit.words.colour import Painter, painter

from .events import Line, crash, fail, gave, random_history, read, reply, run, stale, text, write
from .folders import InFolder

INVERSION = [write(1, 1), reply(1), write(1, 2), read(2), gave(2, 2), read(2), gave(2, 1), reply(1)]
STALE_FILL = [write(1, 9), reply(1), read(4), write(3, 11), reply(3), gave(4, 9), read(2), gave(2, 9)]
FAILED = [write(1, 7), fail(1), read(2), gave(2, 7)]


def row(fault: Dict[str, Any], **said: Any) -> Dict[str, Any]:
    """The report's line of register x."""
    several = "several writers"
    return {"atomic": "no", "fault": fault, "register": "x", "safe": several, "regular": several, **said}


def report(*rows: Dict[str, Any], registers: Optional[int] = None) -> bytes:
    summary = {"atomic": "no", "operations": 0, "registers": len(rows) if registers is None else registers}
    return "".join(json.dumps(each) + "\n" for each in (*rows, summary)).encode()


def zones(writes: Sequence[int], first: Sequence[int], second: Sequence[int]) -> Dict[str, Any]:
    return {"kind": "zones", "writes": writes, "first": first, "second": second}


def unfolded(page: str) -> str:
    """The text without the breaks within its sentences."""
    return " ".join(page.split())


def explained(events: Sequence[Line], *rows: Dict[str, Any]) -> str:
    """The explanation of a history by a hand-made report."""
    return unfolded(explain_text(text(*events), report(*rows)))


class Sentences(unittest.TestCase):
    """Each sentence, as a whole."""

    def says(self, page: str, *sentences: str) -> None:
        for sentence in sentences:
            self.assertIn(sentence, page)

    def test_unwritten(self) -> None:
        page = explained([write(1, 5), read(2), gave(2, 9), reply(1)],
                         row({"kind": "unwritten", "read": 2}, safe="yes", regular="no", regular_read=2))
        self.says(page, "The contradiction The read of 9 by process 2 (lines 2 to 3) gave a value that "
                        "nobody wrote to this register. The first",
                  "It is safe but not regular: the read of 9 by process 2 (lines 2 to 3) gave neither the "
                  "value before the writes that it overlaps, nor a value of theirs.")

    def test_a_value_of_another_register(self) -> None:
        events = [write(1, 9, "y"), reply(1), read(2), gave(2, 9)]
        self.says(explained(events, row({"kind": "unwritten", "read": 3})),
                  'Register "y" was given this value, by the write of 9 by process 1 (lines 1 to 2).')
        later = [read(2), gave(2, 9), write(1, 9, "y"), reply(1)]
        self.assertNotIn('Register "y"', explained(later, row({"kind": "unwritten", "read": 1})))
        two = [write(1, 9, "y"), reply(1), write(1, 9, "z"), reply(1), read(2), gave(2, 9)]
        self.assertNotIn('was given', explained(two, row({"kind": "unwritten", "read": 5})))

    def test_a_failed_write(self) -> None:
        self.says(explained(FAILED, row({"kind": "unwritten", "read": 3})),
                  "The read of 7 by process 2 (lines 3 to 4) gave a value that was written only by a call "
                  "that failed: the write of 7 by process 1 (lines 1 to 2, failed).")

    def test_early(self) -> None:
        events = [read(2), gave(2, 5), write(1, 5), reply(1)]
        fault = {"kind": "early", "read": 1, "write": 3}
        page = explained(events, row(fault, safe="no", safe_read=1, regular="no"))
        self.says(page, "The read of 5 by process 2 (lines 1 to 2) ended before the write of its value "
                        "began: the write of 5 by process 1 (lines 3 to 4).",
                  "It isn't even safe: the read of 5 by process 2 (lines 1 to 2) overlaps no write, and gave "
                  "another value than the latest write's.")

    def test_zones_and_an_inversion(self) -> None:
        fault = zones([1, 3], [1, 4], [4, 6])
        inversions: List[Dict[str, Any]] = [{}, {"inversion": [4, 6]}]
        for said in inversions:
            page = explained(INVERSION, row(fault, safe="yes", regular="yes", **said))
            self.says(page, "It is safe and regular.", "The write of 1 by process 1 (lines 1 to 2) ended "
                                                       "before the write of 2 by process 1 (lines 3 to 8) "
                                                       "began, so 1 comes before 2. The read of 2 by process "
                                                       "2 (lines 4 to 5) ended before the read of 1 by "
                                                       "process 2 (lines 6 to 7) began, so 2 comes before 1.",
                      "This is a new-old inversion: the read of line 4 gave 2, the new value, and the later "
                      "read of line 6 gave 1, the old one.")
        page = explained(INVERSION, row(fault))
        self.says(page, "Several processes write it, so safe and regular don't apply.")
        self.assertNotIn("inversion", page)

    def test_the_initial_write(self) -> None:
        events = [write(1, 5), reply(1), read(2), gave(2, None)]
        self.says(explained(events, row(zones([0, 1], [0, 1], [1, 3]))),
                  "The initial write of null came before the write of 5 by process 1 (lines 1 to 2), so null "
                  "comes before 5. The write of 5 by process 1 (lines 1 to 2) ended before the read of null "
                  "by process 2 (lines 3 to 4) began, so 5 comes before null.")

    def test_pending_and_crashed_operations(self) -> None:
        events = [write(1, 1), reply(1), write(3, 2), read(2), gave(2, 2), crash(3), read(2), gave(2, 1)]
        events.append(read(5))
        page = explained(events, row(zones([1, 3], [1, 4], [4, 7])))
        self.says(page, "The write of 1 by process 1 (lines 1 to 2) ended before the write of 2 by process 3 "
                        "(line 3, open when its process crashed at line 6) began, so 1 comes before 2.",
                  "No other call of this register.")

    def test_what_was_called_when_all_was_over(self) -> None:
        events = [write(1, 1), reply(1), write(3, 2), read(2), gave(2, 2), read(2), gave(2, 1), read(5)]
        page = explained(events, row(zones([1, 3], [1, 3], [4, 6])))
        self.assertIn("the write of 2 by process 3 (line 3, never answered) began, so 1", page)
        self.assertIn("No other call of this register.", page)

    def test_a_call_that_was_never_answered(self) -> None:
        events = [write(1, 1), reply(1), read(5), write(3, 2), read(2), gave(2, 2), read(2), gave(2, 1)]
        events.append(reply(3))
        self.says(explained(events, row(zones([1, 4], [1, 5], [5, 7]))),
                  "The read by process 5 (line 3, never answered) was open across the write of 2")

    def test_the_first_read_that_cannot_be_explained(self) -> None:
        page = explained(INVERSION, row(zones([1, 3], [1, 4], [4, 6])))
        self.says(page, "The first read that can't be explained The read of 1 by process 2 (lines 6 to 7): "
                        "the answers up to line 6 fit some order in which each read gives the latest write, "
                        "and with line 7 they fit none. It is the only one of 2 completed reads that can't "
                        "be explained. Open")

    def test_its_own_contradiction_if_the_report_names_another(self) -> None:
        events = [write(1, 1), reply(1), write(1, 2), reply(1), read(2), gave(2, 1), read(2), gave(2, 2),
                  read(3), gave(3, 1)]
        page = explained(events, row(zones([1, 3], [1, 7], [3, 9])))
        self.says(page, "(lines 5 to 6): the answers up to line 5 fit",
                  "with line 6 they fit none. 2 of 3 completed reads can't be explained, each left out before "
                  "the next is looked at.")

    def test_a_contradiction_of_its_own(self) -> None:
        """The report is about 1 and 3, and the first wrong reply about 1 and 2."""
        events = [write(1, 1), reply(1), write(1, 2), reply(1), read(2), gave(2, 1), write(1, 3), reply(1),
                  read(3), gave(3, 1)]
        page = explained(events, row(zones([1, 7], [1, 7], [7, 9])))
        self.says(page, "The write of 3 by process 1 (lines 7 to 8) ended before the read of 1 by process 3 "
                        "(lines 9 to 10) began, so 3 comes before 1. So the read of 1 by process 3",
                  "with line 6 they fit none. The write of 1 by process 1 (lines 1 to 2) ended before the "
                  "write of 2 by process 1 (lines 3 to 4) began, so 1 comes before 2. The write of 2 by "
                  "process 1 (lines 3 to 4) ended before the read of 1 by process 2 (lines 5 to 6) began, so "
                  "2 comes before 1. So the read of 1 by process 2 (lines 5 to 6) is stale. 2 of 2 completed "
                  "reads can't be explained, each left out before the next is looked at.")

    def test_a_read_that_was_called_later_and_answered_first(self) -> None:
        """The nearest read is that of line 5, and the first wrong reply is to that of line 6."""
        events = [write(1, 1), reply(1), write(1, 2), reply(1), read(2), read(3), gave(3, 1), gave(2, 1)]
        page = explained(events, row(zones([1, 3], [1, 3], [3, 5])))
        self.says(page, "The contradiction The write of 1 by process 1 (lines 1 to 2) ended before the write "
                        "of 2 by process 1 (lines 3 to 4) began, so 1 comes before 2. The write of 2 by process "
                        "1 (lines 3 to 4) ended before the read of 1 by process 2 (lines 5 to 8) began",
                  "with line 7 they fit none. The write of 1 by",
                  "The write of 2 by process 1 (lines 3 to 4) ended before the read of 1 by process 3 "
                  "(lines 6 to 7) began, so 2 comes before 1.")

    def test_its_own_contradiction_if_the_report_names_a_later_call(self) -> None:
        events = [write(1, 1), read(2), gave(2, 1), read(2), gave(2, None), reply(1), read(3), gave(3, 1)]
        page = explained(events, row(zones([0, 1], [0, 7], [2, 4])))
        self.says(page, "The contradiction The initial write of null came before the write of 1 by process 1 "
                        "(lines 1 to 6), so null comes before 1. The read of 1",
                  "with line 5 they fit none. It is the only one")
        self.assertNotIn("7 to 8", page[page.index("Time line"):])


def bystanders(events: Sequence[Line]) -> List[str]:
    calls = read_history(text(*events)).calls
    told, _ = find_unexplained(calls)
    assert told is not None
    scene = find_surroundings(told, calls)
    return [role_of(scene, bystander) for bystander in scene.bystanders]


class Causes(unittest.TestCase):
    """The pair of a stale read, the writes that were lost, and what is asked."""

    def page(self, events: Sequence[Line]) -> str:
        return unfolded(explain_text(text(*events), run_checker(text(*events)).report))

    def test_the_pair(self) -> None:
        """The fresh read and the stale one have a sign each, also if the fault names a write for one."""
        page = self.page([write(1, 1), reply(1), write(1, 2), reply(1), read(3), gave(3, 2), read(2),
                          gave(2, 1)])
        self.assertIn("The read of 2 by process 3 (lines 5 to 6) is the fresh read, and the read of 1 by "
                      "process 2 (lines 7 to 8) the stale one.", page)
        self.assertIn("5 to 6 process 3 read 2 F [===] 7 to 8 process 2 read 1 X [===] X can't be explained "
                      "F fresh read * what", page)

    def test_a_stale_read_that_is_not_the_first_unexplained_one(self) -> None:
        """The report is about 1 and 3."""
        events = [write(1, 1), reply(1), write(1, 2), reply(1), read(2), gave(2, 1), write(1, 3), reply(1),
                  read(4), gave(4, 3), read(3), gave(3, 1)]
        page = explained(events, row(zones([1, 7], [1, 7], [7, 11])))
        self.assertIn("5 to 6 process 2 read 1 X [===]", page)
        self.assertIn("9 to 10 process 4 read 3 F [===] 11 to 12 process 3 read 1 S [===] X can't be "
                      "explained S stale read F fresh read", page)

    def test_lost_writes(self) -> None:
        begin = [each for value in range(1, 10) for each in (write(1, value), reply(1))]
        table: List[Tuple[List[Line], str]] = [
            ([read(2), gave(2, 1), read(2), gave(2, 1)],
             "Lost writes 8 answered writes were lost: the read of line 19 ignored them, and no later read "
             "gave their values. The write of 2 by process 1 (lines 3 to 4)."),
            ([read(2), gave(2, 8), read(2), gave(2, 8), write(1, 10), reply(1), read(2), gave(2, 10)],
             "Lost writes 1 answered write was lost: the read of line 19 ignored it, and no later read gave "
             "its value."),
            ([read(2), gave(2, 7)],
             "Lost writes 2 answered writes may be lost: the read of line 19 ignored them, and nothing came "
             "after it."),
            ([read(2), gave(2, 8)],
             "Lost writes 1 answered write may be lost: the read of line 19 ignored it, and nothing came "
             "after it."),
            ([read(2), gave(2, 8), write(1, 10), reply(1), read(2), gave(2, 10)], ""),
            ([write(1, 10), read(2), gave(2, 1), reply(1), read(2), gave(2, 10)], ""),
            ([read(2), gave(2, 1), read(2), gave(2, 9)], ""),
            ([read(2), gave(2, 99)], ""),
            ([read(4), write(1, 10), reply(1), gave(4, 9), read(2), gave(2, 9), read(2), gave(2, 9)], "")]
        for events, said in table:
            page = self.page([*begin, *events])
            with self.subTest(said):
                self.assertIn(said, page)
                self.assertEqual("Lost writes" in page, bool(said))
                self.assertEqual("Did a server stop, or another one take its place?" in page, bool(said))
        self.assertIn("And 2 more writes.", self.page([*begin, *table[0][0]]))

    def test_a_store_that_was_not_empty(self) -> None:
        question = "Was the store empty when the recording began?"
        early, failed = [read(2), gave(2, 5), write(1, 5), reply(1)], [*FAILED]
        for events, asked in [(early, True), ([read(2), gave(2, 5)], True), (failed, False),
                              (STALE_FILL, False)]:
            self.assertEqual(question in self.page(events), asked)

    def test_a_store_that_forgets(self) -> None:
        question = "May the store forget, by expiry (TTL) or when its memory is full (maxmemory)?"
        for events, asked in [(stale("x"), True), (STALE_FILL, False), ([read(2), gave(2, 5)], False)]:
            self.assertEqual(question in self.page(events), asked)


class Surroundings(unittest.TestCase):
    def test_the_culprit_of_a_stale_fill(self) -> None:
        self.assertEqual(bystanders(STALE_FILL),
                         ["the read of 9 by process 4 (lines 3 to 6) was open when the write of 11 ended, "
                          "and gave 9 too: it may have put 9 back"])

    def test_a_read_that_was_never_answered(self) -> None:
        events = [each for each in STALE_FILL if each != gave(4, 9)]
        self.assertEqual(bystanders(events),
                         ["the read by process 4 (line 3, never answered) was open when the write of 11 "
                          "ended, and was never answered: it may have put 9 back"])

    def test_the_likeliest_first(self) -> None:
        events = [write(1, 9), reply(1), write(5, 10), read(6), write(3, 11), fail(6), read(4), reply(3),
                  gave(4, 9), write(7, 12), read(2), gave(2, 9), reply(5)]
        self.assertEqual([words.split(" (")[0] for words in bystanders(events)],
                         ["the read of 9 by process 4", "the write of 10 by process 5",
                          "the write of 12 by process 7", "the read by process 6"])
        self.assertIn("was open across the write of 11 by process 3 (lines 5 to 8)", bystanders(events)[1])
        self.assertIn("overlaps the read of 9 by process 2 (lines 11 to 12)", bystanders(events)[2])
        self.assertIn("(lines 4 to 6, failed) overlaps the write of 11", bystanders(events)[3])

    def test_who_ended_before_the_write(self) -> None:
        events = [write(1, 9), reply(1), read(4), write(3, 11), gave(4, 9), reply(3), read(2), gave(2, 9)]
        self.assertEqual(bystanders(events),
                         ["the read of 9 by process 4 (lines 3 to 5) overlaps the write of 11 by process 3 "
                          "(lines 4 to 6)"])

    def test_who_was_not_there(self) -> None:
        events = [read(8), gave(8, None), *STALE_FILL[:2], *STALE_FILL[3:5], *STALE_FILL[6:], read(8)]
        self.assertEqual(bystanders(events), [])

    def test_many(self) -> None:
        others = [read(process) for process in range(20, 33)]
        page = explained([*INVERSION[:5], *others, *INVERSION[5:]], row(zones([1, 3], [1, 4], [4, 19])))
        self.assertIn("7 other calls of this register.", page)
        alone = explained(FAILED, row({"kind": "unwritten", "read": 3}))
        self.assertIn("No other call of this register.", alone)

    def test_the_write_of_a_value(self) -> None:
        """The write of 5 is that of the older value, and no part of the contradiction."""
        events = [write(3, 5), write(1, 6), read(2), gave(2, 5), read(2), gave(2, 6), reply(1), read(2),
                  gave(2, 5), reply(3)]
        page = explained(events, row(zones([1, 2], [3, 5], [5, 8])))
        self.assertIn("The write of 5 by process 3 (lines 1 to 10) overlaps the read of 5 by process 2 "
                      "(lines 8 to 9).", page)

    def test_old_writes_that_nobody_answered_come_last(self) -> None:
        events = [write(8, 90), write(9, 91), crash(8), *STALE_FILL[:3], write(7, 12), *STALE_FILL[3:]]
        self.assertEqual([words.split(" (")[0] for words in bystanders(events)],
                         ["the read of 9 by process 4", "the write of 12 by process 7",
                          "the write of 91 by process 9", "the write of 90 by process 8"])


def has_order(operations: List[Operation], end: int) -> bool:
    """Whether the operations, as far as they are known at line `end`, are atomic: all orders are tried."""
    known = [each for each in operations if each.line <= end]
    done = {each.line: each.completed and (each.end_line or 0) <= end for each in known}
    known = [each for each in known if each.kind == "write" or done[each.line]]

    def fits(left: List[Operation], value: Optional[int]) -> bool:
        if not any(done[each.line] for each in left):
            return True
        first_end = min((each.end_line or 0) for each in left if done[each.line])
        for each in left:
            if each.line < first_end and (each.kind == "write" or each.value == value):
                if fits([other for other in left if other is not each], each.value):
                    return True
        return False

    return fits(known, None)


def set_aside(calls: List[Operation]) -> List[int]:
    """The reads that can't be explained, by their definition and by brute force."""
    left = [call for call in calls if not call.failed]
    found = []
    for end in sorted(call.end_line or 0 for call in left if call.completed):
        if has_order(left, end):
            continue
        culprit = next(call for call in left if call.end_line == end)
        left = [call for call in left if call is not culprit]
        found.append(culprit.line)
    return found


class Unexplained(unittest.TestCase):
    def test_against_brute_force(self) -> None:
        kinds: Dict[str, int] = {}
        for seed in range(1500):
            calls = read_history(text(*random_history(seed, random.Random(seed).randrange(4, 22)))).calls
            expected = set_aside(calls)
            told, count = find_unexplained(calls)
            self.assertEqual(count, len(expected), f"seed {seed}")
            self.assertEqual([told.read.line] if told else [], expected[:1], f"seed {seed}")
            kind = told.kind if told else "none"
            kinds[kind] = kinds.get(kind, 0) + 1
        self.assertTrue(all(kinds[kind] > 40 for kind in ("none", "unwritten", "early", "zones")), kinds)

    def test_the_witnesses(self) -> None:
        """Each pair is a precedence between the two clusters, among the lines up to the read's reply."""
        seen = 0
        for seed in range(1500):
            told, _ = find_unexplained(read_history(text(*random_history(seed, 30))).calls)
            if told is None or told.kind != "zones":
                continue
            seen += 1
            assert told.write is not None and told.other is not None
            values = [(told.write.value, told.other.value), (told.other.value, told.write.value)]
            self.assertEqual([(before.value, after.value) for before, after in told.pairs], values)
            for before, after in told.pairs:
                self.assertTrue(before.completed and (before.end_line or 0) < after.line)
                self.assertTrue(after.kind == "write" or (after.end_line or 0) <= (told.read.end_line or 0))
            self.assertIs(told.pairs[1][1], told.read)
        self.assertGreater(seen, 200)

    def test_against_the_checker(self) -> None:
        """The lines up to the read's reply are not atomic, the lines before it are."""
        faulty = 0
        for seed in range(60):
            lines = [line + b"\n" for line in text(*random_history(seed, 60, 4, fails=False)).splitlines()]
            told, _ = find_unexplained(read_history(b"".join(lines)).calls)
            status = run_checker(b"".join(lines)).status
            self.assertEqual(status, 0 if told is None else 1)
            if told is None:
                continue
            faulty += 1
            end = told.read.end_line or 0
            self.assertEqual(run_checker(b"".join(lines[:end])).status, 1)
            self.assertEqual(run_checker(b"".join(lines[:end - 1])).status, 0)
        self.assertGreater(faulty, 30)

    def test_peaks(self) -> None:
        chance = random.Random(1)
        for size in (1, 2, 3, 7, 16, 33):
            peaks, numbers = Peaks(size), [-1] * size
            for _ in range(200):
                place, number = chance.randrange(size), chance.randrange(1000)
                peaks.raise_to(place, number)
                numbers[place] = max(numbers[place], number)
                begin, end = chance.randrange(size + 1), chance.randrange(size + 1)
                self.assertEqual(peaks.greatest(begin, end), max(numbers[begin:end], default=-1))


class TimeLine(unittest.TestCase):
    def rows(self, events: Sequence[Line], width: int = 200) -> List[str]:
        calls = read_history(text(*events)).calls
        entries = [Entry(call, "*" if call.kind == "write" else "", "") for call in calls]
        return [line.text for line in draw(entries, width)]

    def test_bars(self) -> None:
        self.assertEqual(self.rows([write(1, 5), read(2), gave(2, 5), reply(1)]),
                         ["1 to 4  process 1  write 5 * [===========]",
                          "2 to 3  process 2  read 5        [---]"])

    def test_ends(self) -> None:
        events = [write(1, 5), fail(1), write(1, 6), crash(1), read(2), write(3, 7), reply(3)]
        self.assertEqual(self.rows(events),
                         ["1 to 2  process 1  write 5 * [===x",
                          "3 to 4  process 1  write 6 *         [===!",
                          "5       process 2  read                      [-------->",
                          "6 to 7  process 3  write 7 *                     [===]"])

    def test_narrow(self) -> None:
        self.assertEqual(self.rows([write(1, 5), read(2), gave(2, 5), reply(1)], 40),
                         ["1 to 4  process 1  write 5 * [=====]", "2 to 3  process 2  read 5      [-]"])
        self.assertEqual(self.rows([write(1, 5), read(2), gave(2, 5), reply(1)], 1),
                         ["1 to 4  process 1  write 5 * [==]", "2 to 3  process 2  read 5     []"])

    def test_the_page(self) -> None:
        page = explain_text(text(*STALE_FILL), report(row(zones([1, 4], [1, 4], [4, 7]))))
        self.assertTrue(page.endswith("""\
Time line: a column for each line where one of these begins or ends
  1 to 2  process 1  write 9  * [===]
  3 to 6  process 4  read 9   ?         [===========]
  4 to 5  process 3  write 11 *             [===]
  7 to 8  process 2  read 9   X                         [===]

  X can't be explained   * what it contradicts   ? look here first
  [ called   ] answered"""), page)

    def test_a_failed_write_of_the_value_is_there(self) -> None:
        page = explain_text(text(*FAILED), report(row({"kind": "unwritten", "read": 3})))
        self.assertIn("1 to 2  process 1  write 7 * [===x", page)
        self.assertIn("x failed", page)


class Colour(unittest.TestCase):
    def test_when(self) -> None:
        terminal = mock.Mock(isatty=lambda: True)
        pipe = mock.Mock(isatty=lambda: False)
        table: List[Tuple[str, Any, Dict[str, str], bool]] = [
            ("auto", terminal, {}, True), ("auto", pipe, {}, False), ("always", pipe, {}, True),
                 ("never", terminal, {}, False), ("auto", terminal, {"NO_COLOR": "1"}, False),
                 ("auto", terminal, {"NO_COLOR": ""}, True), ("auto", terminal, {"TERM": "dumb"}, False)]
        for choice, stream, environment, expected in table:
            with self.subTest(choice=choice, environment=environment):
                with mock.patch.dict(os.environ, {"TERM": "xterm", **environment}, clear=True):
                    self.assertEqual(painter(choice, stream).on, expected)

    def test_the_words_are_the_same(self) -> None:
        history = read_history(text(*STALE_FILL))
        rows = read_report(report(row(zones([1, 4], [1, 4], [4, 7]))))
        plain = explain(history, rows, ExplainSettings())
        coloured = explain(history, rows, ExplainSettings(paint=Painter(True)))
        self.assertIn("\x1b[1;31m", coloured)
        for code in ("1;31", "33", "1", "2", "0"):
            coloured = coloured.replace(f"\x1b[{code}m", "")
        self.assertEqual(coloured, plain)


class Command(InFolder):
    def file(self, name: str, data: bytes) -> str:
        (self.folder / name).write_bytes(data)
        return str(self.folder / name)

    def test_runs_the_checker_if_there_is_no_report(self) -> None:
        ran = run("explain", self.file("h.jsonl", text(*INVERSION)))
        self.assertEqual(ran.status, 1)
        self.assertIn("h.jsonl: not linearizable: 1 of 1 register\n\nRegister \"x\" is not "
                      "linearizable\n", ran.out)
        self.assertIn("new-old inversion", ran.out)

    def test_standard_input(self) -> None:
        ran = run("explain", "-", given=text(*INVERSION))
        self.assertEqual(ran.status, 1)
        self.assertEqual(ran.out.splitlines()[0], "standard input: not linearizable: 1 of 1 register")
        self.assertEqual(run("explain", "-", "-").status, 3)

    def test_nothing_to_explain(self) -> None:
        ran = run("explain", "-", given=text(*INVERSION[:5]))
        self.assertEqual((ran.status, ran.out), (0, "standard input: linearizable: 3 operations, nothing to "
                                                    "explain\n"))

    def test_one_register(self) -> None:
        events = [*INVERSION, *stale("y"), read(1, "z"), gave(1, None)]
        path = self.file("h.jsonl", text(*events))
        ran = run("explain", "--register", "y", path)
        self.assertEqual(ran.status, 1)
        self.assertIn('Register "y"', ran.out)
        self.assertNotIn('Register "x"', ran.out)
        ran = run("explain", "--register", "z", path)
        self.assertEqual((ran.status, ran.out), (0, f'{path}: register "z" is linearizable, nothing to '
                                                    'explain\n'))
        ran = run("explain", "--register", "w", path)
        self.assertEqual((ran.status, ran.err), (3, f'regkit explain: {path}: no register has the name '
                                                    '"w"\n'))
        early = self.file("early", report(row(zones([1, 3], [1, 4], [4, 6])), registers=3))
        self.assertEqual(run("explain", "--register", "z", path, early).status, 2)
        self.assertIn("not linearizable: at least 1 of 3 registers\n", run("explain", path, early).out)

    def test_at_most_so_many(self) -> None:
        events = stale("a", "b", "c", "d")
        ran = run("explain", "--most", "1", "-", given=text(*events))
        self.assertEqual((ran.out.count("is not linearizable"), ran.status), (1, 1))
        self.assertTrue(ran.out.endswith("And 3 more faulty registers: --most says how many are "
                                         "explained.\n"))

    def test_a_report_of_another_history(self) -> None:
        path = self.file("h.jsonl", text(*INVERSION))
        unknown = {**row({"kind": "unwritten", "read": 2}), "register": "q"}
        others = [report(row(zones([1, 40], [1, 4], [4, 6]))), report(unknown),
                  b"nothing", b"", report(row({"kind": "early"}))]
        for place, other in enumerate(others):
            with self.subTest(place):
                ran = run("explain", path, self.file("other", other))
                self.assertEqual((ran.status, ran.out), (2, ""))
        fine = self.file("fine.jsonl", text(*INVERSION[:5]))
        ran = run("explain", fine, self.file("false", report(row(zones([1, 3], [1, 4], [3, 4])))))
        self.assertEqual((ran.status, ran.err), (2, f"regkit explain: {fine}: the report isn't of this "
                                                    "history: run regcheck on it again\n"))

    def test_refused_and_missing(self) -> None:
        ran = run("explain", "-", given=b"process,op\n1,read\n")
        self.assertEqual((ran.status, ran.out), (2, ""))
        self.assertIn("refused: taken for a table (--from csv), and line 1: the header has no start", ran.err)
        ran = run("explain", str(self.folder / "none"))
        self.assertEqual((ran.status, ran.err),
                         (4, f"regkit explain: {self.folder}/none: No such file or directory\n"))
        ran = run("explain", self.file("h.jsonl", text(*INVERSION)), str(self.folder / "none"))
        self.assertIn(f"h.jsonl: {self.folder}/none: No such file or directory\n", ran.err)

    def test_hostile_names(self) -> None:
        name = "a\x1b]0;owned\x07\u202e\u2067\n\u05d0\x9bb"
        events = [write(1, 5, name), reply(1), read(2, name), gave(2, None)]
        for command in ("explain", "check"):
            out = run(command, "-", given=text(*events)).out
            self.assertIn('"a\\u001b]0;owned\\u0007\\u202e\\u2067\\u000a\\u05d0\\u009bb"', out)
            self.assertTrue(all(character.isprintable() or character == "\n" for character in out))
            self.assertNotIn("\u05d0", out)


if __name__ == "__main__":
    unittest.main()
