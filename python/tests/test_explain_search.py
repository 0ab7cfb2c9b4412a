"""`regkit explain` of a no by `regsearch`: the fault is made small, and told."""
import json
import random
import unittest
from itertools import permutations
from typing import Iterator, List, Optional
from unittest import mock

from regkit.checker.programs import SEARCH, decide, find_program, run_checker
from regkit.checker.report import read_report
from regkit.explain import reaching, shrinking
from regkit.explain.shrinking import Kept, asker, fences, history_of, less, shrink, since, until, without_idle
from regkit.history.operations import Operation, read_history

from .events import Line, cas, crash, fail, gave, read, reply, run, text, took, write
from .test_search import FINE, NULL_TWICE, STALE, TWO_WINNERS, Files
from .test_verify_search import random_events, report


def calls_of(events: List[Line]) -> List[Operation]:
    return read_history(text(*events)).registers["x"]


def lines(kept: List[Kept]) -> List[int]:
    return [each.call.line for each in kept]


def legal_orders(kept: List[Kept]) -> Iterator[List[Kept]]:
    """All legal orders of those that replied, with any of the others."""
    free = [each for each in kept if not each.replied]
    for chosen in range(2 ** len(free)):
        for order in permutations(each for each in kept if each.replied or chosen >> free.index(each) & 1):
            value: Optional[int] = None
            for place, each in enumerate(order):
                call, end = each.call, each.call.end_line if each.replied else None
                wanted = call.asked if call.kind == "cas" else call.value
                late = any(end is not None and end < earlier.call.line for earlier in order[:place])
                if late or (call.kind != "write" and (value == wanted) == call.missed):
                    break
                value = call.value if call.writes else value
            else:
                yield list(order)


def values_behind(order: List[Kept], call: Operation) -> List[int]:
    """Whose values there are in an order from the call on, by line; 0 is the initial one."""
    trace = [0]
    for each in order:
        trace.append(each.call.line if each.call.writes else trace[-1])
    ended = [place for place, each in enumerate(order, 1)
             if each.replied and (each.call.end_line or 0) < call.line]
    return trace[max(ended, default=0):]


def faulty_reply(events: List[Line]) -> Optional[int]:
    """The reply that regsearch names, if it found no order."""
    answer = run_checker(text(*events), (), find_program(SEARCH))
    row = read_report(answer.report).rows[0]
    return int(row["fault"]["reply"]) if row.get("fault", {}).get("kind") == "search" else None


class Steps(unittest.TestCase):
    def test_what_was_called_before(self) -> None:
        """A write that fails later is not there, nor is what replied later and changed nothing."""
        events = [write(1, 5), reply(1), write(2, 6), write(3, 7), read(4), cas(5, 5, 6),
                  cas(6, 5, 8), read(7), gave(7, 5), fail(3), reply(2), gave(4, 5), took(5, False), crash(6),
                  write(8, 9)]
        kept = until(calls_of(events), 9)
        self.assertEqual([(each.call.line, each.replied) for each in kept],
                         [(1, True), (3, False), (7, False), (8, True)])

    def test_its_history(self) -> None:
        """Lines keep their numbers, and each operation has a process of its own."""
        events = [write(1, 5), reply(1), cas(1, 5, 6), took(1, False), read(1), gave(1, None),
                  cas(1, None, 7)]
        kept = [Kept(call, call.line != 1) for call in calls_of(events)]
        made = history_of(kept)
        again = read_history(made)
        self.assertEqual([call.line for call in again.calls], [1, 3, 5, 7])
        self.assertEqual([call.end_line for call in again.calls], [None, 4, 6, None])
        self.assertEqual([call.kind for call in again.calls], ["write", "cas", "read", "cas"])
        self.assertEqual((again.calls[1].asked, again.calls[1].value, again.calls[1].took), (5, 6, False))
        self.assertEqual(len({call.process for call in again.calls}), 4)
        self.assertNotEqual(run_checker(made, (), find_program(SEARCH)).status, 2)

    def test_idle_writes(self) -> None:
        """A write without a reply is left out if nobody asks for its value, and no cas missed."""
        events = [write(1, 5), cas(2, 5, 6), write(3, 7), read(4), gave(4, 7)]
        kept = until(calls_of(events), 5)
        self.assertEqual(lines(without_idle(kept)), [3, 4])  # 6, and then 5, which only the cas asked for
        missed = until(calls_of([*events[:3], cas(4, 1, 2), took(4, False)]), 5)
        self.assertEqual(lines(without_idle(missed)), [1, 2, 3, 4])

    def test_no_step_makes_a_no(self) -> None:
        """If there is an order of more, there is one of less."""
        chance = random.Random(1)
        ask, tried = asker([]), 0
        for seed in range(300):
            events = random_events(seed)
            calls = calls_of(events)
            kept = until(calls, len(events) + 1)
            if ask(kept) != 0:
                continue
            chosen = [call for call in calls if chance.random() < 0.5]
            tried += 1
            self.assertEqual(ask(less(kept, chosen)), 0, seed)
        self.assertGreater(tried, 50)

    def test_nothing_before_a_fence_is_needed(self) -> None:
        """If there is an order of all, there is one of what is left from the fence on."""
        ask, tried = asker([]), 0
        for seed in range(400):
            events = random_events(seed)
            kept = until(calls_of(events), len(events) + 1)
            for fence in fences(kept):
                fewer = since(kept, fence)
                if len(fewer) < len(kept) and ask(kept) == 0:
                    tried += 1
                    self.assertEqual(ask(fewer), 0, seed)
        self.assertGreater(tried, 40)

    def test_fences(self) -> None:
        """Pending calls may overlap a fence, and stay."""
        events = [write(9, 8), write(1, 5), reply(1), write(1, 6), read(2), reply(1), gave(2, 6), write(1, 7),
                  write(3, 8), reply(1), write(1, 4), reply(1), read(2), gave(2, 8)]
        kept = until(calls_of(events), len(events) + 1)
        self.assertEqual([call.line for call in fences(kept)], [2, 8, 11])
        self.assertEqual(lines(since(kept, fences(kept)[1])), [1, 8, 9, 11, 13])

    def test_small(self) -> None:
        """What is left has no order, and each further step would let it have one."""
        ask, shrunk = asker([]), 0
        for seed in range(200):
            events = random_events(seed)
            line = faulty_reply(events)
            if line is None:
                continue
            small = shrink(calls_of(events), line, ask)
            assert small is not None and small.ended
            shrunk += 1
            self.assertEqual(ask(small.kept), 1)
            self.assertIn(line, [each.call.end_line for each in small.kept if each.replied])
            for each in small.kept:
                if not each.call.writes and each.call.end_line != line:
                    self.assertNotEqual(ask(less(small.kept, [each.call])), 1, (seed, each.call.line))
        self.assertGreater(shrunk, 40)

    def test_so_many_runs(self) -> None:
        events = [each for n in range(40) for each in (write(1, n % 3), reply(1), read(2), gave(2, n % 3))]
        events += [read(2), gave(2, 1)]
        runs: List[int] = []
        with mock.patch.object(shrinking, "MOST_RUNS", 3):
            small = shrink(calls_of(events), len(events), asker([]), runs.append)
        assert small is not None
        self.assertEqual((small.runs, small.ended, runs), (3, False, [2, 3]))

    def test_bounds_of_its_runs(self) -> None:
        """They are never above those that were asked for."""
        kept = until(calls_of(NULL_TWICE), 6)
        self.assertEqual(asker(["--steps", "1"])(kept), 6)
        self.assertEqual(asker(["--configurations", "1"])(kept), 6)
        self.assertEqual(asker(["--steps", "1000000000000"])(kept), 1)


class Values(unittest.TestCase):
    def reached(self, events: List[Line], line: int) -> reaching.Reached:
        calls = calls_of(events)
        end = next(call.end_line or 0 for call in calls if call.line == line)
        found = reaching.reached(until(calls, end), next(call for call in calls if call.line == line), end)
        assert found is not None
        return found

    def test_a_stale_read(self) -> None:
        found = self.reached(STALE, 7)
        self.assertEqual((found.values, found.taken, found.broken), ([5], [], None))

    def test_open_calls(self) -> None:
        events = [write(1, 5), reply(1), write(2, 6), cas(3, 6, 7), read(4), gave(4, 8)]
        found = self.reached(events, 5)
        self.assertEqual(found.values, [1, 3, 4])

    def test_a_cas_that_came_too_late(self) -> None:
        """It may find its value, but then the other cas, which was answered first, doesn't."""
        found = self.reached(TWO_WINNERS, 4)
        self.assertEqual((found.values, found.taken), ([1, 3], [1]))
        assert found.broken is not None
        self.assertEqual(found.broken.line, 3)

    def test_a_miss(self) -> None:
        found = self.reached([cas(1, None, 5), took(1, False)], 1)
        self.assertEqual((found.values, found.taken), ([0], []))

    def test_against_all_orders(self) -> None:
        """The values behind whatever ended before the call, in all legal orders of the rest."""
        seen = 0
        for seed in range(200):
            events = random_events(seed)
            line = faulty_reply(events)
            kept = until(calls_of(events), line or 0)
            if line is None or len(kept) > 6:
                continue
            call = next(each.call for each in kept if each.replied and each.call.end_line == line)
            found = reaching.reached(kept, call, line)
            assert found is not None
            traces = [trace for order in legal_orders([each for each in kept if each.call is not call])
                      for trace in [values_behind(order, call)]]
            self.assertEqual(found.values, sorted({by for trace in traces for by in trace}), seed)
            seen += 1
        self.assertGreater(seen, 40)

    def test_moments_against_all_orders(self) -> None:
        """The values behind all legal orders of what was known by then."""
        seen = 0
        for seed in range(200):
            events = random_events(seed)
            line = faulty_reply(events)
            kept = until(calls_of(events), line or 0)
            if line is None or len(kept) > 6:
                continue
            call = next(each.call for each in kept if each.replied and each.call.end_line == line)
            found = reaching.moments(kept, call, line)
            assert found is not None
            ends = [each.call.end_line for each in kept if each.replied]
            self.assertEqual([moment.line for moment in found], sorted([*lines(kept), *ends]))
            for moment in found:
                known = [Kept(each.call, each.replied and (each.call.end_line or 0) <= moment.line)
                         for each in kept if each.call.line <= moment.line]
                values = {next((each.call.value for each in reversed(order) if each.call.writes), None)
                          for order in legal_orders(known)}
                self.assertEqual(set(moment.values), values, (seed, moment))
                self.assertEqual(len(moment.values), len(values))
                self.assertEqual(not moment.values, moment.line == line)
            seen += 1
        self.assertGreater(seen, 40)

    def test_too_many_orders(self) -> None:
        events = [*(write(n, n) for n in range(3, 12)), read(1), gave(1, 99)]
        calls = calls_of(events)
        with mock.patch.object(reaching, "MOST_STEPS", 100):
            self.assertIsNone(reaching.reached(until(calls, 11), calls[-1], 11))
            self.assertIsNone(reaching.moments(until(calls, 11), calls[-1], 11))


class Told(Files):
    def explained(self, events: List[Line], *words: str) -> str:
        ran = run("explain", *words, "-", given=text(*events))
        self.assertEqual((ran.status, ran.err), (1, ""))
        return " ".join(ran.out.split())

    def test_a_cas(self) -> None:
        said = self.explained(TWO_WINNERS)
        for words in (
                "standard input: not linearizable: 1 of 1 register", 'Register "x" is not linearizable',
                "The cas from 0 to 2 that took place, by process 2 (lines 4 to 6): the value must have been 0 at",
                "The 3 operations called before line 6 have no order by themselves: the write "
                "of 0",
                "That holds even if nothing had answered the write of 0 by process 1 (lines 1 to 2).",
                "From line 4 to line 6 the value can only be 0, by the write of 0 by process 1 (lines 1 to 2); "
                "or 1, by",
                "It could have taken effect on 0, by the write of 0 by process 1 (lines 1 to 2); but no order "
                "then gives the reply of line 5, of the cas from 0 to 1 that took place",
                "4 to 6 process 2 cas from 0 to 2, true X [=======]", "X no order gives its reply"):
            self.assertIn(words, said)

    def test_a_read(self) -> None:
        said = self.explained([read(3), gave(3, None), *STALE, read(3)])
        for words in ("These 2 of the 5 operations called before line 10",
                      "the value can only be 5, by the write of 5",
                      "What was answered before line 7 isn't needed, since the write of 5 by process 1 "
                      "(lines 7 to 8) hides it.",
                      "What wrote 6 before is hidden by the write of 5 by process 1 (lines 7 to 8)."):
            self.assertIn(words, said)
        overlapped = [write(1, 6), write(3, 5), reply(1), reply(3), read(2), gave(2, 5), read(2), gave(2, 6)]
        said = self.explained([*overlapped, write(1, 5)])
        self.assertIn("The last write of 6 that was answered is the write of 6 by process 1 (lines 1 to 3), "
                      "and its value was overwritten by then.", said)

    def test_a_write_that_comes_later(self) -> None:
        said = self.explained([read(1), gave(1, 5), write(2, 5), reply(2), write(2, 5)])
        self.assertIn("5 is written only later, first by the write of 5 by process 2 (lines 3 to 4)", said)
        self.assertIn("the value can only be null, the initial value", said)

    def test_an_open_cas(self) -> None:
        said = self.explained([write(1, 1), reply(1), cas(2, 3, 5), read(1), gave(1, 5), write(1, 3)])
        self.assertIn("the cas from 3 to 5 by process 2 (line 3, never answered) was open, but in none of "
                      "these orders it takes effect from line 4 on", said.lower())

    def test_a_miss(self) -> None:
        said = self.explained([cas(1, None, 5), took(1, False)])
        self.assertIn("the value must have been something else than null at some moment", said)
        self.assertIn("So it could only have found what it asks for.", said)

    def test_a_delete_whose_reply_is_not_needed(self) -> None:
        """What the delete found is left out, so it may find nothing."""
        deleted: List[Line] = [{"process": 2, "event": "call", "op": "delete", "register": "x"},
                               {"process": 2, "event": "reply", "found": True}]
        cleared: List[Line] = [{**cas(1, 6, 0), "to": None}, took(1, True)]
        said = self.explained([write(1, 5), reply(1), *deleted, cas(3, None, 6), took(3, True), *cleared,
                               read(2), gave(2, 6)])
        for words in ("That holds even if nothing had answered the delete that found a value, by process 2",
                      "From line 9 to line 10 the value can only be null, by the delete that found a value, by "
                      "process 2 (lines 3 to 4); or null, by the cas from 6 to null that took place, by process 1 "
                      "(lines 7 to 8): in each order"):
            self.assertIn(words, said)

    def test_unwritten(self) -> None:
        said = self.explained([cas(1, 7, 5), took(1, True)])
        self.assertIn("found 7, which nobody wrote to this register.", said)
        self.assertIn("Was the store empty when the recording began?", said)
        said = self.explained([cas(1, None, 7), fail(1), read(2), gave(2, 7)])
        self.assertNotIn("Was the store empty", said)
        self.assertIn("1 to 2 process 1 cas from null to 7 [---x", said)

    def test_a_report_that_is_there(self) -> None:
        written, history = self.folder / "r", self.folder / "h"
        history.write_bytes(text(*TWO_WINNERS))
        written.write_bytes(decide(text(*TWO_WINNERS)).report)
        self.assertIn("The 3 operations called",
                      " ".join(run("explain", str(history), str(written)).out.split()))
        with mock.patch("regkit.explain.shrinking.find_program", lambda name: None):
            ran = run("explain", str(history), str(written))
        self.assertEqual(ran.status, 1)
        said = " ".join(ran.out.split())
        self.assertIn("Regsearch was not found", said)
        self.assertIn("It wasn't made smaller: 3 operations called before line 6", said)
        for events in (FINE, [*TWO_WINNERS[:5], took(2, False)], STALE):
            history.write_bytes(text(*events))
            ran = run("explain", str(history), str(written))
            self.assertEqual((ran.status, ran.out), (2, ""), events)
            self.assertIn("the report isn't of this history", ran.err)

    def test_open_calls(self) -> None:
        """The report lists them. The first reports didn't, so of these the history tells them."""
        events = [*STALE[:6], write(3, 7), crash(3), *STALE[6:]]
        history, written = self.folder / "h", self.folder / "r"
        history.write_bytes(text(*events))
        row, summary = map(json.loads, decide(text(*events)).report.splitlines())
        without = {key: row["fault"][key] for key in ("before", "kind", "reply")}
        told = []
        for fault in (row["fault"], without, {**without, "asks": [2]}):
            written.write_bytes(report({**row, "fault": fault}, summary))
            told.append(run("explain", str(history), str(written)))
        self.assertEqual(told[0], told[1])
        self.assertIn("Open then: the write of 7 by process 3", " ".join(told[0].out.split()))
        self.assertIn("the report isn't of this history", told[2].err)

    def test_yes_and_unknown(self) -> None:
        ran = run("explain", "-", given=text(*FINE))
        self.assertEqual((ran.status, ran.out),
                         (0, "standard input: linearizable: 4 operations, nothing to explain\n"))
        ran = run("explain", "--configurations", "1", "-", given=text(*NULL_TWICE))
        self.assertEqual(ran.status, 6)
        self.assertIn('standard input: unknown: the search gave up on 1 register, "x"\n  raise `--conf',
                      ran.out)

    def test_one_register_of_several(self) -> None:
        other = [{**event, "register": "y"} for event in FINE]
        events = [*other, *NULL_TWICE]
        ran = run("explain", "--configurations", "1", "--register", "y", "-", given=text(*events))
        self.assertEqual((ran.status, ran.out),
                         (0, 'standard input: register "y" is linearizable, nothing to explain\n'))
        ran = run("explain", "--configurations", "1", "--register", "x", "-", given=text(*events))
        self.assertEqual(ran.status, 6)

    def test_without_regsearch(self) -> None:
        with mock.patch("regkit.checker.programs.find_program", self.no_search()):
            ran = run("explain", "-", given=text(*STALE))
        self.assertEqual((ran.status, ran.out), (2, ""))
        self.assertIn("regsearch takes it", ran.err)

    @staticmethod
    def no_search() -> object:
        return lambda name: None if name == SEARCH else find_program(name)

    def test_random_histories(self) -> None:
        """Each fault is told."""
        told = 0
        for seed in range(60):
            events = random_events(seed)
            if not any(event.get("op") for event in events) or decide(text(*events)).status != 1:
                continue
            told += 1
            self.explained(events)
        self.assertGreater(told, 10)
