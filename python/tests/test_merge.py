"""`regkit merge`: no precedence that isn't certain, and none given up without need; what it refuses and
says."""
import argparse
import itertools
import json
import pathlib
import random
import subprocess
import sys
import tempfile
import textwrap
import unittest
from typing import Any, Dict, List, NamedTuple, Optional, Set, Tuple

from regkit.checker.programs import SEARCH, find_program, run_checker, run_search
from regkit.commands import merge as command
from regkit.commands.merge import duration
from regkit.merge import Unmergeable, merge
from regkit.merge.order import in_order
from regkit.merge.recorded import RecordedEvent
from regkit.record import Call, Client, Read, Recorder, Write

from .events import Line, cas, crash, fail, gave, read, reply, text, took, write
from .split_support import Ran, run_command

PYTHON = pathlib.Path(__file__).resolve().parents[1]
Place = Tuple[int, int]  # a file, and an event of it


# ---- the rule, against all pairs of events


def random_events(chance: random.Random) -> List[RecordedEvent]:
    """A file of at most nine events, some of them at one time."""
    times = sorted(chance.randrange(chance.choice([5, 20, 60])) for _ in range(chance.randrange(10)))
    events: List[RecordedEvent] = []
    opened: Set[int] = set()
    for time in times:
        process = chance.randrange(3)
        what = chance.choice(["reply", "reply", "reply", "fail"]) if process in opened else "call"
        opened.symmetric_difference_update({process})
        events.append(RecordedEvent(time, process, what, ""))
    return events


class Laid:
    """Some files, and the places of their events in the merged history."""

    def __init__(self, files: List[List[RecordedEvent]], error: int) -> None:
        self.files, self.error = files, error
        rest = [{kind: iter([place for place, event in enumerate(events) if (event.what == "call") == kind])
                 for kind in (True, False)} for events in files]
        self.at: Dict[Place, int] = {}
        self.given_up: Set[Place] = set()
        for number, step in enumerate(in_order(files, error)):
            place = step.file, next(rest[step.file][step.event.what == "call"])
            assert self.event(place) is step.event, "calls, or endings, of one file out of order"
            self.at[place] = number
            if step.given_up:
                self.given_up.add(place)

    def event(self, place: Place) -> RecordedEvent:
        return self.files[place[0]][place[1]]

    def is_certain(self, before: Place, after: Place) -> bool:
        """By the rule as docs/recipes.md says it."""
        if before[0] == after[0]:
            return before[1] < after[1]
        return self.event(before).time + self.error < self.event(after).time

    def pairs(self) -> List[Tuple[Place, Place]]:
        """Each reply with each call."""
        replies = [place for place in self.at if self.event(place).what == "reply"]
        calls = [place for place in self.at if self.event(place).what == "call"]
        return list(itertools.product(replies, calls))

    def lost(self) -> List[Tuple[Place, Place]]:
        """The certain precedences that the merged history doesn't have."""
        return [pair for pair in self.pairs()
                if self.is_certain(*pair) and self.at[pair[0]] > self.at[pair[1]]]

    def could_have_all(self) -> bool:
        """Whether any order of the events has all certain precedences, and no other."""
        followers: Dict[Place, List[Place]] = {place: [] for place in self.at}
        waits = dict.fromkeys(self.at, 0)
        for answered, called in self.pairs():
            first, second = (answered, called) if self.is_certain(answered, called) else (called, answered)
            followers[first].append(second)
            waits[second] += 1
        free = [place for place, count in waits.items() if count == 0]
        for place in free:
            for follower in followers[place]:
                waits[follower] -= 1
                if waits[follower] == 0:
                    free.append(follower)
        return len(free) == len(self.at)


class Rule(unittest.TestCase):
    def test_all_pairs_of_random_files(self) -> None:
        contradictions = 0
        for seed in range(3000):
            chance = random.Random(seed)
            files = [random_events(chance) for _ in range(chance.randint(1, 4))]
            laid = Laid(files, chance.choice([0, 0, 1, 3, 10, 30]))
            with self.subTest(seed=seed):
                self.assertEqual(len(laid.at), sum(map(len, files)))
                for reply_at, call_at in laid.pairs():
                    if laid.at[reply_at] < laid.at[call_at]:
                        self.assertTrue(laid.is_certain(reply_at, call_at))
                for reply_at, call_at in laid.lost():
                    self.assertEqual(reply_at[0], call_at[0])
                    self.assertIn(call_at, laid.given_up)
                    self.assertLessEqual(laid.event(call_at).time, laid.event(reply_at).time + laid.error)
                self.assertEqual(laid.could_have_all(), not laid.lost())
                self.assertEqual(bool(laid.given_up), bool(laid.lost()))
                contradictions += bool(laid.lost())
        self.assertGreater(contradictions, 100)
        self.assertLess(contradictions, 2000)

    def test_one_file_stays(self) -> None:
        for seed in range(200):
            events = random_events(random.Random(seed))
            for error in (0, 10**9):
                self.assertEqual([step.event for step in in_order([events], error)], events)
        self.assertEqual(list(in_order([], 5)), [])

    def test_a_call_that_may_be_early_leaves_the_other_file_as_it_is(self) -> None:
        busy = [RecordedEvent(10, 1, "call", ""), RecordedEvent(20, 1, "reply", ""),
                RecordedEvent(30, 1, "call", ""), RecordedEvent(40, 1, "reply", "")]
        slow = [RecordedEvent(35, 1, "call", ""), RecordedEvent(50, 1, "reply", "")]
        steps = list(in_order([busy, slow], 20))
        self.assertEqual([step.event for step in steps if step.file == 0], busy)
        self.assertEqual([step.event.time for step in steps], [10, 35, 20, 30, 40, 50])
        self.assertFalse(any(step.given_up for step in steps))

    def test_two_orders_that_contradict_each_other(self) -> None:
        """Each file has two operations, one after the other, all within the clock error."""
        one = [RecordedEvent(10 * place, 1, what, "") for place, what in enumerate(["call", "reply"] * 2, 1)]
        other = [RecordedEvent(event.time + 1, 1, event.what, "") for event in one]
        steps = list(in_order([one, other], 100))
        self.assertEqual([(step.file, step.event.time) for step in steps if step.given_up], [(0, 30)])
        kept = [step.event for step in steps if step.file == 1]
        self.assertEqual(kept, other)


# ---- a run of a store, recorded by clocks that differ


class Lost(Exception):
    """An answer that doesn't come."""


class Refused(Exception):
    """An answer that says that nothing was done."""


class Machine:
    """A recorder with clients. Its clock is ahead by up to the skew, and shows multiples of its grain."""

    def __init__(self, run: "Run", number: int) -> None:
        self.run, self.shown = run, 0
        self.recorder = Recorder(failures=Refused, clock=self.clock, values_after=number * 1000)
        clients = run.chance.randint(1, 3)
        self.clients = [self.recorder.client(f"{number}-{client}") for client in range(clients)]

    def clock(self) -> int:
        ahead = self.run.now + self.run.chance.randint(0, self.run.skew)
        self.shown = max(self.shown, ahead // self.run.grain * self.run.grain)
        return self.shown


class Open(NamedTuple):
    """A call between its beginning and its end."""

    call: Call
    done: bool  # whether the store has done it


class Run:
    """Clients of a store that does one operation at a time. `turns` has, by client, the true moments of its
    calls and of what ended them."""

    def __init__(self, seed: int, skew: int, grain: int = 1) -> None:
        self.chance = random.Random(seed)
        self.now, self.turn, self.skew, self.grain = 1000, 0, skew, grain
        self.store: Dict[str, Optional[int]] = {}
        self.turns: Dict[Tuple[str, bool], List[int]] = {}
        self.open: Dict[Client, Open] = {}
        machines = [Machine(self, number) for number in range(self.chance.randint(2, 4))]
        for _ in range(60):
            self.now += self.chance.choice([0, 0, 1, 5, 20])
            self.step(self.chance.choice(self.chance.choice(machines).clients))
        self.histories = [(f"file {number}", machine.recorder.history())
                          for number, machine in enumerate(machines)]

    def step(self, client: Client) -> None:
        """The next thing that a client does: it calls, the store acts, or the answer comes."""
        self.turn += 1
        found = self.open.pop(client, None)
        if found is None:
            writes, register = self.chance.choice([True, False]), self.chance.choice("xy")
            call = client.write(register) if writes else client.read(register)
            call.__enter__()
            self.note(client, True)
            self.open[client] = Open(call, False)
        elif not found.done and self.chance.random() < 0.1:
            self.end(client, found.call, Refused)
        elif not found.done:
            self.act(found.call)
            self.open[client] = Open(found.call, True)
        else:
            self.end(client, found.call, Lost if self.chance.random() < 0.1 else None)

    def act(self, call: Call) -> None:
        if isinstance(call, Write):
            self.store[call.register] = call.value
        elif isinstance(call, Read):
            call.value = self.store.get(call.register)

    def end(self, client: Client, call: Call, kind: Any) -> None:
        call.__exit__(kind, None, None)
        if kind is not Lost:
            self.note(client, False)

    def note(self, client: Client, is_call: bool) -> None:
        self.turns.setdefault((client.name, is_call), []).append(self.turn)

    @property
    def error(self) -> int:
        """The largest difference between two of the clocks."""
        return -(-self.skew // self.grain) * self.grain

    def false_precedences(self, history: bytes) -> int:
        """How many calls of a merged history come behind a reply that truly came later."""
        turns = {key: iter(moments) for key, moments in self.turns.items()}
        latest = false = 0
        for line in history.splitlines():
            event = json.loads(line)
            turn = next(turns[event["client"], event["event"] == "call"])
            if event["event"] == "reply":
                latest = max(latest, turn)
            elif event["event"] == "call":
                false += latest > turn
        return false


class Runs(unittest.TestCase):
    kinds = [(0, 1), (0, 50), (3, 1), (40, 1), (40, 16), (300, 1)]  # skew and grain

    def test_each_precedence_is_one_of_the_run(self) -> None:
        for seed in range(600):
            skew, grain = self.kinds[seed % len(self.kinds)]
            run = Run(seed, skew, grain)
            with self.subTest(seed=seed):
                self.assertEqual(run.false_precedences(merge(run.histories, run.error)), 0)
                self.assertEqual(run.false_precedences(merge(run.histories, run.error * 3 + 7)), 0)

    def test_a_right_run_is_never_called_faulty(self) -> None:
        for seed in range(120):
            skew, grain = self.kinds[seed % len(self.kinds)]
            run = Run(seed, skew, grain)
            with self.subTest(seed=seed):
                answer = run_checker(merge(run.histories, run.error))
                self.assertEqual((answer.status, answer.refusal), (0, ""))

    def test_with_a_clock_error_that_is_too_small_it_may_be(self) -> None:
        """So the two tests above can fail."""
        runs = [Run(seed, 300) for seed in range(60)]
        self.assertGreater(sum(run.false_precedences(merge(run.histories, 30)) for run in runs), 100)
        self.assertTrue(any(run_checker(merge(run.histories, 30)).status == 1 for run in runs))


# ---- files


def timed(time: int, line: Line, **more: Any) -> Line:
    return {**line, **more, "time": time}


WRITER = text(timed(0, write(1, 5)), timed(100, reply(1)))
LATER = text(timed(200, read(1)), timed(210, gave(1, None)))


class Faults(unittest.TestCase):
    def test_a_stale_read_beyond_the_clock_error_is_found(self) -> None:
        """The read of null is called at 200, and the write ended at 100."""
        for error, status in [(0, 1), (99, 1), (100, 0), (1000, 0)]:
            with self.subTest(error=error):
                for files in ([WRITER, LATER], [LATER, WRITER]):
                    named = [(f"file {number}", data) for number, data in enumerate(files)]
                    self.assertEqual(run_checker(merge(named, error)).status, status)

    def test_a_stale_read_within_one_file_is_found_whatever_the_error(self) -> None:
        stale = text(timed(0, write(1, 5)), timed(1, reply(1)), timed(2, read(1)), timed(3, gave(1, None)))
        other = text(timed(2, read(7, "y")), timed(3, gave(7, None)))
        self.assertEqual(run_checker(merge([("a", stale), ("b", other)], 1000)).status, 1)


class Lines(unittest.TestCase):
    def test_processes_are_kept_apart_and_all_else_stays(self) -> None:
        one = text(timed(1, read(7), client="a", node="n", note=[1, None, "\u00e9"]), timed(3, gave(7, None)),
                   timed(5, crash(7)))
        other = text(timed(2, write(7, 1), client="b"), timed(4, fail(7)), timed(6, read(2)))
        self.assertEqual(merge([("a", one), ("b", other)]).decode().splitlines(), [
            '{"process":1,"event":"call","op":"read","register":"x","client":"a","node":"n",'
            '"note":[1,null,"\u00e9"],"time":1}',
            '{"process":3,"event":"call","op":"write","register":"x","value":1,"client":"b","time":2}',
            '{"process":1,"event":"reply","value":null,"time":3}',
            '{"process":3,"event":"fail","time":4}',
            '{"process":1,"event":"crash","time":5}',
            '{"process":2,"event":"call","op":"read","register":"x","time":6}'])

    def test_a_call_before_its_process_has_its_answer(self) -> None:
        """Two files contradict each other: a process of the first one has two calls open, and crashes in the
        second of them."""
        none = gave(1, None)
        one = text(timed(10, read(1)), timed(20, none), timed(30, read(1)), timed(40, crash(1)))
        other = text(timed(11, read(1)), timed(21, none), timed(31, read(1)), timed(41, none))
        history = merge([("a", one), ("b", other)], 100)
        events = [(event["process"], event["event"]) for event in map(json.loads, history.splitlines())]
        self.assertEqual(events, [(1, "call"), (2, "call"), (3, "call"), (2, "reply"), (2, "call"),
                                  (1, "reply"), (3, "crash"), (2, "reply")])
        self.assertEqual(run_checker(history).status, 0)

    def test_blank_lines_and_files_without_events(self) -> None:
        history = merge([("a", b"\n \n"), ("b", b"\n" + WRITER + b"\r\n"), ("c", b"")])
        self.assertEqual(history.count(b"\n"), 2)
        self.assertEqual(merge([("a", b"")]), b"")


class Refusals(unittest.TestCase):
    def test_by_name(self) -> None:
        table: List[Tuple[str, List[bytes], str]] = [
            ("no time", [text(read(1))], r"a: line 1 has no `time`.*clock=time\.monotonic_ns"),
            ("a time that is no whole number", [text({**read(1), "time": 1.5})], "a: line 1 has no `time`"),
            ("true is no time", [text({**read(1), "time": True})], "a: line 1 has no `time`"),
            ("back in time", [text(timed(5, read(1)), timed(4, gave(1, None)))],
             "a: line 2 has the time 4, and an earlier line 5: .*never go back"),
            ("no JSON", [WRITER, b"{}\nnope\n"], "b: line 1: process is not a whole number"),
            ("an open call", [text(timed(1, read(1)), timed(2, read(1)))],
             "a: line 2: the process has an open call at line 1"),
            ("no call", [WRITER, text(timed(1, reply(1)))], "b: line 1: reply without an open call"),
            ("after a crash", [text(timed(1, crash(1)), timed(2, read(1)))],
             "a: line 2: the process crashed at line 1"),
            ("one history twice", [WRITER, LATER, WRITER],
             "c: it has the same events as a, at the same times: name each history once"),
            ("a cas without its values", [text({**timed(1, cas(1, 5, 6)), "to": "6"})],
             "a: line 1: from, unless or to does not fit the event: `regkit check` says what to do"),
            ("a cas whose reply doesn't say", [text(timed(1, cas(1, 5, 6)), timed(2, reply(1)))],
             "a: line 2: a cas's reply has no ok, true or false"),
            ("a reply of another op",
             [text(timed(1, cas(1, 5, 6)), timed(2, {**took(1, True), "op": "read"}))],
             "a: line 2: reply disagrees with its call"),
            ("another op", [text(timed(1, {**read(1), "op": "add"}))],
             "a: line 1: op is neither read, write, delete, swap nor cas"),
            ("merged before", [merge([("one", WRITER), ("other", LATER)], 200)],
             "a merged history can't be merged again")]
        for name, files, words in table:
            with self.subTest(name), self.assertRaisesRegex(Unmergeable, words):
                merge(list(zip("abc", files)))

    def test_readers_that_saw_the_same_at_the_same_times(self) -> None:
        """Coarse clocks may give two histories of reads the same lines."""
        self.assertEqual(merge([("a", LATER), ("b", LATER)]).count(b"\n"), 4)


class Search(unittest.TestCase):
    """Histories that only regsearch takes: each kind of event stays as it was written."""

    one = text(timed(1, write(1, 5)), timed(3, reply(1)), timed(10, cas(1, 5, 6), client="a"),
               timed(14, took(1, True), node="n"), timed(20, cas(1, None, 9)), timed(22, fail(1)),
               timed(30, cas(1, 6, 7)), timed(31, crash(1)))
    other = text(timed(2, write(1, 5)), timed(4, reply(1)), timed(11, cas(1, 4, 8)),
                 timed(13, took(1, False)), timed(21, write(1, 5)), timed(23, fail(1)), timed(40, read(1)),
                 timed(41, gave(1, 7)))

    def test_lines(self) -> None:
        self.assertEqual(merge([("a", self.one), ("b", self.other)]).decode().splitlines(), [
            '{"process":1,"event":"call","op":"write","register":"x","value":5,"time":1}',
            '{"process":2,"event":"call","op":"write","register":"x","value":5,"time":2}',
            '{"process":1,"event":"reply","time":3}', '{"process":2,"event":"reply","time":4}',
            '{"process":1,"event":"call","op":"cas","register":"x","from":5,"to":6,"client":"a","time":10}',
            '{"process":2,"event":"call","op":"cas","register":"x","from":4,"to":8,"time":11}',
            '{"process":2,"event":"reply","ok":false,"time":13}',
            '{"process":1,"event":"reply","ok":true,"node":"n","time":14}',
            '{"process":1,"event":"call","op":"cas","register":"x","from":null,"to":9,"time":20}',
            '{"process":2,"event":"call","op":"write","register":"x","value":5,"time":21}',
            '{"process":1,"event":"fail","time":22}', '{"process":2,"event":"fail","time":23}',
            '{"process":1,"event":"call","op":"cas","register":"x","from":6,"to":7,"time":30}',
            '{"process":1,"event":"crash","time":31}',
            '{"process":2,"event":"call","op":"read","register":"x","time":40}',
            '{"process":2,"event":"reply","value":7,"time":41}'])

    @unittest.skipUnless(find_program(SEARCH), "regsearch isn't built")
    def test_answers_of_a_cas_order_it(self) -> None:
        """Two cas from null: both take place only if the clocks may be wrong by enough, and never both."""
        first = text(timed(0, cas(1, None, 5)), timed(10, took(1, True)))
        missed = text(timed(20, cas(1, None, 6)), timed(30, took(1, False)))
        took_too = text(timed(20, cas(1, None, 6)), timed(30, took(1, True)))
        null = text(timed(20, cas(1, 7, 6)), timed(21, took(1, False)), timed(22, read(1)),
                    timed(23, gave(1, None)))
        for files, error, status in [([first, missed], 0, 0), ([first, took_too], 0, 1),
                                     ([first, took_too], 99, 1), ([first, null], 0, 1),
                                     ([first, null], 99, 0)]:
            with self.subTest(files=files, error=error):
                history = merge([(f"file {number}", data) for number, data in enumerate(files)], error)
                self.assertEqual(run_search(history, (), find_program(SEARCH) or "").status, status)


class Command(unittest.TestCase):
    def setUp(self) -> None:
        directory = tempfile.TemporaryDirectory()
        self.addCleanup(directory.cleanup)
        self.folder = pathlib.Path(directory.name)

    def ran(self, *words: str, **files: bytes) -> Ran:
        """Runs the command on files, which come before the other words."""
        for name, data in files.items():
            (self.folder / name).write_bytes(data)
        ran = run_command(command, *(str(self.folder / name) for name in files), *words)
        return ran._replace(words=ran.words.replace(f"{self.folder}/", ""))

    def test_what_is_said(self) -> None:
        reader = text(timed(50, read(1)), timed(60, gave(1, None)), timed(70, read(8)), timed(80, gave(8, 5)))
        self.assertEqual(self.ran(a=WRITER, b=reader).words, textwrap.dedent("""\
            regkit merge: a: 2 events; its process is 1
            regkit merge: b: 4 events; its 2 processes are 2 to 3
            regkit merge: took the clocks for one: if they aren't, --clock-error says how much they differ
            """))
        self.assertEqual(self.ran("--clock-error", "5us", a=WRITER, b=b"").words, textwrap.dedent("""\
            regkit merge: a: 2 events; its process is 1
            regkit merge: b: 0 events
            """))

    def test_orders_that_contradict_each_other(self) -> None:
        one = text(timed(10, read(1)), timed(20, gave(1, None)), timed(30, read(1)), timed(40, gave(1, None)))
        words = self.ran("--clock-error", "1us", a=one, b=one).words
        self.assertIn("contradict each other within the clock error at 1 call: there operations", words)
        self.assertIn("gave 1 operation another process, since a call of the same process was still", words)

    def test_histories_for_regsearch(self) -> None:
        """A value that two recorders wrote may be a mistake, and is named."""
        advice = "so it is one for regsearch; regkit check chooses the program by itself\n"
        again = text(timed(50, write(1, 5)), timed(60, reply(1)), timed(70, write(1, 5)))
        table: List[Tuple[Dict[str, bytes], str]] = [
            ({"a": WRITER, "b": LATER}, ""),
            ({"a": WRITER, "b": text(timed(0, write(1, 5, "y")))}, ""),
            ({"a": WRITER, "b": again},
             'b: line 1 writes 5 to register "x", as line 1 of a does: if each recorder was meant to write '
             'values of its own, let it, as in Recorder("history.jsonl", values_after=number * 1_000_000)\n'
             f"regkit merge: the history has repeated values, {advice}"),
            ({"a": again}, f"the history has repeated values, {advice}"),
            ({"a": text(timed(1, cas(1, None, 5)))}, f"the history has cas, {advice}"),
            ({"a": again, "b": text(timed(51, cas(1, None, 5)))}, "b: 1 event; its process is 2\n")]
        for files, words in table:
            with self.subTest(files):
                ran = self.ran("--clock-error", "1us", **files)
                self.assertEqual(ran.status, 0)
                self.assertIn(f"regkit merge: {words}" if words else "", ran.words)
                self.assertEqual("regsearch" in ran.words, words != "")

    def test_files_that_are_far_apart(self) -> None:
        later = text(timed(10**9, read(1)), timed(10**9 + 5, gave(1, 5)))
        words = "no other history has times near those of a, b: were all recorded at once, with clocks"
        self.assertIn(words, self.ran(a=WRITER, b=later).words)
        self.assertNotIn(words, self.ran("--clock-error", "1s", a=WRITER, b=later).words)

    def test_statuses_and_where_the_history_goes(self) -> None:
        out = self.folder / "out.jsonl"
        merged = merge([("a", WRITER)])
        self.assertEqual(self.ran(a=WRITER)[:2], (0, merged))
        self.assertEqual(self.ran("-o", str(out), a=WRITER)[:2], (0, b""))
        self.assertEqual(out.read_bytes(), merged)
        out.unlink()
        ran = self.ran("-o", str(out), a=WRITER, b=b"nope\n")
        self.assertEqual(ran, (2, b"", "regkit merge: b: line 1: not JSON: `regkit check` says what to do "
                                       "about it\n"))
        self.assertFalse(out.exists())
        self.assertEqual(self.ran("-", "-").status, 3)

    def test_durations(self) -> None:
        for word, expected in [("0", 0), ("5ms", 5_000_000), ("1.5s", 1_500_000_000), ("250us", 250_000),
                               ("3ns", 3), ("0.0001us", 1), ("0.1ns", 1)]:
            self.assertEqual(duration(word), expected, word)
        for word in ["5", "-5ms", "ms", "5m", "1e3s", "5 ms", "", "\u0665ms", ".5s"]:
            with self.subTest(word), self.assertRaises(argparse.ArgumentTypeError):
                duration(word)


PROGRAM = """
import fcntl, json, sys, time
from regkit.record import Recorder

number, folder = int(sys.argv[1]), sys.argv[2]
with Recorder(f"{folder}/{number}.jsonl", clock=time.monotonic_ns, values_after=number * 1000) as recorder:
    client = recorder.client(f"worker-{number}")
    for turn in range(40):
        op = client.write if turn % 2 else client.read
        with op("x") as call, open(f"{folder}/store", "r+") as store:
            fcntl.flock(store, fcntl.LOCK_EX)
            if turn % 2:
                held = call.value
                store.write(f"{held:9}")
            else:
                call.value = store.read().strip() or None
"""


class Processes(unittest.TestCase):
    def test_recorders_in_processes_of_their_own(self) -> None:
        """The store is a file behind a lock."""
        with tempfile.TemporaryDirectory() as folder:
            (pathlib.Path(folder) / "store").touch()
            children = [subprocess.Popen([sys.executable, "-c", PROGRAM, str(number), folder], cwd=PYTHON)
                        for number in range(3)]
            self.assertEqual([child.wait() for child in children], [0, 0, 0])
            files = [(path.name, path.read_bytes()) for path in pathlib.Path(folder).glob("*.jsonl")]
        history = merge(files)
        self.assertEqual(history.count(b"\n"), 240)
        self.assertEqual(run_checker(history).status, 0)


if __name__ == "__main__":
    unittest.main()
