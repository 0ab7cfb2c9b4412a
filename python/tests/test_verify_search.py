"""`regkit verify` of reports of `regsearch`: each claim that is changed is found out."""
import json
import pathlib
import random
import tempfile
import unittest
from itertools import permutations
from typing import Any, Dict, List, Optional
from unittest import mock

from regkit import verify
from regkit.checker.programs import SEARCH, decide, find_program, run_checker
from regkit.verify import searches
from regkit.verify.operations import Operation, read_history

from .events import Line, cas, crash, fail, gave, read, reply, run, text, took, write
from .test_search import FINE, NULL_TWICE, STALE, TWO_WINNERS

Row = Dict[str, Any]


def report(*rows: Row) -> bytes:
    return "".join(json.dumps(row) + "\n" for row in rows).encode()


def answered(events: List[Line], *options: str) -> List[Row]:
    """The lines of regsearch's own report."""
    answer = run_checker(text(*events), options, find_program(SEARCH))
    return [json.loads(line) for line in answer.report.splitlines()]


def random_events(seed: int) -> List[Line]:
    """A history of one register, in which most answers are made up."""
    chance = random.Random(seed)
    lines: List[Line] = []
    opened: Dict[int, Line] = {}
    for _ in range(chance.randrange(4, 15)):
        process = chance.randrange(3)
        if process in opened:
            op = opened.pop(process)["op"]
            ends = [reply(process)] if op == "write" else [gave(process, chance.choice([None, 1, 2]))]
            ends = [took(process, chance.random() < 0.5)] if op == "cas" else ends
            lines.append(fail(process) if chance.random() < 0.1 else ends[0])
            continue
        call = chance.choice([write(process, chance.choice([1, 2])), read(process),
                              cas(process, chance.choice([None, 1, 2]), chance.choice([1, 2]))])
        opened[process] = call
        lines.append(call)
    return lines


def is_legal(order: List[Operation]) -> bool:
    """By the definition: no operation stands behind one that it precedes, and each fits the value."""
    value: Optional[int] = None
    for place, a in enumerate(order):
        if any(a.end < b.line for b in order[:place]):
            return False
        if a.is_cas and (value == a.asked) == (a.took is False):
            return False
        if not a.is_cas and not a.is_write and a.completed and value != a.value:
            return False
        if a.is_write or (a.is_cas and a.took is not False):
            value = a.value
    return True


def some_order(operations: List[Operation]) -> bool:
    """Whether some order of the completed and of any of the pending operations is legal."""
    pending = [a for a in operations if not a.completed]
    for chosen in range(2 ** len(pending)):
        there = [a for a in operations if a.completed or chosen >> pending.index(a) & 1]
        if any(is_legal(list(order)) for order in permutations(there)):
            return True
    return False


class Honest(unittest.TestCase):
    def test_random_histories(self) -> None:
        """Its own reports hold, and a verdict that is turned doesn't."""
        for seed in range(150):
            events = random_events(seed)
            rows = answered(events)
            with self.subTest(seed):
                self.assertEqual(verify.verify(text(*events), report(*rows)).atomic,
                                 rows[-1]["atomic"] == "yes")
                row, replies = rows[0], [n for n, event in enumerate(events, 1) if event["event"] == "reply"]
                if row["atomic"] == "no" or not replies:
                    continue
                lie = {key: row[key] for key in row if key not in ("order", "points")}
                lie.update(atomic="no", fault={"kind": "search", "reply": replies[-1]})
                with self.assertRaises(verify.Wrong):
                    verify.verify(text(*events), report(lie, {**rows[-1], "atomic": "no"}))

    def test_the_search_is_that_of_all_orders(self) -> None:
        seen = set()
        for seed in range(400):
            history = read_history(text(*random_events(seed)), True, search=True)
            for operations in history.registers.values():
                if len(operations) <= 6:
                    found = searches.has_order(operations, 1000)
                    seen.add(found)
                    self.assertEqual(found, some_order(operations), seed)
        self.assertEqual(seen, {True, False})

    def test_what_it_says(self) -> None:
        table = [(FINE, (), 0, "holds: linearizable: 4 operations on 1 register\n"),
                 (TWO_WINNERS, (), 0,
                  "holds: not linearizable: 3 operations on 1 register, 1 of which is not linearizable; "
                  "1 no searched again, in all orders; the open calls of 1 no are those listed\n"),
                 ([cas(1, 7, 5), took(1, True)], (), 0,
                  "holds: not linearizable: 1 operation on 1 register, 1 of which is not linearizable; "
                  "1 no by a value that nobody wrote\n"),
                 (NULL_TWICE, ("--steps", "1"), 0,
                  "holds: unknown: 3 operations on 1 register, 1 of which the search gave up\n")]
        with tempfile.TemporaryDirectory() as folder:
            history, written = pathlib.Path(folder) / "h", pathlib.Path(folder) / "r"
            for events, options, status, words in table:
                history.write_bytes(text(*events))
                written.write_bytes(report(*answered(events, *options)))
                self.assertEqual(run("verify", str(history), str(written)), (status, words, ""))

    def test_a_no_that_takes_too_long(self) -> None:
        """It is never said to hold."""
        with tempfile.TemporaryDirectory() as folder, mock.patch.object(searches, "MOST_STEPS", 2):
            history, written = pathlib.Path(folder) / "h", pathlib.Path(folder) / "r"
            history.write_bytes(text(*TWO_WINNERS))
            written.write_bytes(report(*answered(TWO_WINNERS)))
            ran = run("verify", str(history), str(written))
            self.assertEqual(ran.status, 6)
            self.assertTrue(ran.out.startswith("not all checked: not linearizable: "), ran.out)
            self.assertIn("1 no not searched again, which would take too long", ran.out)
            said = json.loads(run("check", "--verify", "--json", str(history)).out)
            self.assertEqual((said["status"], said["verified"]), (1, False))
            self.assertIn("but for 1 no that would take too long", run("check", "--verify", str(history)).out)
        said = json.loads(run("check", "--verify", "--json", given=text(*TWO_WINNERS)).out)
        self.assertEqual((said["status"], said["verified"]), (1, True))


class Changed(unittest.TestCase):
    def wrong(self, events: List[Line], words: str, *rows: Row) -> None:
        with self.assertRaises(verify.Wrong) as caught:
            verify.verify(text(*events), report(*rows))
        self.assertIn(words, str(caught.exception))

    def test_a_yes(self) -> None:
        row, summary = answered(FINE)
        table: List[Any] = [
            ("an order lacks line 7", {"order": [1, 3, 5], "points": [1, 3, 5]}),
            ("twice", {"order": [1, 3, 5, 5, 7]}), ("which doesn't belong there", {"order": [1, 2, 3, 5, 7]}),
            ("line 3 stands after line 5, which was called after its reply", {"order": [1, 5, 3, 7]}),
            ("the point of line 7 is 7", {"points": [1, 3, 5, 6]}),
            ("not as many places", {"points": [1, 3, 5]}),
            ("`reads` is 1", {"reads": 2}), ("`writes` is 3", {"writes": True}), ("`cas` is 0", {"cas": 1}),
            ("`pending` is 0", {"pending": 1}), ("neither yes, no nor unknown", {"atomic": True}),
            ("its keys are not", {"safe": "yes"}), ("its keys are not", {"atomic": "unknown"}),
            ("not a list of lines", {"order": "x"}), ("not a list of lines", {"points": [True, 3, 5, 7]}),
        ]
        for words, said in table:
            with self.subTest(words):
                self.wrong(FINE, words, {**row, **said}, summary)
        for words, said in [("`atomic` is yes", {"atomic": "unknown"}), ("4 operations", {"operations": 5}),
                            ("1 registers", {"registers": 2}), ("other keys", {"order": [1, 3, 5, 7]})]:
            self.wrong(FINE, words, row, {**summary, **said})
        self.wrong(FINE, "aren't those of the registers", {**row, "register": "y"}, summary)
        self.wrong(FINE, "aren't those of the registers", row, row, summary)

    def test_a_value_that_does_not_fit(self) -> None:
        events = [write(1, 1), cas(2, 2, 3), cas(3, 1, 2), took(2, False), took(3, True), reply(1)]
        row, summary = answered(events)
        for order in ([3, 1, 2], [1, 3, 2]):
            self.wrong(events, "doesn't fit the value", {**row, "order": order, "points": [3] * 3}, summary)

    def test_a_no(self) -> None:
        row, summary = answered(TWO_WINNERS)
        table: List[Any] = [
            ("line 7 is no reply", {"reply": 7}), ("line 4 is no reply", {"reply": 4}),
            ("line True is no reply", {"reply": True}),
            ("what was called before line 5 has a legal order",
             {"reply": 5, "asks": [3, 4], "before": [1, 3]}),
            ("`asks` lacks line 4, a call that is open at line 6", {"asks": []}),
            ("`asks` has line 3, which is no call that is open at line 6", {"asks": [3, 4]}),
            ("`asks` has line 6, which", {"asks": [4, 6]}), ("or has one twice", {"asks": [4, 4]}),
            ("not a list of lines", {"asks": 4}), ("not a list of lines", {"asks": [True]}),
            ("an order lacks line 1", {"before": [3]}), ("doesn't fit the value", {"before": [1, 3, 4]}),
            ("no fault is of that kind", {"kind": "zones"}), ("the keys of the fault", {"read": 3}),
        ]
        for words, said in table:
            with self.subTest(words):
                self.wrong(TWO_WINNERS, words, {**row, "fault": {**row["fault"], **said}}, summary)
        self.wrong(TWO_WINNERS, "no call that found", {**row, "fault": {"call": 3, "kind": "unwritten"}},
                   summary)
        self.wrong(TWO_WINNERS, "not an object", {**row, "fault": 3}, summary)

    def test_open_calls(self) -> None:
        """Pending ones, what is answered later, and the call that the reply answers; none that failed."""
        events = [*STALE[:6], write(3, 7), crash(3), read(4), write(5, 8), read(2, "y"), read(6), fail(5),
                  gave(6, 6), gave(4, 7), write(7, 9)]
        row, *others = answered(events)
        self.assertEqual(row["fault"]["asks"], [7, 9, 12])
        for words, asks in [("lacks line 7", [9, 12]), ("lacks line 9", [7, 12]),
                            ("has line 10", [7, 9, 10, 12]),
                            ("has line 11", [7, 9, 11, 12]), ("has line 5", [5, 7, 9, 12]),
                            ("isn't in the order of the calls", [12, 9, 7])]:
            with self.subTest(words):
                self.wrong(events, words, {**row, "fault": {**row["fault"], "asks": asks}}, *others)

    def test_a_report_without_open_calls(self) -> None:
        """The first ones had none."""
        row, summary = answered(TWO_WINNERS)
        del row["fault"]["asks"]
        self.assertEqual(verify.verify(text(*TWO_WINNERS), report(row, summary)).nos, verify.Nos(searched=1))

    def test_an_unwritten_value(self) -> None:
        events = [cas(1, None, 7), fail(1), cas(2, 5, 6), took(2, False), read(3), gave(3, 6), read(4),
                  gave(4, None)]
        row, summary = answered(events)
        self.assertEqual(row["fault"], {"call": 5, "kind": "unwritten"})
        self.wrong(events, "line 7 is no call that found", {**row, "fault": {"call": 7, "kind": "unwritten"}},
                   summary)
        yes = {**row, "atomic": "yes", "order": [3, 5, 7], "points": [3, 5, 7]}
        del yes["fault"]
        self.wrong(events, "found a value that nobody wrote", yes, {**summary, "atomic": "yes"})
        unknown = {**row, "atomic": "unknown", "gave_up": {"bound": "steps"}}
        del unknown["fault"]
        self.wrong(events, "found a value that nobody wrote", unknown, {**summary, "atomic": "unknown"})

    def test_an_unknown(self) -> None:
        row, summary = answered(NULL_TWICE, "--steps", "1")
        self.wrong(NULL_TWICE, "names no bound", {**row, "gave_up": {"bound": "time"}}, summary)
        self.wrong(NULL_TWICE, "`atomic` is unknown", row, {**summary, "atomic": "yes"})


class Refusals(unittest.TestCase):
    def test_those_of_the_search(self) -> None:
        """regsearch's own refusals hold, and of both programs' words no others."""
        call = cas(1, 1, 2)
        again = [write(1, 5), reply(1), write(1, 5), reply(1)]
        table: List[List[Line]] = [
            [{**call, "to": "a"}], [{**call, "from": "a"}], [{**call, "to": 2.0}], [{**call, "value": 3}],
            [{**call, "register": ""}], [call, reply(1)], [call, {**reply(1), "ok": 1}], [call, gave(1, 3)],
            [call, {**fail(1), "value": 3}], [call, {**took(1, True), "op": "read"}], [call, call],
            [call, crash(1), took(1, True)], [read(1), {**gave(1, None), "op": "cas"}],
            [*again, read(2), {"process": 2, "event": "reply"}], [*again, {**call, "op": "append"}],
            [{key: call[key] for key in call if key != "from"}], [took(1, True)]]
        for events in table:
            with self.subTest(events):
                answer = run_checker(text(*events), (), find_program(SEARCH))
                self.assertEqual(answer.status, 2)
                self.assertTrue(verify.verify_refusal(text(*events), answer.refusal, search=True).by_search)
                verify.verify_refusal(text(*events), answer.refusal)
                with self.assertRaises(verify.Wrong):
                    verify.verify_refusal(text(*events), "line 9: not JSON")
                self.assertEqual(run("check", "--verify", given=text(*events)).status, 2)

    def test_no_refusal(self) -> None:
        for words in ("line 5: reply without an open call",
                      "line 3: from, unless or to does not fit the event", "", " "):
            with self.assertRaises(verify.Wrong):
                verify.verify_refusal(text(*STALE), words)
            with self.assertRaises(verify.Wrong):
                verify.verify_refusal(text(*STALE), words, search=True)

    def test_a_report_of_what_is_refused(self) -> None:
        events = [cas(1, 1, 2), reply(1)]
        row = {"atomic": "yes", "cas": 1, "order": [], "pending": 0, "points": [], "reads": 0,
               "register": "x", "writes": 0}
        with self.assertRaises(verify.Wrong) as caught:
            verify.verify(text(*events), report(row, {"atomic": "yes", "operations": 1, "registers": 1}))
        self.assertIn("has to be refused: line 2: a cas's reply has no ok", str(caught.exception))

    def test_no_report_of_one_program_passes_as_the_others(self) -> None:
        """A report of regcheck is read by the rules of regcheck."""
        answer = decide(text(write(1, 5), reply(1)))
        with self.assertRaises(verify.Wrong):
            verify.verify(text(write(1, 5), reply(1), write(1, 5)), answer.report)


