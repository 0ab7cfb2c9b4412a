"""What each operation asks of the value that it meets and what it leaves, in every place that says so."""
import json
import os
import random
import unittest
from typing import Any, Dict, List, Optional, Tuple

from regkit.drawing.bars import label_of
from regkit.evidence.evidence import count_evidence
from regkit.explain import shrinking
from regkit.explain.sentences import named
from regkit.explain.shrinking import Kept
from regkit.explain.shrinking import history_of as history_of_kept
from regkit.explain.timeline import labels
from regkit.history.operations import Operation, read_history
from regkit.verify import searches
from regkit.verify.operations import FOREVER, Refused
from regkit.verify.operations import read_history as verified
from tests import acts
from tests.events import Line, text

MANY = int(os.environ.get("REGKIT_ACTS", "1500"))
VALUES: Tuple[Optional[int], ...] = (None, 1, 2, 3)


def call(op: str, **members: Any) -> Line:
    named_as = {"from_": "from"}
    return {"process": 1, "event": "call", "op": op, "register": "x",
            **{named_as.get(name, name): value for name, value in members.items()}}


def ends(**members: Any) -> Line:
    return {"process": 1, "event": "reply", **members}


CREATE, REPLACE = call("cas", from_=None, to=5), call("cas", unless=None, to=5)
ASKS = call("cas", from_=1, to=None, old=True)
# A call and its reply; what is said of it, and its label on a page and in the time line of a text.
TOLD: List[Tuple[Line, Optional[Line], str, str, str]] = [
    (call("read"), ends(value=3), "read of 3 by", "r 3", "read 3"),
    (call("read"), ends(value=None, found=True), "read of null by", "r null", "read null"),
    (call("read"), ends(found=True), "read that found a value, by", "r \u2260null", "read, found a value"),
    (call("read"), ends(found=False), "read that found nothing, by", "r null", "read, found nothing"),
    (call("delete"), ends(), "delete by", "d", "delete"),
    (call("delete"), None, "delete by", "d", "delete"),
    (call("delete"), ends(found=True), "delete that found a value, by", "d found \u2260null",
     "delete, found a value"),
    (call("delete"), ends(found=False), "delete that found nothing, by", "d found null",
     "delete, found nothing"),
    (call("delete"), ends(old=3, found=True), "delete that found 3, by", "d found 3", "delete, found 3"),
    (call("swap", value=7), ends(old=None), "swap to 7 that found null, by", "s 7 found null",
     "swap to 7, found null"),
    (call("swap", value=7), ends(found=True), "swap to 7 that found a value, by", "s 7 found \u2260null",
     "swap to 7, found a value"),
    (CREATE, ends(ok=True), "cas from null to 5 that took place, by", "c null\u21925",
     "cas from null to 5, true"),
    (CREATE, ends(ok=False, old=1), "cas from null to 5 that missed, by", "c null\u21925 missed",
     "cas from null to 5, false"),
    (REPLACE, ends(ok=False), "cas to 5 unless null that missed, by", "c \u2260null\u21925 missed",
     "cas to 5 unless null, false"),
    (ASKS, ends(ok=True, old=1), "cas from 1 to null that found 1 and took place, by",
     "c 1\u2192null found 1", "cas from 1 to null, found 1, true"),
    (ASKS, ends(ok=False, old=None), "cas from 1 to null that found null and missed, by",
     "c 1\u2192null found null missed", "cas from 1 to null, found null, false"),
]
# Events of which the last is refused, with the number of the reason; 0 if it isn't.
ENDS: List[Tuple[Line, Line, int]] = [
    (call("delete", value=3), ends(), -8), (call("delete", value=None), ends(), 0),
    (call("swap"), ends(), -8), (call("swap", value=None), ends(), -8), (call("add", value=1), ends(), -6),
    (call("cas", to=1), ends(), -20), (call("cas", from_=1, unless=1, to=1), ends(), -20),
    (call("cas", unless="1", to=1), ends(), -20), (call("cas", unless=1), ends(), -20),
    (call("cas", unless=1, to=None), ends(ok=True), 0), (call("cas", from_=1, to=1), ends(), 21),
    (ASKS, ends(ok=True), 0), (ASKS, ends(ok=True, old=2), 22), (ASKS, ends(ok=False, old=1), 22),
    (ASKS, ends(ok=False, old="2"), 22), (ASKS, ends(ok=False, old=2, found=7), 0), (ASKS, ends(old=2), 21),
    (call("cas", from_=1, to=2, old=1), ends(ok=True, old="x"), 0),
    (call("cas", unless=1, to=2, old=True), ends(ok=True, old=1), 22),
    (call("cas", unless=1, to=2, old=True), ends(ok=False, old=1), 0),
    (call("read"), ends(), 12), (call("read"), ends(found=True), 0), (call("read"), ends(found=None), 22),
    (call("read"), ends(found=1), 22), (call("read"), ends(old=1), 12),
    (call("read"), ends(value=1, found=7, old="x"), 0), (call("write", value=1), ends(found=7, old="x"), 0),
    (call("delete"), ends(found=1), 22), (call("delete"), ends(old="1"), 22),
    (call("delete"), ends(value=1), 11),
    (call("delete"), ends(found=True, old=None), 22), (call("delete"), ends(found=False, old=1), 22),
    (call("delete"), ends(found=False, old=None, ok=7), 0), (call("delete"), ends(op="write", found=7), 11),
    (call("swap", value=7), ends(), 22), (call("swap", value=7), ends(value=8, found=7), 11),
    (call("swap", value=7), ends(value=7, old=7), 0), (call("swap", value=7), ends(found=False), 0),
    (call("swap", value=7), {"process": 1, "event": "fail", "value": 7, "old": "x"}, 0),
    (call("swap", value=7), {"process": 1, "event": "fail", "value": 8}, 11),
]


def random_lines(chance: random.Random) -> List[Line]:
    """A history of one register with all words. Its answers are made up."""
    lines: List[Line] = []
    opened: Dict[int, Line] = {}
    for _ in range(chance.randrange(4, 15)):
        process = chance.randrange(3)
        if process in opened:
            lines.append(random_end(chance, process, opened.pop(process)))
            continue
        value = chance.choice(VALUES)
        opened[process] = {**chance.choice([
            call("read"), call("read"), call("write", value=chance.choice([1, 2])), call("delete"),
            call("swap", value=chance.choice([1, 2])),
            {**call("cas", to=chance.choice([None, 1, 2])), chance.choice(["from", "unless"]): value,
             **({"old": True} if chance.random() < 0.4 else {})}]), "process": process}
        lines.append(opened[process])
    return lines


def random_end(chance: random.Random, process: int, called: Line) -> Line:
    op, told = called["op"], chance.random()
    if told < 0.1:
        return {"process": process, "event": "fail"}
    found, old = chance.random() < 0.5, chance.choice(VALUES)
    said: Line = {}
    if op == "read":
        said = {"value": old} if told < 0.6 else {"found": found}
    elif op == "cas":
        took = chance.random() < 0.5
        if called.get("old") and told < 0.7:
            took = (old == called.get("from", called.get("unless"))) == ("from" in called)
            said = {"old": old}
        said["ok"] = took
    elif op != "write":
        said = {"old": old} if told < 0.5 else {"found": found} if told < 0.8 or op == "swap" else {}
    return {"process": process, "event": "reply", **said}


class Acts(unittest.TestCase):
    def setUp(self) -> None:
        chance = random.Random(5)
        made = [text(*random_lines(chance)) for _ in range(MANY)]
        self.histories = [data for data in made if acts.registers_of(data.decode())]

    def test_what_is_asked_and_left(self) -> None:
        for data in self.histories:
            by_line = {each.line: each for each in acts.registers_of(data.decode())["x"]}
            calls = {each.line: each for each in read_history(data).calls if not each.failed}
            own = {each.line: each for each in verified(data, True, True).registers["x"]}
            self.assertEqual(sorted(by_line), sorted(calls))
            for line, act in by_line.items():
                for value in VALUES:
                    left = act.left if act.sets else value
                    with self.subTest(data=data, line=line, value=value):
                        self.assertEqual(calls[line].suits(value), act.suits(value))
                        self.assertEqual(searches.suits(own[line], value), act.suits(value))
                        if act.suits(value):
                            self.assertEqual(calls[line].value if calls[line].writes else value, left)
                            self.assertEqual(searches.left_by(own[line], value), left)

    def test_the_search_of_verify(self) -> None:
        found = {True: 0, False: 0}
        for data in self.histories:
            is_right = acts.is_atomic(data.decode())
            found[is_right] += 1
            operations = verified(data, True, True).registers["x"]
            end = 1 + max([a.line for a in operations] + [int(a.end) for a in operations if a.end < FOREVER])
            self.assertEqual(searches.has_order(operations, end), is_right, data)
        self.assertGreater(min(found.values()), MANY // 10)

    def test_what_a_no_is_made_small_with(self) -> None:
        """The events of the operations that are kept, in the words in which they came."""
        for data in self.histories:
            kept = [Kept(each, each.completed) for each in read_history(data).calls if not each.failed]
            made = acts.registers_of(history_of_kept(kept).decode())["x"]
            self.assertEqual(set(made), set(acts.registers_of(data.decode())["x"]), data)


    def test_no_step_makes_a_no(self) -> None:
        """What has an order has one after each step by which a no is made small."""
        chance, steps = random.Random(6), 0
        for data in self.histories:
            calls = read_history(data).calls
            ends = [each.end_line or 0 for each in calls if each.completed]
            if not ends or not acts.is_atomic(data.decode()):
                continue
            kept = shrinking.without_idle(shrinking.until(calls, chance.choice(ends)))
            chosen = [each.call for each in kept if each.replied and chance.random() < 0.5]
            fewer = [kept, shrinking.less(kept, chosen)]
            fewer += [shrinking.since(each, fence) for each in fewer[:2] for fence in shrinking.fences(each)]
            for each in fewer:
                steps += len(each) < len(calls)
                self.assertTrue(acts.is_atomic(history_of_kept(each).decode()), (data, history_of_kept(each)))
        self.assertGreater(steps, MANY // 10)


class Words(unittest.TestCase):
    def test_each_act_in_a_sentence_and_on_a_page(self) -> None:
        for begin, end, sentence, label, line in TOLD:
            operation, = read_history(text(begin, *([end] if end else []))).calls
            with self.subTest(begin=begin, end=end):
                self.assertIn(f"the {sentence} process 1 (line", named(operation))
                self.assertEqual(label_of(operation), label)
                self.assertEqual(labels(operation)[2], line)

    def test_what_tells_of_a_value_is_evidence(self) -> None:
        for begin, end, told in [
                (call("delete"), ends(), 0), (call("delete"), ends(found=True), 1),
                (call("delete"), ends(old=1), 1), (call("swap", value=1), ends(found=False), 1),
                (call("read"), ends(found=False), 1), (REPLACE, ends(ok=False), 1), (REPLACE, None, 0)]:
            history = read_history(text(begin, *([end] if end else [])))
            self.assertEqual(count_evidence(history).completed_reads, told, (begin, end))


class Refusals(unittest.TestCase):
    def test_what_is_refused(self) -> None:
        for begin, end, number in ENDS:
            with self.subTest(begin=begin, end=end):
                try:
                    verified(text(begin, end), True, search=True)
                    self.assertEqual(number, 0)
                except Refused as refused:
                    line = 1 if number < 0 else 2
                    words = {6: "op is neither read, write, delete, swap nor cas",
                             8: "value does not fit the event", 11: "reply disagrees with its call",
                             12: "a read's reply has no value",
                             20: "from, unless or to does not fit the event",
                             21: "a cas's reply has no ok, true or false",
                             22: "old or found does not fit the event"}[abs(number)]
                    self.assertEqual(refused.text, f"line {line}: {words}")


if __name__ == "__main__":
    unittest.main()
