"""The rule of `regkit convert`, by brute force, and histories of the generator there and back.

The rule: a conversion never adds a precedence that the source doesn't have, and drops one only at a tie of
time stamps or by --clock-error.
"""
import json
import random
import unittest
from typing import Any, Dict, FrozenSet, List, NamedTuple, Optional, Tuple

from regkit.checker.programs import run_checker
from tests.convert_support import HISTORIES, Ran, generated, run

KINDS = [
    "sequential",
    "atomic",
    "inversion",
    "stale",
    "lost",
    "pending",
    "failing",
    "crashing",
    "registers",
    "processes",
    "hot",
    "hot-reverse",
    "writes",
    "zones",
]
FORMS = ["jepsen", "porcupine", "csv", "operations"]
CRASH_FORMS = ["jepsen"]  # the forms that tell of crashes

Precedence = FrozenSet[
    Tuple[int, int]
]  # of two operations, by their lines in the source, the first precedes the second


class Call(NamedTuple):
    """An operation of a random source, by the line of its call."""

    line: int
    start: int
    end: Optional[int]  # None if its outcome is unknown
    outcome: str


def source_precedence(calls: List[Call], error: int = 0) -> Precedence:
    """By the definition: one ended before the other was called, whatever the clocks' errors were."""
    return frozenset(
        (before.line, after.line)
        for before in calls
        for after in calls
        if before.outcome == "ok" and before.end is not None and before.end + error < after.start - error
    )


def history_precedence(ran: Ran) -> Precedence:
    """Of a history: the reply of one is before the call of the other. The map leads to the source's lines."""
    assert ran.map is not None
    calls: Dict[int, Tuple[int, int]] = {}  # by source line, the history's lines of call and reply
    open_calls: Dict[int, int] = {}
    for number, (event, line) in enumerate(zip(ran.events, ran.map["lines"])):
        if event["event"] == "call":
            assert event["process"] not in open_calls, "a process with two open calls"
            open_calls[event["process"]] = line
            calls[line] = (number, 10**9)
        elif event["event"] in ("reply", "fail"):
            called = open_calls.pop(event["process"])
            if event["event"] == "reply":
                calls[called] = (calls[called][0], number)
    return frozenset(
        (before, after) for before in calls for after in calls if calls[before][1] < calls[after][0]
    )


class Timed(unittest.TestCase):
    """Sources with times, few of them, so that most are alike."""

    def source(self, chance: random.Random, times: int) -> Tuple[List[Call], List[Dict[str, Any]]]:
        calls: List[Call] = []
        rows: List[Dict[str, Any]] = []
        for place in range(chance.randrange(1, 9)):
            start = chance.randrange(times)
            outcome = chance.choice(["ok", "ok", "ok", "fail", "unknown"])
            end = chance.choice([start, chance.randrange(start, times)])
            if outcome == "unknown" and chance.random() < 0.5:
                end = None  # type: ignore[assignment]
            rows.append(
                {
                    "process": chance.choice([0, 1, 1, "a"]),
                    "start": start,
                    "end": end,
                    "register": chance.choice("xy"),
                    "op": chance.choice(["read", "write"]),
                    "value": place,
                    "outcome": outcome,
                }
            )
            calls.append(Call(place, start, end, outcome))
        return calls, rows

    def forms(self, rows: List[Dict[str, Any]]) -> Dict[str, Tuple[str, int]]:
        """The source in each form with times, and the line of its first operation."""
        table = [",".join("" if member is None else str(member) for member in row.values()) for row in rows]
        go = [
            {
                "ClientId": row["process"],
                "Input": {
                    "Op": {"read": "get", "write": "put"}[row["op"]],
                    "Key": row["register"],
                    "Value": row["value"] if row["op"] == "write" else "",
                },
                "Call": row["start"],
                "Output": row["value"],
                "Return": row["end"],
            }
            for row in rows
            if row["outcome"] == "ok"
        ]
        forms = {
            "csv": ("\n".join([",".join(rows[0]), *table]), 2),
            "operations": ("\n".join(map(json.dumps, rows)), 1),
        }
        if len(go) == len(rows):
            forms["porcupine"] = ("\n".join(map(json.dumps, go)), 1)
        return forms

    def test_precedence_is_the_source_s(self) -> None:
        chance = random.Random(7)
        seen = dict.fromkeys(["csv", "operations", "porcupine"], 0)
        for _ in range(250):
            calls, rows = self.source(chance, chance.choice([3, 6, 40]))
            error = chance.choice([0, 0, 1, 3])
            for form, (text, first) in self.forms(rows).items():
                ran = run(text, form, "--map", "--clock-error", str(error), "--initial", "null")
                self.assertEqual(ran.status, 0, ran.told)
                moved = [call._replace(line=call.line + first) for call in calls]
                self.assertEqual(
                    history_precedence(ran), source_precedence(moved, error), (form, error, text, ran.history)
                )
                seen[form] += 1
        self.assertGreater(min(seen.values()), 25)

    def test_histories_are_well_formed(self) -> None:
        chance = random.Random(8)
        for _ in range(60):
            _, rows = self.source(chance, 6)
            text, _ = self.forms(rows)["csv"]
            history = run(text, "csv", "--initial", "null").history
            self.assertIn(run_checker(history.encode()).status, (0, 1), history)


class Logged(unittest.TestCase):
    """Sources that are logs: the order of their lines is the order of time."""

    def source(self, chance: random.Random) -> Tuple[List[Call], str]:
        """A log of Jepsen's with a nemesis, and with clients that crash and go on under the same number."""
        lines: List[str] = []
        calls: List[Call] = []
        open_calls: Dict[int, Call] = {}
        for place in range(1, chance.randrange(4, 24)):
            client = chance.randrange(4)
            if client == 3:
                lines.append("{:process :nemesis, :type :info, :f :start, :value nil}")
            elif client in open_calls:
                called = open_calls.pop(client)
                kind = chance.choice(["ok", "ok", "fail", "info"])
                calls.append(called._replace(end=place if kind == "ok" else None, outcome=kind))
                lines.append(f"{{:process {client}, :type :{kind}, :f :write, :value [:k {called.line}]}}")
            else:
                open_calls[client] = Call(place, place, None, "unknown")
                lines.append(f"{{:process {client}, :type :invoke, :f :write, :value [:k {place}]}}")
        return calls + list(open_calls.values()), "\n".join(lines)

    def test_precedence_is_the_source_s(self) -> None:
        chance = random.Random(9)
        for _ in range(250):
            calls, text = self.source(chance)
            if calls:
                ran = run(text, "jepsen", "--map")
                self.assertEqual(history_precedence(ran), source_precedence(calls), (text, ran.history))


def forms_of(kind: str) -> List[str]:
    """The forms in which a history of the kind loses nothing."""
    return CRASH_FORMS if kind == "crashing" else FORMS


def there_and_back(history: str, form: str) -> str:
    there = run(history, "jsonl", "--to", form)
    assert there.status == 0, there.told
    back = run(there.history, form)
    assert back.status == 0, back.told
    return back.history


class RoundTrips(unittest.TestCase):
    @unittest.skipUnless(HISTORIES.exists(), "bin/history_generator isn't built")
    def test_generated_histories(self) -> None:
        for kind in KINDS:
            history = generated(kind, 600, 3)
            for form in forms_of(kind):
                with self.subTest(kind, form=form):
                    self.assertEqual(there_and_back(history, form), history)

    def test_failures_crashes_and_strange_names(self) -> None:
        history = "".join(
            json.dumps(event, separators=(",", ":"), ensure_ascii=False) + "\n"
            for event in [
                {"process": 7, "event": "call", "op": "write", "register": 'a "b",\n;[{\\', "value": -5},
                {"process": 2, "event": "call", "op": "read", "register": "nil"},
                {"process": 7, "event": "fail"},
                {"process": 2, "event": "reply", "value": None},
                {"process": 2, "event": "call", "op": "read", "register": ":k \U0001f600"},
                {"process": 2, "event": "crash"},
                {"process": 3, "event": "crash"},
                {
                    "process": 4294967295,
                    "event": "call",
                    "op": "write",
                    "register": "5",
                    "value": 2**63 - 1,
                },
            ]
        )
        self.assertEqual(run(history, "jsonl").history, history)
        self.assertEqual(there_and_back(history, "jepsen"), history)
        no_crash = "".join(line for line in history.splitlines(keepends=True) if "crash" not in line)
        for form in FORMS:
            with self.subTest(form):
                self.assertEqual(there_and_back(no_crash, form), no_crash)

    def test_texts_keep_their_values(self) -> None:
        """Random values, some of which look like each other: equal numbers exactly for equal values."""
        chance = random.Random(5)
        for _ in range(100):
            pool: List[Any] = ["a", "b", "5", "1", 1, 2, 5, 7, "", None, True, 1.5, "true", [1]]
            values = [chance.choice(pool) for _ in range(8)]
            rows = [
                {"process": 0, "op": "read", "register": "x", "value": value, "start": place, "end": place}
                for place, value in enumerate(values)
            ]
            exactly = ("--values", "exact", "--initial", "null")
            ran = run("\n".join(map(json.dumps, rows)), "operations", "--map", *exactly)
            numbers = [event["value"] for event in ran.events if event["event"] == "reply"]
            for one, its in zip(values, numbers):
                if type(one) is int or one is None:
                    self.assertEqual(its, one)
                for other, others in zip(values, numbers):
                    self.assertEqual(its == others, json.dumps(one) == json.dumps(other), (values, numbers))
            assert ran.map is not None
            shown = ran.map["values"].get("x", {})
            kept = {str(value) for value in values if type(value) is int}
            self.assertEqual(len(set(shown.values()) | kept), len(shown) + len(kept))


if __name__ == "__main__":
    unittest.main()
