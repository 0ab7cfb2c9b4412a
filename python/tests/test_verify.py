"""Each claim of a report: it passes if it holds, and is refused if it is changed.

The reports were worked out by hand from docs/definitions.md. The long runs, on random histories and spoiled
reports, are in tests/verify_report at the top of the repository.
"""
import argparse
import contextlib
import io
import itertools
import json
import pathlib
import sys
import unittest
from typing import Any, Dict, List, Tuple
from unittest import mock

from regkit import verify
from regkit.commands import verify as command
from regkit.verify import claims, operations

from .folders import InFolder

TOP = pathlib.Path(__file__).resolve().parents[2]

EVENTS = {"ok": "reply", "fail": "fail", "crash": "crash"}


def line_of(short: str) -> str:
    """An event in short: `1 W x 5` and `2 R x` are calls; `1 ok`, `2 = 5`, `1 fail`, `1 crash` end them.

    What begins with a brace is JSON already.
    """
    if short.startswith("{") or not short:
        return short
    process, what, *rest = short.split()
    event: Dict[str, Any] = {"process": int(process)}
    if what in "WR":
        event.update(event="call", op="write" if what == "W" else "read", register=rest[0])
    else:
        event["event"] = EVENTS.get(what, "reply")
    if what in ("W", "="):
        event["value"] = json.loads(rest[-1])
    return json.dumps(event)


def history(text: str) -> bytes:
    return "".join(line_of(short.strip()) + "\n" for short in text.split(";")).encode()


def calls_of(events: bytes) -> List[int]:
    return [number for number, line in enumerate(events.split(b"\n"), 1) if b"call" in line]


def report(*rows: str) -> bytes:
    return "".join(row + "\n" for row in rows).encode()


X = '"register":"x"'
FINE = '"regular":"yes","safe":"yes"'
SEVERAL = '"regular":"several writers","safe":"several writers"'


# name, history, lines of its report
HOLDING: List[Tuple[str, str, List[str]]] = [
    ("a read of a write", "1 W x 5; 1 ok; 2 R x; 2 = 5",
     [f'{{"atomic":"yes","order":[1,3],"pending":0,"points":[1,3],"reads":1,{X},{FINE},"writes":1}}',
      '{"atomic":"yes","operations":2,"order":[1,3],"registers":1}']),
    ("the read's call comes first", "2 R x; 1 W x 5; 1 ok; 2 = 5",
     [f'{{"atomic":"yes","order":[2,1],"pending":0,"points":[2,2],"reads":1,{X},{FINE},"writes":1}}',
      '{"atomic":"yes","operations":2,"order":[2,1],"registers":1}']),
    ("a pending write that was read", "1 W x 5; 2 R x; 2 = 5",
     [f'{{"atomic":"yes","order":[1,2],"pending":1,"points":[1,2],"reads":1,{X},{FINE},"writes":1}}',
      '{"atomic":"yes","operations":2,"order":[1,2],"registers":1}']),
    ("a pending write that wasn't, and a pending read", "1 W x 5; 2 R x; 2 = null; 3 R x",
     [f'{{"atomic":"yes","order":[2],"pending":2,"points":[2],"reads":2,{X},{FINE},"writes":1}}',
      '{"atomic":"yes","operations":3,"order":[2],"registers":1}']),
    ("a merge by points", "1 R x; 2 R y; 3 W x 1; 4 W y 2; 1 = 1; 2 = 2; 3 ok; 4 ok",
     [f'{{"atomic":"yes","order":[3,1],"pending":0,"points":[3,3],"reads":1,{X},{FINE},"writes":1}}',
      '{"atomic":"yes","order":[4,2],"pending":0,"points":[4,4],"reads":1,"register":"y",'
      f'{FINE},"writes":1}}',
      '{"atomic":"yes","operations":4,"order":[3,1,4,2],"registers":2}']),
    ("a pending read after two writers", "1 W x 5; 1 ok; 2 W x 6; 2 ok; 3 R x",
     [f'{{"atomic":"yes","order":[1,3],"pending":1,"points":[1,3],"reads":1,{X},{SEVERAL},"writes":2}}',
      '{"atomic":"yes","operations":3,"order":[1,3],"registers":1}']),
    ("several writers", "1 W x 1; 2 W x 2; 1 ok; 2 ok; 1 R x; 1 = 1",
     [f'{{"atomic":"yes","order":[2,1,5],"pending":0,"points":[2,2,5],"reads":1,{X},{SEVERAL},"writes":2}}',
      '{"atomic":"yes","operations":3,"order":[2,1,5],"registers":1}']),
    ("three writes that overlap", "1 W x 1; 2 W x 2; 1 ok; 3 W x 3; 2 ok; 3 ok",
     [f'{{"atomic":"yes","order":[1,2,4],"pending":0,"points":[1,2,4],"reads":0,{X},{SEVERAL},"writes":3}}',
      '{"atomic":"yes","operations":3,"order":[1,2,4],"registers":1}']),
    ("an inversion", "1 W x 1; 1 ok; 1 W x 2; 2 R x; 2 = 2; 2 R x; 2 = 1; 1 ok",
     ['{"atomic":"no","fault":{"first":[1,4],"kind":"zones","second":[4,6],"writes":[1,3]},"inversion":[4,6],'
      f'"pending":0,"reads":2,{X},{FINE},"writes":2}}',
      '{"atomic":"no","operations":4,"registers":1}']),
    ("an inversion after a read", "1 W x 1; 1 ok; 2 R x; 2 = 1; 1 W x 2; 2 R x; 2 = 2; 2 R x; 2 = 1; 1 ok",
     ['{"atomic":"no","fault":{"first":[1,6],"kind":"zones","second":[6,8],"writes":[1,5]},"inversion":[6,8],'
      f'"pending":0,"reads":3,{X},{FINE},"writes":2}}',
      '{"atomic":"no","operations":5,"registers":1}']),
    ("an unwritten value while a write is open", "1 W x 5; 2 R x; 2 = 9; 1 ok",
     [f'{{"atomic":"no","fault":{{"kind":"unwritten","read":2}},"pending":0,"reads":1,{X},'
      '"regular":"no","regular_read":2,"safe":"yes","writes":1}',
      '{"atomic":"no","operations":2,"registers":1}']),
    ("an early read", "2 R x; 2 = 5; 1 W x 5; 1 ok",
     [f'{{"atomic":"no","fault":{{"kind":"early","read":1,"write":3}},"pending":0,"reads":1,{X},'
      '"regular":"no","regular_read":1,"safe":"no","safe_read":1,"writes":1}',
      '{"atomic":"no","operations":2,"registers":1}']),
    ("null after a write", "1 W x 5; 1 ok; 2 R x; 2 = null",
     ['{"atomic":"no","fault":{"first":[0,1],"kind":"zones","second":[1,3],"writes":[0,1]},"pending":0,'
      f'"reads":1,{X},"regular":"no","regular_read":3,"safe":"no","safe_read":3,"writes":1}}',
      '{"atomic":"no","operations":2,"registers":1}']),
    ("first a regular read is broken, then a safe one",
     "1 W x 1; 1 ok; 1 W x 2; 2 R x; 1 ok; 2 = null; 2 R x; 2 = 1; 1 W x 3; 2 R x; 1 ok; 2 = 2",
     ['{"atomic":"no","fault":{"first":[0,1],"kind":"zones","second":[1,4],"writes":[0,1]},"pending":0,'
      f'"reads":3,{X},"regular":"no","regular_read":4,"safe":"no","safe_read":7,"writes":3}}',
      '{"atomic":"no","operations":6,"registers":1}']),
    ("two reads that are not safe", "1 W x 1; 1 ok; 2 R x; 2 = 8; 2 R x; 2 = 9",
     [f'{{"atomic":"no","fault":{{"kind":"unwritten","read":3}},"pending":0,"reads":2,{X},'
      '"regular":"no","regular_read":3,"safe":"no","safe_read":3,"writes":1}',
      '{"atomic":"no","operations":3,"registers":1}']),
    ("a write that failed", "1 W x 5; 1 fail; 2 R x; 2 = null",
     [f'{{"atomic":"yes","order":[3],"pending":0,"points":[3],"reads":1,{X},{FINE},"writes":0}}',
      '{"atomic":"yes","operations":1,"order":[3],"registers":1}']),
    ("a read of a write that failed", "1 W x 5; 1 fail; 2 R x; 2 = 5",
     [f'{{"atomic":"no","fault":{{"kind":"unwritten","read":3}},"pending":0,"reads":1,{X},'
      '"regular":"no","regular_read":3,"safe":"no","safe_read":3,"writes":0}',
      '{"atomic":"no","operations":1,"registers":1}']),
    ("a crash leaves its call pending", "1 W x 5; 1 crash; 2 R x; 2 = 5",
     [f'{{"atomic":"yes","order":[1,3],"pending":1,"points":[1,3],"reads":1,{X},{FINE},"writes":1}}',
      '{"atomic":"yes","operations":2,"order":[1,3],"registers":1}']),
    ("a register whose only call failed", "1 R y; 1 fail; 1 W x 5; 1 ok",
     [f'{{"atomic":"yes","order":[],"pending":0,"points":[],"reads":0,"register":"y",{FINE},"writes":0}}',
      f'{{"atomic":"yes","order":[3],"pending":0,"points":[3],"reads":0,{X},{FINE},"writes":1}}',
      '{"atomic":"yes","operations":1,"order":[3],"registers":2}']),
    ("a failed write of another process leaves a single writer", "1 W x 1; 1 ok; 2 W x 2; 2 fail",
     [f'{{"atomic":"yes","order":[1],"pending":0,"points":[1],"reads":0,{X},{FINE},"writes":1}}',
      '{"atomic":"yes","operations":1,"order":[1],"registers":1}']),
    ("nothing", "", ['{"atomic":"yes","operations":0,"order":[],"registers":0}']),
]

CASES = {name: (history(text), rows) for name, text, rows in HOLDING}

# name of a holding case, what to replace in its report by what, and a part of what verify then says
FAILING: List[Tuple[str, str, str, str]] = [
    # the order, in the line and in the summary
    ("a read of a write", "[1,3]", "[3,1]", "doesn't give the value of the last write"),
    ("a read of a write", '"order":[1,3],"pending"', '"order":[1],"pending"', "`order` lacks line 3"),
    ("a read of a write", '"order":[1,3],"pending"', '"order":[1,3,3],"pending"',
     "`order` has an operation twice"),
    ("a read of a write", '"order":[1,3],"pending"', '"order":[0,1,3],"pending"',
     "has line 0, which doesn't belong"),
    ("a read of a write", '"order":[1,3],"pending"', '"order":[1,3,4],"pending"',
     "has line 4, which doesn't belong"),
    ("a read of a write", '"order":[1,3],"pending"', '"order":[true,3],"pending"',
     "`order` is not a list of lines"),
    ("a pending write that was read", "[1,2]", "[2]", "`order` lacks line 1"),
    ("a pending write that wasn't, and a pending read", "[2]", "[2,1]", "has line 1, which doesn't belong"),
    ("a pending write that wasn't, and a pending read", "[2]", "[2,4]", "has line 4, which doesn't belong"),
    ("a write that failed", "[3]", "[1,3]", "has line 1, which doesn't belong"),
    ("several writers", "[2,1,5]", "[1,2,5]", "the read of line 5 doesn't give"),
    ("several writers", "[2,1,5]", "[1,5,2]", "line 2 stands after line 5"),
    ("three writes that overlap", "[1,2,4]", "[4,2,1]", "line 1 stands after line 4"),
    ("a merge by points", "[3,1,4,2]", "[3,4,1,2]", "doesn't merge"),
    ("a merge by points", "[3,1,4,2]", "[4,2,3,1]", "doesn't merge"),
    ("a merge by points", "[3,1,4,2]", "[3,1,4]", "doesn't merge"),
    ("a merge by points", ',"order":[3,1,4,2]', "", "the summary lacks `order`"),
    # the points
    ("the read's call comes first", '"points":[2,2]', '"points":[2,1]', "the point of line 1 is 2"),
    ("the read's call comes first", '"points":[2,2]', '"points":[2,3]', "the point of line 1 is 2"),
    ("the read's call comes first", '"points":[2,2]', '"points":[2]', "`points` has not as many places"),
    ("the read's call comes first", '"points":[2,2]', '"points":[2,2.0]', "is not a whole number"),
    # the counts
    ("a read of a write", '"writes":1', '"writes":2', "`writes` is 1"),
    ("a read of a write", '"writes":1', '"writes":true', "`writes` is 1"),
    ("a write that failed", '"writes":0', '"writes":1', "`writes` is 0"),
    ("a pending write that wasn't, and a pending read", '"reads":2', '"reads":1', "`reads` is 2"),
    ("a pending write that wasn't, and a pending read", '"pending":2', '"pending":1', "`pending` is 2"),
    ("a read of a write", '"operations":2', '"operations":1', "there are 2 operations"),
    ("a write that failed", '"operations":1', '"operations":2', "there are 1 operations"),
    ("a read of a write", '"registers":1', '"registers":2', "there are 1 registers"),
    ("nothing", '"operations":0', '"operations":false', "there are 0 operations"),
    # safe and regular
    ("a read of a write", '"safe":"yes"', '"safe":"no","safe_read":3', "no read breaks `safe`"),
    ("a read of a write", '"regular":"yes"', '"regular":"no","regular_read":3', "no read breaks `regular`"),
    ("a read of a write", '"safe":"yes"', '"safe":"several writers"', "no read breaks `safe`"),
    ("several writers", '"safe":"several writers"', '"safe":"yes"', "several processes write"),
    ("several writers", '"regular":"several writers"', '"regular":"yes"', "several processes write"),
    ("null after a write", '"safe":"no","safe_read":3', '"safe":"yes"',
     "line 3 is the first read that breaks `safe`"),
    ("null after a write", '"regular":"no","regular_read":3', '"regular":"yes"',
     "read that breaks `regular`"),
    ("an unwritten value while a write is open", '"regular":"no","regular_read":2', '"regular":"yes"',
     "breaks `regular`"),
    ("an unwritten value while a write is open", '"safe":"yes"', '"safe":"no","safe_read":2',
     "no read breaks `safe`"),
    ("first a regular read is broken, then a safe one", '"safe_read":7', '"safe_read":4',
     "line 7 is the first"),
    ("first a regular read is broken, then a safe one", '"regular_read":4', '"regular_read":7',
     "line 4 is the first"),
    # the fault
    ("an unwritten value while a write is open", '"read":2', '"read":1', "line 1 is no completed read"),
    ("an unwritten value while a write is open", '"read":2', '"read":3', "3 is not the line of an operation"),
    ("an unwritten value while a write is open", '"unwritten"', '"zones"', "the keys of the fault"),
    ("an unwritten value while a write is open", '"unwritten"', '"lost"', "no fault is of that kind"),
    ("null after a write", '{"first":[0,1],"kind":"zones","second":[1,3],"writes":[0,1]}',
     '{"kind":"unwritten","read":3}', "the value of line 3 was written"),
    ("an early read", '"write":3', '"write":0', "gave the value of another write"),
    ("an early read", '{"kind":"early","read":1,"write":3}', '{"kind":"unwritten","read":1}', "was written"),
    ("an inversion", '"kind":"zones"', '"kind":"early"', "the keys of the fault"),
    ("an inversion", '{"first":[1,4],"kind":"zones","second":[4,6],"writes":[1,3]}',
     '{"kind":"early","read":4,"write":3}', "line 4 didn't end before the write"),
    ("an inversion", '"first":[1,4]', '"first":[1,3,4]', "`first` is not a pair"),
    ("an inversion", '"first":[1,4]', '"first":[1,6]', "`first` is not of the two clusters"),
    ("an inversion", '"first":[1,4]', '"first":[0,4]', "`first` is not of the two clusters"),
    ("an inversion", '"first":[1,4]', '"first":[6,4]', "the first of `first` doesn't precede the second"),
    ("an inversion", '"second":[4,6]', '"second":[3,6]', "the first of `second` doesn't precede the second"),
    ("an inversion", '"second":[4,6]', '"second":[6,4]', "`second` is not of the two clusters"),
    ("an inversion", '"writes":[1,3]', '"writes":[3,1]', "`first` is not of the two clusters"),
    ("an inversion", '"writes":[1,3]', '"writes":[1,1]', "`writes` is not two writes"),
    ("an inversion", '"writes":[1,3]', '"writes":[1,4]', "`writes` is not two writes"),
    # the inversion
    ("an inversion", '"inversion":[4,6]', '"inversion":[6,4]', "`inversion` is not the `second`"),
    ("an inversion", '"inversion":[4,6]', '"inversion":[3,6]', "`inversion` is not two reads"),
    ("an inversion", ',"inversion":[4,6]', "", "its keys are not"),
    ("an inversion after a read",
     '{"first":[1,6],"kind":"zones","second":[6,8],"writes":[1,5]},"inversion":[6,8]',
     '{"first":[6,8],"kind":"zones","second":[3,6],"writes":[5,1]},"inversion":[3,6]',
     "the first read of `inversion` doesn't give the newer value"),
    ("null after a write", '"pending"', '"inversion":[1,3],"pending"', "its keys are not"),
    ("two reads that are not safe", '"safe_read":3', '"safe_read":5',
     "line 3 is the first read that breaks `safe`"),
    ("two reads that are not safe", '"regular_read":3', '"regular_read":5',
     "line 3 is the first read that breaks"),
    ("two reads that are not safe", '"read":3', '"read":1', "line 1 is no completed read"),
    # the verdicts, the keys, and which registers there are
    ("a read of a write", '"atomic":"yes","operations"', '"atomic":"no","operations"',
     "by the registers' lines"),
    ("an early read", '"atomic":"no","operations"', '"atomic":"yes","operations"', "by the registers' lines"),
    ("an early read", '"atomic":"no","fault"', '"atomic":"perhaps","fault"', "neither yes nor no"),
    ("an early read", '"registers":1', '"order":[1,3],"registers":1', "the summary has other keys: order"),
    ("a read of a write", '"pending":0', '"note":1,"pending":0', "its keys are not"),
    ("a read of a write", '"pending":0,', "", "`pending` is 0"),
    ("a read of a write", '"register":"x"', '"register":"y"', "aren't those of the registers"),
    ("a register whose only call failed", '"register":"y"', '"register":"z"',
     "aren't those of the registers"),
    # what is no report
    ("a read of a write", '"registers":1}', '"registers":1', "no report of regcheck"),
    ("a read of a write", '"pending":0', '"pending":0,"pending":0', "a key stands twice"),
    ("a read of a write", ',"registers":1', "", "its last line isn't a summary"),
    ("nothing", '{"atomic":"yes","operations":0,"order":[],"registers":0}', "[]", "isn't an object"),
]

# name, history, the lowest-numbered reason of the first faulty line
REFUSALS: List[Tuple[str, str, str]] = [
    ("a line too long", "{" + " " * 65536 + "}", "line 1: line is longer than 65536 bytes"),
    ("a line cut short", "1 W x 5; ; {\"process\":2,\"ev", "line 3: not JSON"),
    ("half of a surrogate pair", '{"process":1,"event":"reply","z":"\\ud800"}', "line 1: not JSON"),
    ("deep nesting", '{"z":' + "[" * 2000 + "]" * 2000 + "}", "line 1: not JSON"),
    ("one level too deep", '{"z":' + "[" * 127 + "]" * 127 + "}", "line 1: not JSON"),
    ("not too deep", '{"process":1,"event":"reply","z":' + "[" * 126 + "]" * 126 + "}",
     "line 1: reply without an open call"),
    ("a surrogate pair", '{"process":1,"event":"reply","z":"\\ud83d\\ude00"}',
     "line 1: reply without an open call"),
    ("half of one in a member that doesn't count", '{"z":"\\ud83d","z":1}', "line 1: not JSON"),
    ("a number past every float", '{"process":1,"event":"reply","z":1e999}', "line 1: not JSON"),
    ("a whole number past every float", '{"process":1,"event":"reply","z":' + "9" * 400 + "}",
     "line 1: not JSON"),
    ("a constant", '{"process":NaN}', "line 1: not JSON"),
    ("minus zero", '{"process":-0,"event":"reply"}',
     "line 1: process is not a whole number from 0 to 4294967295"),
    ("a process that is true", '{"process":true,"event":"reply"}',
     "line 1: process is not a whole number from 0 to 4294967295"),
    ("a process too great", '{"process":4294967296}',
     "line 1: process is not a whole number from 0 to 4294967295"),
    ("an unknown event", '{"process":1,"event":"invoke"}', "line 1: event is not call, reply, fail or crash"),
    ("an unknown op", '{"process":1,"event":"call","op":"cas"}', "line 1: op is neither read nor write"),
    ("a reply's op is null", '{"process":1,"event":"reply","op":null}',
     "line 1: op is neither read nor write"),
    ("a long name", '{"process":1,"event":"call","op":"read","register":"' + "\u00e4" * 128 + '"}',
     "line 1: register is not a text of 1 to 255 bytes"),
    ("a read's call with a value", '{"process":1,"event":"call","op":"read","register":"x","value":1}',
     "line 1: value does not fit the event"),
    ("a value too great", "1 W x 9223372036854775808", "line 1: value does not fit the event"),
    ("a value with a fraction", '{"process":1,"event":"reply","value":1.0}',
     "line 1: value does not fit the event"),
    ("two open calls", "1 W x 5; 1 R x", "line 2: the process has an open call at line 1"),
    ("a reply to nothing", "1 W x 5; 1 ok; 1 ok", "line 3: reply without an open call"),
    ("a fail of nothing", "1 fail", "line 1: reply without an open call"),
    ("another register", '1 W x 5; {"process":1,"event":"reply","register":"y"}',
     "line 2: reply disagrees with its call"),
    ("another op", '1 W x 5; {"process":1,"event":"fail","op":"read"}',
     "line 2: reply disagrees with its call"),
    ("another value", "1 W x 5; 1 = 6", "line 2: reply disagrees with its call"),
    ("a failed read's value", '1 R x; {"process":1,"event":"fail","value":1}',
     "line 2: reply disagrees with its call"),
    ("a read's reply without a value", "1 R x; 1 ok", "line 2: a read's reply has no value"),
    ("a value twice", "1 W x 5; 1 ok; 2 W x 5", "line 3: value already written to this register at line 1"),
    ("the value of a failed write", "1 W x 5; 1 fail; 1 W x 5",
     "line 3: value already written to this register at line 1"),
    ("a reply after a crash", "1 W x 5; 1 crash; 1 ok", "line 3: the process crashed at line 2"),
    ("a call after a crash", "1 W x 5; 1 crash; 1 R x", "line 3: the process crashed at line 2"),
    ("another value after a crash", "1 W x 5; 1 crash; 1 = 6", "line 3: the process crashed at line 2"),
    ("a crash after a crash", "1 crash; ; 1 crash", "line 3: the process crashed at line 1"),
    ("a value twice, after a crash", "1 W x 5; 1 ok; 2 crash; 2 W x 5",
     "line 4: value already written to this register at line 1"),
]


class Claims(unittest.TestCase):
    def wrong(self, events: bytes, rows: bytes) -> str:
        with self.assertRaises(verify.Wrong) as raised:
            verify.verify(events, rows)
        return str(raised.exception)

    def test_what_holds_passes(self) -> None:
        for name, (events, rows) in CASES.items():
            with self.subTest(name):
                found = verify.verify(events, report(*rows))
                summary = json.loads(rows[-1])
                expected = [summary["atomic"] == "yes", summary["operations"], summary["registers"], False]
                self.assertEqual([found.atomic, found.operations, found.registers, found.early], expected)

    def test_what_is_changed_is_refused(self) -> None:
        for name, old, new, words in FAILING:
            with self.subTest(f"{name}: {new} for {old}"):
                events, rows = CASES[name]
                before = report(*rows)
                after = before.replace(old.encode(), new.encode())
                self.assertNotEqual(before, after)
                self.assertIn(words, self.wrong(events, after))

    def test_a_no_is_never_a_yes(self) -> None:
        """Of a faulty register, no list of its operations passes as its order."""
        for name, (events, rows) in CASES.items():
            row, summary = json.loads(rows[0]), json.loads(rows[-1])
            if summary["atomic"] == "yes":
                continue
            for key in ("fault", "inversion"):
                row.pop(key, None)
            row["atomic"] = summary["atomic"] = "yes"
            for order in itertools.permutations(calls_of(events)):
                row["order"] = summary["order"] = order
                row["points"] = list(itertools.accumulate(order, max))
                with self.subTest(name, order=order):
                    words = self.wrong(events, report(json.dumps(row), json.dumps(summary)))
                    self.assertRegex(words, "line [1-9]")

    def test_a_yes_is_never_a_no(self) -> None:
        """Of an atomic register, no operations pass as a fault."""
        for name in ("three writes that overlap", "several writers", "a pending read after two writers"):
            events, rows = CASES[name]
            row, summary = json.loads(rows[0]), json.loads(rows[-1])
            lines = [0, *calls_of(events)]
            for key, of in (("order", row), ("points", row), ("order", summary)):
                del of[key]
            row["atomic"] = summary["atomic"] = "no"
            pairs = list(itertools.permutations(lines, 2))
            faults: List[Any] = [{"kind": "unwritten", "read": read} for read in [*lines, 99]]
            faults += [{"kind": "early", "read": read, "write": write} for read, write in pairs]
            faults += [{"kind": "zones", "first": first, "second": second, "writes": writes}
                       for first in pairs for second in pairs for writes in pairs]
            for fault in faults:
                row["fault"] = fault
                if row["regular"] == "yes":
                    row["inversion"] = fault.get("second")
                with self.subTest(name, fault=fault):
                    words = self.wrong(events, report(json.dumps(row), json.dumps(summary)))
                    self.assertNotIn("keys", words)

    def test_another_history_does_not_fit(self) -> None:
        """The report of one history with the events of another one."""
        events, rows = CASES["a read of a write"]
        for old, new in ((b'"value": 5', b'"value": 6'), (b'"x"', b'"y"'), (b"reply", b"crash")):
            with self.subTest(new):
                self.wrong(events.replace(old, new, 1), report(*rows))

    def test_no_report(self) -> None:
        summary = b'{"registers":1}'
        for text in (b"", b"\n", b"\n\n", b"yes\n", b"{}\n", b"\xff\n", summary, summary + b"\n\n"):
            with self.subTest(text), self.assertRaises(verify.Unreadable):
                verify.verify(b"", text)

    def test_a_refused_history_has_no_report(self) -> None:
        words = self.wrong(history("1 ok"), report(*CASES["nothing"][1]))
        self.assertIn("has to be refused: line 1: reply without", words)


class EarlyAnswers(unittest.TestCase):
    """The line of the first register that isn't atomic, or none, and a summary without `order`."""

    ATOMIC = "1 W a 1; 1 ok; 2 R a; 3 W a 2; 2 = 2; 4 R a; 3 ok; 4 = 2; 5 W a 3"
    FAULTY = "; 2 R b; 2 = 9; 2 R c; 2 = 9"
    NAMED = ('{{"atomic":"no","fault":{{"kind":"unwritten","read":{1}}},"pending":0,"reads":1,'
             '"register":"{0}","regular":"no","regular_read":{1},"safe":"no","safe_read":{1},"writes":0}}')

    def wrong(self, text: str, *rows: str) -> str:
        with self.assertRaises(verify.Wrong) as raised:
            verify.verify(history(text), report(*rows))
        return str(raised.exception)

    def test_the_first_faulty_register(self) -> None:
        summary = '{"atomic":"no","operations":7,"registers":3}'
        text = self.ATOMIC + self.FAULTY
        b, c, d = (self.NAMED.format(name, line) for name, line in (("b", 10), ("c", 12), ("d", 12)))
        found = verify.verify(history(text), report(b, summary))
        self.assertEqual((found.atomic, found.early, found.faulty), (False, True, 1))
        self.assertIn('"b": it has no line, though it isn\'t atomic', self.wrong(text, c, summary))
        self.assertIn("there is no register", self.wrong(text, d, summary))
        self.assertIn("an early answer has at most one", self.wrong(text, b, c, summary))

    def test_no_registers(self) -> None:
        summary = '{"atomic":"yes","operations":0,"registers":0}'
        found = verify.verify(b"", report(summary))
        self.assertEqual((found.atomic, found.early, found.registers), (True, True, 0))
        self.assertIn("there are 0 registers",
                      self.wrong("", '{"atomic":"yes","operations":0,"registers":1}'))

    def test_a_line_of_an_atomic_register(self) -> None:
        """Its line says nothing of the registers that have none."""
        line = '{"atomic":"yes","order":[1],"pending":0,"points":[1],"reads":0,"register":"a",'
        summary = '{"atomic":"yes","operations":2,"registers":2}'
        words = self.wrong("1 W a 1; 1 ok; 2 R b; 2 = 9", f'{line}{FINE},"writes":1}}', summary)
        self.assertIn("of a register that isn't atomic", words)

    def test_no_faulty_register(self) -> None:
        """Each has another reason why its operations stand in the order that is built."""
        for text in (self.ATOMIC,
                     "1 W a 1; 2 W a 2; 2 ok; 1 ok; 3 R a; 3 = 2",
                     "1 W a 1; 2 W a 2; 2 ok; 3 R a; 4 R a; 4 = 2; 3 = 1; 1 ok",
                     "1 W a 1; 2 W a 2; 2 ok; 3 R a; 3 = 2; 1 ok; 3 R a; 3 = 1",
                     "1 W a 1; 2 R a; 2 = 1; 3 W a 2",
                     "1 R a; 2 W a 1; 1 = 1; 2 ok; 3 W a 2",
                     "1 W a 1; 2 R a; 2 = null; 1 ok; 2 R a; 2 = 1"):
            calls = text.count("R") + text.count("W")
            with self.subTest(text):
                rows = report(f'{{"atomic":"yes","operations":{calls},"registers":1}}')
                found = verify.verify(history(text), rows)
                self.assertEqual((found.atomic, found.early), (True, True))

    def test_an_order_that_is_not_there(self) -> None:
        for name, text in (("zones", "1 W a 1; 1 ok; 2 R a; 2 = null"),
                           ("early", "1 R a; 1 = 5; 2 W a 5; 2 ok"),
                           ("unwritten", "1 R a; 1 = 5; 2 W a 6; 2 ok"),
                           ("stale", "1 W a 1; 1 ok; 1 W a 2; 1 ok; 1 R a; 1 = 1")):
            count = text.count("R") + text.count("W")
            with self.subTest(name):
                words = self.wrong(text, f'{{"atomic":"yes","operations":{count},"registers":1}}')
                self.assertIn('register "a": it has no line, though it isn\'t atomic', words)

    def test_the_summary(self) -> None:
        for summary, words in (('{"atomic":"no","operations":5,"registers":1}', "by the registers' lines"),
                               ('{"atomic":"yes","operations":4,"registers":1}', "5 operations")):
            self.assertIn(words, self.wrong(self.ATOMIC, summary))


class Joined(unittest.TestCase):
    """The report of `regkit join`: the whole may exceed the limits of a part, and lack the merged order."""

    def test_without_the_merged_order(self) -> None:
        events, rows = CASES["a merge by points"]
        rows = [*rows[:-1], '{"atomic":"yes","operations":4,"registers":2}']
        self.assertTrue(verify.verify(events, report(*rows), joined=True).atomic)
        with self.assertRaises(verify.Wrong):
            verify.verify(events, report(*rows))

    def test_the_merged_order_is_replayed(self) -> None:
        """Even if points that put the write of line 3 first are let pass, the whole order is found wrong."""
        events = history("1 W x 1; 1 ok; 2 W y 2; 2 ok")
        lines = [f'{{"atomic":"yes","order":[{line}],"pending":0,"points":[{point}],"reads":0,'
                 f'"register":"{name}",{FINE},"writes":1}}'
                 for line, point, name in ((1, 9, "x"), (3, 3, "y"))]
        for summary in ('{"atomic":"yes","operations":2,"registers":2}',
                        '{"atomic":"yes","operations":2,"order":[3,1],"registers":2}'):
            with self.subTest(summary), mock.patch.object(claims, "check_line"):
                with self.assertRaisesRegex(verify.Wrong, "line 1 stands after line 3"):
                    verify.verify(events, report(*lines, summary), joined=True)

    def test_beyond_the_limits(self) -> None:
        events, rows = CASES["a read of a write"]
        for limit, words in (("MAX_EVENTS", "line 4: more than 1048576"), ("MAX_BYTES", "input is longer")):
            with self.subTest(limit), mock.patch.object(operations, limit, 3):
                self.assertTrue(verify.verify(events, report(*rows), joined=True).atomic)
                with self.assertRaisesRegex(verify.Wrong, words):
                    verify.verify(events, report(*rows))


class Refusals(unittest.TestCase):
    def wrong(self, events: bytes, words: str) -> str:
        with self.assertRaises(verify.Wrong) as raised:
            verify.verify_refusal(events, words, search=False)
        return str(raised.exception)

    def test_each_reason(self) -> None:
        for name, text, words in REFUSALS:
            with self.subTest(name):
                self.assertEqual(verify.verify_refusal(history(text), words + "\n").refusal, words)

    def test_every_other_reason_is_wrong(self) -> None:
        reasons = {words.split(": ", 1)[1] for _, _, words in REFUSALS}
        for name, text, words in REFUSALS:
            line, right = words.split(": ", 1)
            for reason in reasons - {right}:
                self.assertIn(words, self.wrong(history(text), f"{line}: {reason}"), name)
            self.assertIn(words, self.wrong(history(text), f"line 99: {right}"), name)

    def test_of_equal_names_the_last_counts(self) -> None:
        text = '{"process":"1","event":"reply","process":1}'
        self.assertIn("without an open call", self.wrong(history(text), "line 1: process is not"))

    def test_the_other_line(self) -> None:
        words = "line 3: value already written to this register at line 2"
        self.assertIn("at line 1", self.wrong(history("1 W x 5; 1 ok; 1 W x 5"), words))

    def test_an_accepted_history(self) -> None:
        for name, (events, _) in CASES.items():
            with self.subTest(name):
                self.assertIn("isn't refused", self.wrong(events, "line 1: not JSON"))

    def test_the_limits(self) -> None:
        words = "input is longer than 67108864 bytes"
        self.assertIsNone(verify.verify_refusal(b"\n" * 67_108_865, words).atomic)
        with mock.patch.object(operations, "MAX_BYTES", 5):
            self.assertIsNone(verify.verify_refusal(b"\n" * 6, words).atomic)
            self.assertIn("isn't refused", self.wrong(b"\n" * 5, words))
        with mock.patch.object(operations, "MAX_EVENTS", 2):
            words = "line 4: more than 1048576 events"
            self.assertTrue(verify.verify_refusal(history("1 R x; 1 = 1; ; 1 crash"), words))
            self.assertTrue(verify.verify_refusal(history("1 R x; 1 crash; ; 1 crash"), words))
            words = "line 4: reply without an open call"
            self.assertTrue(verify.verify_refusal(history("1 R x; 1 = 1; ; 1 ok"), words))

    def test_what_says_nothing_of_the_history(self) -> None:
        for words in ("input could not be read", "no memory or no thread", "output could not be written"):
            with self.subTest(words), self.assertRaises(verify.Unreadable):
                verify.verify_refusal(b"", words)


class Command(InFolder):
    """The exit statuses and words of `regkit verify`."""

    def file(self, name: str, content: bytes) -> str:
        path = self.folder / name
        path.write_bytes(content)
        return str(path)

    def run_command(self, *words: str, given: bytes = b"") -> Tuple[int, str]:
        parser = argparse.ArgumentParser()
        command.add_arguments(parser)
        said = io.StringIO()
        source = mock.patch.object(sys, "stdin", mock.Mock(buffer=io.BytesIO(given)))
        with source, contextlib.redirect_stdout(said), contextlib.redirect_stderr(said):
            status = command.run(parser.parse_args(words))
        return status, said.getvalue()

    def test_statuses(self) -> None:
        events, rows = CASES["null after a write"]
        h, r = self.file("h.jsonl", events), self.file("h.report", report(*rows))
        holds = "holds: not linearizable: 2 operations on 1 register, 1 of which is not linearizable\n"
        self.assertEqual(self.run_command(h, r), (0, holds))
        self.assertEqual(self.run_command(h, "-", given=report(*rows)), (0, holds))
        self.assertEqual(self.run_command("-", r, given=events), (0, holds))
        wrong = self.file("wrong", report(*rows).replace(b'"operations":2', b'"operations":3'))
        self.assertEqual(self.run_command(h, wrong), (1, "doesn't hold: there are 2 operations\n"))
        self.assertEqual(self.run_command(h, self.file("none", b"yes\n"))[0], 2)
        for words in ([h], [h, r, "--refusal", r], ["-", "-"]):
            self.assertEqual(self.run_command(*words)[0], 3)
        with self.assertRaises(OSError):
            self.run_command(h, r + "s")

    def test_an_empty_history(self) -> None:
        holds = "holds: linearizable, since the history has no operation\n"
        for end in ('"order":[],"registers":0}', '"registers":0}'):
            with self.subTest(end):
                summary = self.file("h.report", report('{"atomic":"yes","operations":0,' + end))
                self.assertEqual(self.run_command(self.file("h.jsonl", b""), summary), (0, holds))

    def test_refusals(self) -> None:
        h = self.file("h.jsonl", history("1 ok"))
        e = self.file("h.err", b"line 1: reply without an open call\n")
        empty = self.file("h.report", b"")
        holds = (0, "holds: the history is refused: line 1: reply without an open call\n")
        self.assertEqual(self.run_command(h, "--refusal", e), holds)
        self.assertEqual(self.run_command(h, e), holds)
        self.assertEqual(self.run_command(h, empty), holds)
        other = self.file("other.err", b"line 2: reply without an open call\n")
        self.assertEqual(self.run_command(h, other)[0], 1)
        self.assertEqual(self.run_command(h, self.file("alone.report", b""))[0], 2)
        self.assertEqual(self.run_command(h, self.file("run.err", b"no memory or no thread\n"))[0], 2)

    def test_long_numbers_have_commas(self) -> None:
        self.assertEqual(command.in_words(verify.Verified(False, 2_000, 1_234, 1_001, 1_000)),
                         "not linearizable: 2,000 operations on 1,234 registers, 1,001 of which are not "
                         "linearizable, 1,000 of which the search gave up")


@unittest.skipUnless((TOP / "tests" / "reference.py").exists(), "the repository's tests are not here")
class Reference(unittest.TestCase):
    """Random histories, answered by the repository's reference, which shares no code with regkit."""

    def setUp(self) -> None:
        sys.path.insert(0, str(TOP / "tests"))
        self.addCleanup(sys.path.remove, str(TOP / "tests"))

    def test_answers_pass(self) -> None:
        import histories
        import reference
        for seed in range(500):
            events = histories.random_history(seed)
            for first in (False, True):
                status, rows, refusal = reference.answer(events, reference.Options(first=first))
                with self.subTest(seed=seed, first=first):
                    if status == 2:
                        found = verify.verify_refusal(events, refusal)
                    else:
                        found = verify.verify(events, rows)
                    self.assertIs(found.atomic, [True, False, None][status])

    def test_the_report_of_another_history(self) -> None:
        """A line of the history is dropped or moved: verify lets the report pass only if it is still true."""
        import histories
        import reference
        for seed in range(400):
            events = histories.random_history(seed)
            rows = reference.answer(events).report
            lines = events.split(b"\n")
            place = seed % len(lines)
            others = lines[:place] + lines[place + 1:]
            for changed in (others, [lines[place], *others]):
                other = b"\n".join(changed)
                with self.subTest(seed=seed, place=place):
                    try:
                        verify.verify(other, rows)
                        passes = True
                    except verify.Wrong:
                        passes = False
                    self.assertEqual(passes, reference.judge(other, rows) is None)


if __name__ == "__main__":
    unittest.main()
