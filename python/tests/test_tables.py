"""Tables as people have them. Each right one has a twin with another answer, which is faulty."""
import itertools
import json
import random
import unittest
from typing import Any, Dict, Iterator, List, Tuple

from tests.convert_sources import Call, events, faulty_history, is_atomic, plain, right_history
from tests.convert_support import history_of, run, short

Words = Tuple[str, ...]

# A table of a write of 7 and a later read, with a place for what the read was answered: 7 is right, and null,
# which is an empty field, is stale. Then the options.
SHAPES: List[Tuple[str, str, Words]] = [
    ("asked and answered",
     "process,start,end,op,key,input,output\n1,1,2,put,x,7,\n2,3,4,get,x,,%s\n", ()),
    ("a write repeats its value",
     "process,start,end,op,key,input,output\n1,1,2,put,x,7,7\n2,3,4,get,x,,%s\n", ()),
    ("a read is asked with its key",
     "process,start,end,op,key,input,output\n1,1,2,put,x,7,\n2,3,4,get,x,x,%s\n", ()),
    ("a write says ok",
     "process,start,end,op,key,input,output\n1,1,2,put,x,7,OK\n2,3,4,get,x,,%s\n",
     ("--ok-when", "output=OK")),
    ("it means nothing",
     "process,start,end,op,key,input,output\n1,1,2,put,x,7,OK\n2,3,4,get,x,,%s\n",
     ("--outcomes", "OK=ok", "--ok-when", "output=yes")),
    ("other names",
     "process,start,end,op,key,arg,ret\n1,1,2,put,x,7,done\n2,3,4,get,x,,%s\n",
     ("--columns", "input=arg,output=ret", "--ok-when", "ret=done")),
    ("a value beside what was answered",
     "process,start,end,op,value,output\n1,1,2,put,7,\n2,3,4,get,,%s\n", ()),
    ("start and duration",
     "process,start,duration,op,value\n1,1,1,put,7\n2,3,1,get,%s\n", ("--duration-unit", "clock")),
    ("end and duration",
     "process,end,duration,op,value\n1,2,1,put,7\n2,4,1,get,%s\n", ("--duration-unit", "clock")),
    ("the column has the unit",
     "process,start,latency_ms,op,value\n1,1,500,put,7\n2,2,500,get,%s\n", ("--clock-unit", "s")),
    ("the number has the unit",
     "process,start,duration,op,value\n1,1,500ms,put,7\n2,2,0.5s,get,%s\n", ("--clock-unit", "s")),
    ("dates",
     "process,start,elapsed,op,value\n1,2026-11-23T05:49:42.010Z,1.5,put,7\n"
     "2,2026-11-23T05:49:42.012Z,1500µs,get,%s\n", ("--duration-unit", "ms")),
    ("events by time",
     "time,client,event,op,key,value\n3,b,call,get,x,\n1,a,call,put,x,7\n4,b,reply,get,x,%s\n"
     "2,a,reply,put,x,\n", ()),
    ("events in order",
     "process,event,op,key,value\na,invoke,put,x,7\na,ok,put,x,7\nb,invoke,get,x,\nb,ok,get,x,%s\n", ()),
    ("events in Jepsen's words",
     "process\ttype\tf\tvalue\n0\tinvoke\twrite\t7\n0\tok\twrite\t7\n1\tinvoke\tread\t\n"
     "1\tok\tread\t%s\n", ()),
    ("events that repeat nothing",
     "time,process,event,op,register,value\n1,a,call,put,x,7\n2,a,return,,,\n3,b,call,get,x,\n"
     "4,b,return,,,%s\n", ()),
    ("events with an id",
     "time,process,event,id,op,value\n0,pool,call,1,put,5\n1,pool,call,2,put,7\n1,pool,end,1,,\n"
     "2,pool,end,2,,\n3,pool,call,3,get,\n4,pool,end,3,,%s\n", ()),
    ("events, asked and answered",
     "ts;who;phase;op;arg;ret\n1;a;begin;put;7;\n2;a;end;;;\n3;b;begin;get;;\n4;b;end;;;%s\n",
     ("--columns", "time=ts,process=who,event=phase,input=arg,output=ret")),
    ("events with an outcome",
     "time,process,event,op,value,outcome\n1,a,call,put,7,\n2,a,reply,,,ok\n3,b,call,get,,\n"
     "4,b,reply,,%s,ok\n", ()),
    ("names in any case",
     "Process,START,End,Op,Key,Value\n1,1,2,put,x,7\n2,3,4,get,x,%s\n", ()),
]


class Shapes(unittest.TestCase):
    def test_right_and_faulty(self) -> None:
        for name, source, options in SHAPES:
            for answer, atomic in [("7", True), ("", False)]:
                with self.subTest(name, answer=answer):
                    ran = run(source % answer, "csv", *options)
                    self.assertEqual(ran.status, 0, ran.told)
                    self.assertEqual(is_atomic(ran.history), atomic, ran.history)

    def test_objects(self) -> None:
        rows: List[Dict[str, Any]] = [
            {"process": 1, "start": 1, "latency_ms": 1, "op": "put", "Key": "x", "input": 7, "output": None},
            {"process": 2, "start": 3, "latency_ms": 1, "op": "get", "Key": "x", "input": None, "output": 7}]
        for answer, atomic in [(7, True), (None, False)]:
            rows[1]["output"] = answer
            ran = run(json.dumps(rows), "operations", "--clock-unit", "ms")
            self.assertEqual((ran.status, is_atomic(ran.history)), (0, atomic), ran.told)

    def test_a_cas_asked_and_answered(self) -> None:
        """Both halves in what was asked, and whether it took place in what was answered. A second cas from 1
        can't take place, and one that missed can."""
        for asked, separator in [("1 %d", ","), ("[1 %d]", ","), ("(1, %d)", ";"), ("1,%d", "\t"),
                                 ("1->%d", ",")]:
            lines = [["process", "start", "end", "op", "input", "output"], ["1", "1", "2", "write", "1", ""],
                     ["1", "3", "4", "cas", asked % 2, "true"], ["2", "5", "6", "cas", asked % 3, "%s"]]
            source = "\n".join(separator.join(line) for line in lines)
            for told, last in [("true", "2 True"), ("false", "2 False")]:
                with self.subTest(asked, told=told):
                    ran = run(source % told, "csv")
                    self.assertEqual(short(ran.history),
                                     ["1 w x 1", "1 .", "1 c x 1 2", "1 True", "2 c x 1 3", last], ran.told)

    def test_an_event_that_does_not_say_whether_a_cas_took_place(self) -> None:
        source = "process,event,op,from,to,ok\n1,call,cas,,2,\n1,%s,,,,%s\n"
        self.assertIn("doesn't say whether it took place", run(source % ("reply", ""), "csv").told)
        for word, ok, last in [("ok", "", "1 True"), ("reply", "true", "1 True"),
                               ("reply", "false", "1 False"), ("fail", "", "1 fail"),
                               ("missed", "", "1 False")]:
            with self.subTest(word, ok=ok):
                self.assertEqual(short(run(source % (word, ok), "csv").history)[1:], [last])

    def test_unknown_outcomes_stay_pending(self) -> None:
        for source in ("process,start,duration,op,value\n1,1,,put,7\n",
                       "process,event,op,value\n1,call,put,7\n",
                       "process,event,op,value\n1,call,put,7\n1,info,put,7\n"):
            with self.subTest(source):
                ran = run(source, "csv", "--duration-unit", "clock")
                self.assertEqual(short(ran.history), ["1 w x 7"], ran.told)

    def test_lines_of_the_source(self) -> None:
        """The map has the line of the call, and of the row that ended it."""
        made = run("process,event,op,value\n1,call,put,7\n2,call,put,8\n2,ok,,\n1,ok,,\n", "csv", "--map").map
        assert made is not None
        self.assertEqual(made["lines"], [2, 3, 4, 5])


# A table, options, and how the refusal goes on.
REFUSED: List[Tuple[str, Words, str]] = [
    ("process,start,end,op,value,output\n1,1,2,put,7,8\n", (),
     "line 2: output is 8, which isn't understood here: say --ok-when output=WORD,.. with the "
     "words in it by which"),
    ("process,start,end,op,value,input\n1,1,2,put,7,8\n", (),
     "line 2: input is 8 and value 7: say with --ignore-m"),
    ("process,start,end,op,value,output\n1,1,2,get,7,8\n", (),
     "line 2: output is 8 and value 7: say with --ignore-"),
    ("process,start,end,op,input,output\n1,1,2,get,5,8\n", (),
     "line 2: input is 5, which isn't understood here: say --columns register=input if it is the "
     "key, or --ignore-m"),
    ("process,start,end,op,input\n1,1,2,get,\n", (),
     "line 2: a read without value: write null if it found none, "),
    ("process,start,duration,op,value\n1,1,2,put,7\n", (),
     "line 2: duration is 2, and nobody knows of which unit"),
    ("process,start,duration,op,value\n1,1,2ms,put,7\n", (),
     "line 2: duration is 2ms, and nobody knows of which "),
    ("process,start,duration,op,value\n1,1,-2,put,7\n", ("--duration-unit", "clock"),
     "line 2: duration is '-2', and a number from 0 is expected"),
    ("process,start,op,value\n1,1,put,7\n", (),
     "line 1: the header has no end, but process, start, op, value: say which column is the end "
     "with --columns end=NAME, or which is the duration with --columns durat"),
    ("process,end,duration,op,value\n1,,2,put,7\n", ("--duration-unit", "clock"),
     "line 2: the operation has no start, so nobody knows when it began"),
    ("process,start,end,duration,op,value\n1,1,2,1,put,7\n", (),
     "line 2: the column duration isn't understood"),
    ("process,start,end,event,op,value\n1,1,2,call,put,7\n", (),
     "line 2: the column event isn't understood"),
    ("process,start,end,time,op,value\n1,1,2,1,put,7\n", (),
     "line 2: the column time isn't understood"),
    ("process,start,end,phase,op,value\n1,1,2,call,put,7\n", ("--columns", "event=phase"),
     "line 2: the column start isn't understood"),
    ("process,event,op,value\n1,call,put,7\n1,done,,\n", (),
     "line 3: the event is done, and call or invoke, reply "),
    ("process,event,op,value\n1,ok,put,7\n", (),
     "line 2: 1 has no open call that this could end"),
    ("process,event,op,value\n1,call,put,7\n1,call,put,8\n", (),
     "line 3: 1 calls while its call of line 2 is open"),
    ("process,event,op,value\n1,call,put,7\n1,ok,get,7\n", (),
     "line 3: op is get, and that of the call at line 2 put"),
    ("process,event,op,key,value\n1,call,put,x,7\n1,ok,put,y,7\n", (),
     "line 3: key is y, and that of the call at "),
    ("process,event,op,value\n1,call,put,7\n1,ok,put,8\n", (),
     "line 3: value is 8, which isn't understood here: say --ok-when value=WORD,.."),
    ("process,event,op,value,outcome\n1,call,put,7,\n1,fail,,,ok\n", (),
     "line 3: the event is fail and outcome ok: which of them is right?"),
    ("process,event,op,value,outcome\n1,call,put,7,\n1,ok,,,fail\n", (),
     "line 3: the event is ok and outcome fail: which of them is right?"),
    ("process,event,op,value,outcome\n1,call,put,7,ok\n", (),
     "line 2: outcome is ok in the row of a call, which "),
    ("time,process,event,op,value\n5,1,call,put,7\n4,1,ok,,\n", (),
     "line 3: the time is 4, and that of line 2, of "),
    ("process,event,op,id,value\n1,call,put,a,7\n2,ok,,a,\n", (),
     "line 3: process is 2, and that of the call at l"),
    ("process,Key,start,end,op,value,k\n1,x,1,2,put,7,y\n", (),
     "line 2: the column k isn't understood"),
    ("process,Op,op,start,end,value\n1,put,get,1,2,7\n", (),
     "line 1: the header has Op twice: rename one of them"),
]


class Refused(unittest.TestCase):
    def test_by_name(self) -> None:
        for source, options, words in REFUSED:
            with self.subTest(source, options=options):
                ran = run(source, "csv", *options)
                self.assertEqual((ran.status, ran.history), (2, ""), ran.told)
                self.assertIn(f"regkit convert: {words}", ran.told)

    def test_times_that_events_do_not_have(self) -> None:
        ran = run("process,event,op,value\n1,call,put,7\n", "csv", "--clock-error", "5")
        self.assertEqual(ran.status, 3)
        self.assertIn("--clock-error and --clock-unit are for times, and the table has no column of a "
                      "time", ran.told)


def _cells(rows: List[Dict[str, Any]], names: List[str]) -> str:
    lines = [["" if row.get(name) is None else str(row[name]) for name in names] for row in rows]
    return "\n".join(map(",".join, [names, *lines]))


def _asked_and_answered(call: Call) -> Dict[str, Any]:
    known = call.op == "read" and call.outcome == "ok"
    return {"process": call.client, "key": call.key, "op": call.op, "outcome": call.outcome,
            "input": call.value if call.op == "write" else None, "output": call.value if known else None}


def lasting(calls: List[Call], chance: random.Random) -> str:
    """Starts or ends with durations. One that has no known end has no duration."""
    rows: List[Dict[str, Any]] = [
        {**_asked_and_answered(call), "start": call.start, "end": call.end,
         "latency_ms": None if call.end is None else call.end - call.start} for call in calls]
    ends = all(call.end is not None for call in calls) and chance.random() < 0.7
    time = "end" if ends else "start"
    chance.shuffle(rows)
    return _cells(rows, ["process", time, "latency_ms", "key", "op", "input", "output", "outcome"])


def by_event(calls: List[Call], chance: random.Random) -> str:
    """A row an event, with the rows of some clients before those of others, or all in the order of time."""
    words = {"ok": chance.choice(["ok", "reply", "return"]), "fail": "fail"}
    rows: List[Dict[str, Any]] = []
    for time, is_call, call in events(calls):
        said = _asked_and_answered(call)
        value = said["input"] if is_call else said["output"]
        event = "call" if is_call else words[call.outcome]
        rows.append({**said, "time": time, "event": event, "value": value})
        if not is_call and chance.random() < 0.5:
            rows[-1].update(op=None, key=None)
    timed = chance.random() < 0.5
    if timed:
        rows.sort(key=lambda row: (row["process"] % 2, row["time"]))
    names = ["time"] * timed + ["process", "event", "op", "key", "value"]
    return _cells(rows, names)


class Histories(unittest.TestCase):
    """Random histories keep their verdicts in each shape."""

    def histories(self, chance: random.Random) -> Iterator[Tuple[List[Call], bool]]:
        for _ in range(100):
            yield right_history(chance), True
            yield faulty_history(chance), False

    def test_each_keeps_its_verdict(self) -> None:
        options = {lasting: ("--clock-unit", "ms"), by_event: ()}
        chance = random.Random(61)
        writers = itertools.cycle([lasting, lasting, by_event, by_event])
        for (calls, atomic), write in zip(self.histories(chance), writers):
            if calls:
                self.assertEqual(is_atomic(plain(calls)), atomic)
                source = write(calls, chance)
                self.assertEqual(is_atomic(history_of(source, "csv", *options[write])), atomic, source)


if __name__ == "__main__":
    unittest.main()
