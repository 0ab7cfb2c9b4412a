"""Additions and subtractions: their histories are as linearizable as what `regkit convert` makes of them.

    REGKIT_COUNTERS=20000 nice python3 -m unittest tests.test_convert_counters    more, in some minutes
"""
import json
import os
import random
import unittest
from typing import Any, Dict, List, Tuple

from regkit.convert.model import Refused
from tests import acts
from tests.convert_support import history_of
from tests.search_sources import find_regsearch, verdicts
from tests.sequential import Asked, Done, State, history_of as random_history
from tests.sequential import is_atomic, is_linearizable, moments

MANY = int(os.environ.get("REGKIT_COUNTERS", "2000"))
REGSEARCH = find_regsearch()
OPS = ("--ops", "incr=add,decr=subtract,getincr=fetch-add,getdecr=fetch-subtract")
CHANGED = {"incr": 1, "getincr": 1, "decr": -1, "getdecr": -1}
UNKNOWN = "an addition of unknown outcome"
# What is refused as nobody can tell it: what an addition met, and whether answers only repeat what was asked.
UNTOLD = (f"{UNKNOWN}|met 0, which may have been|met 0, and nothing had put|has the value of its call|"
          "found no value, and by --initial|say --initial=(0|-1) if registers start with it")


def counter(state: State, asked: Asked) -> List[Tuple[State, Any]]:
    """A counter, which counts as 0 if it has no value."""
    op, value = asked
    if op == "read":
        return [(state, state)]
    if op == "write":
        return [(value, None)]
    before = state or 0
    after = before + CHANGED[op] * (1 if value is None else value)
    return [(after, before if op.startswith("get") else after)]


def made(chance: random.Random) -> List[Done]:
    """A history, right or with one answer changed. Most additions of unknown outcome failed instead."""
    words = chance.choice([["incr"], ["incr", "decr"], ["getincr", "decr", "getdecr"], list(CHANGED)])

    def ask(_: State) -> Asked:
        dice = chance.random()
        if dice < 0.3:
            return "read", None
        if dice < 0.4:
            return "write", chance.choice([0, 1, 2, 5])
        return chance.choice(words), chance.choice([None, None, 1, 2, 3])

    while True:
        done = random_history(chance, counter, None, ask)
        if chance.random() < 0.05 or not any(each.outcome == "unknown" and each.asked[0] in CHANGED
                                             for each in done):
            return changed(done, chance) if chance.random() < 0.6 else done


def changed(done: List[Done], chance: random.Random) -> List[Done]:
    places = [place for place, each in enumerate(done) if each.outcome == "ok" and each.asked[0] != "write"]
    if not places:
        return done
    place = chance.choice(places)
    answer = (done[place].answer or 0) + chance.choice([-1, 1, 2])
    return done[:place] + [done[place]._replace(answer=answer)] + done[place + 1:]


def table(done: List[Done]) -> str:
    lines = ["process,start,end,op,key,input,output,outcome"]
    lines += [",".join("" if each is None else str(each) for each in (
        call.client, call.start, call.end, call.asked[0], "k", call.asked[1], call.answer, call.outcome))
        for call in done]
    return "\n".join(lines)


def jepsen(done: List[Done]) -> str:
    types = {"ok": "ok", "fail": "fail", "unknown": "info"}
    lines = []
    for is_call, each in moments(done):
        op, value = each.asked
        told = value if is_call or op == "write" or each.outcome != "ok" else each.answer
        shown = "nil" if told is None else told
        lines.append(f"{{:process {each.client}, :type :{'invoke' if is_call else types[each.outcome]}, "
                     f":f :{op}, :value {shown}}}")
    return "\n".join(lines)


def porcupine(done: List[Done]) -> str:
    rows = []
    for each in done:
        op, value = each.asked
        told = {"Value": each.answer} if each.outcome == "ok" else {}
        rows.append({"ClientId": each.client, "Call": each.start, "Return": each.end,
                     "Input": {"Op": op, "Value": value}, "Output": {**told, "Err": each.outcome}})
    return "\n".join(map(json.dumps, rows))


def events(done: List[Done]) -> str:
    rows: List[Dict[str, Any]] = []
    for is_call, each in moments(done):
        op, value = each.asked
        if is_call:
            given = {} if value is None else {"value": value}
            rows.append({"process": each.client, "event": "call", "op": op, "register": "k", **given})
        else:
            told = {"value": each.answer} if each.outcome == "ok" and op != "write" else {}
            what = "fail" if each.outcome == "fail" else "reply"
            rows.append({"process": each.client, "event": what, **told})
    return "\n".join(map(json.dumps, rows))


FORMS = {"csv": (table, ()), "jepsen": (jepsen, ()), "jsonl": (events, ()),
         "porcupine": (porcupine, ("--ok-when", "Err=ok", "--outcomes", "fail=fail"))}


class Counters(unittest.TestCase):
    def test_each_verdict_is_that_of_the_counter(self) -> None:
        """By all orders of the operations on a counter, and by all orders of what they are converted to."""
        kept: List[Tuple[str, bool]] = []
        for form, (write, options) in FORMS.items():
            chance = random.Random(form)
            refused = faulty = 0
            for _ in range(MANY // len(FORMS)):
                done = made(chance)
                if not any(each.outcome != "fail" or each.asked[0] not in CHANGED for each in done):
                    continue
                start = chance.choice([("--initial", "null"), ("--initial", "0"), ()])
                try:
                    history = history_of(write(done), form, *options, *OPS, *start, "--values", "exact")
                except Refused as error:
                    refused += 1
                    self.assertRegex(str(error), UNTOLD)
                    self.assertTrue(UNKNOWN not in str(error) or any(
                        each.asked[0] in CHANGED and each.outcome == "unknown" for each in done))
                    continue
                expected = is_linearizable(done, counter, 0 if "0" in start else None)
                faulty += not expected
                kept.append((history, expected))
                self.assertEqual(is_atomic(history), expected, (form, write(done), history))
            with self.subTest(form):
                self.assertLess(refused, MANY / len(FORMS) * 2 / 3)
                self.assertGreater(faulty, MANY / len(FORMS) / 8)
        if REGSEARCH:
            self.assertEqual(verdicts([history for history, _ in kept], REGSEARCH),
                             [is_right for _, is_right in kept])


BEGIN = "client,start,end,op,key,input,output\n"
# What follows in a table of Redis, and whether a counter may answer so.
ROWS: List[Tuple[str, bool]] = [
    ("ann,1,2,set,n,0,OK\nann,3,6,incr,n,,1\nbob,4,5,incr,n,,2\n", True),
    ("ann,3,6,incr,n,,1\nbob,4,5,incr,n,,1\n", False),  # a lost update
    ("ann,3,6,incrby,n,2,5\nbob,4,5,incrby,n,3,3\nann,7,8,get,n,,5\n", True),  # 3 first, then 2
    ("ann,3,6,incrby,n,2,5\nbob,4,5,incrby,n,3,3\ncid,4,6,get,n,,2\n", False),  # 2 isn't there alone
    ("ann,3,4,incr,n,,1\nbob,5,6,get,n,,1\nbob,7,8,get,n,,0\n", False),  # a counter never falls
    ("ann,1,2,set,n,0,OK\nann,3,4,incr,n,,1\nbob,5,6,decr,n,,0\nann,7,8,incr,n,,1\n", True),
    ("ann,3,4,incr,n,,1\nbob,5,6,del,n,,1\nann,7,8,incr,n,,1\n", True),  # none counts as 0
    ("ann,3,4,incr,n,,1\nbob,5,6,del,n,,1\nann,7,8,incr,n,,2\n", False),
]
REFUSED: List[Tuple[str, str]] = [
    ("ann,3,,incr,n,,\nbob,4,5,get,n,,1\n", "an addition of unknown outcome"),
    ("ann,3,4,incr,n,1,\nbob,5,6,get,n,,1\n", "answered no value, and whether .* is an NP-complete question"),
    ("ann,1,2,set,n,0,OK\nann,3,4,incr,n,,1\nbob,5,6,del,n,,1\n", "put 0 to n in place of each delete"),
    ("ann,3,4,incr,n,,1\nbob,5,6,decr,n,,0\nbob,7,8,incr,n,,1\n", "begin the run with a put of 0 to n"),
]


class Words(unittest.TestCase):
    def test_rows(self) -> None:
        for rows, expected in ROWS:
            history = history_of(BEGIN + rows, "csv", "--store", "redis", "--initial", "null")
            self.assertEqual(acts.is_atomic(history), expected, (rows, history))

    def test_what_is_refused(self) -> None:
        for rows, why in REFUSED:
            with self.subTest(rows), self.assertRaisesRegex(Refused, why):
                history_of(BEGIN + rows, "csv", "--store", "redis", "--initial", "null")


if __name__ == "__main__":
    unittest.main()
