"""Deletes, creates, replaces, swaps, locks and counters: their histories are as linearizable as what `regkit
convert` makes of them.

    REGKIT_ABSENCES=40000 nice python3 -m unittest tests.test_convert_absences    more, in some minutes
"""
import json
import os
import random
import unittest
from typing import Any, Callable, Dict, List, NamedTuple, Optional, Sequence, Tuple

from regkit.convert.model import Refused
from tests import acts
from tests.convert_support import history_of
from tests.search_sources import find_regsearch, verdicts
from tests.sequential import Asked, Done, State, is_linearizable, moments
from tests.sequential import history_of as random_history

MANY = int(os.environ.get("REGKIT_ABSENCES", "3000"))
REGSEARCH = find_regsearch()
UNTOLD = "an addition of unknown outcome|met 0, which may have been|no completed|has the value of its call"


def store(state: State, asked: Asked) -> List[Tuple[State, Any]]:
    """A key of a store: what each of its operations does to the value, None for none, and answers."""
    op, value = asked
    there = state is not None
    if op == "incr":
        return [((state or 0) + 1, (state or 0) + 1)]
    after = {
        "get": (state, state), "set": (value, None), "getset": (value, state), "del": (None, int(there)),
        "upsert": (value, there),
        "delete": (None, None), "getdel": (None, state), "exists": (state, there),
        "setnx": (state, False) if there else (value, True),
        "setxx": (value, True) if there else (state, False),
        "cad": (None, True) if state == value else (state, False),
        "acquire": (state, False) if there else (value or "held", True),
        "release": (None, True) if state == (value or "held") else (state, False)}[op]
    return [after]


ALL = ("get", "set", "getset", "del", "delete", "getdel", "exists", "setnx", "setxx", "cad")
BARE = frozenset({"get", "del", "delete", "getdel", "exists", "incr"})  # whose calls have no value
TOLD = frozenset({"setnx", "setxx", "cad", "acquire", "release"})  # which tell whether they took place


def made(chance: random.Random, words: Sequence[str], values: Sequence[Any]) -> List[Done]:
    """A history, right or with one answer changed. No addition is of unknown outcome."""
    used = chance.sample(list(words), chance.randrange(2, len(words) + 1))

    def ask(_: State) -> Asked:
        op = chance.choice(used)
        return op, None if op in BARE else chance.choice(list(values))

    while True:
        done = random_history(chance, store, None, ask)
        if not any(each.outcome == "unknown" and each.asked[0] == "incr" for each in done):
            return changed(done, chance, values) if chance.random() < 0.6 else done


def changed(done: List[Done], chance: random.Random, values: Sequence[Any]) -> List[Done]:
    places = [place for place, each in enumerate(done)
              if each.outcome == "ok" and each.asked[0] not in ("set", "delete")]
    if not places:
        return done
    place = chance.choice(places)
    op, answer = done[place].asked[0], done[place].answer
    if op in TOLD or op in ("exists", "upsert"):
        answer = not answer
    elif op == "del":
        answer = 1 - answer
    else:
        others = [*values] if op == "incr" else [*values, None]
        answer = chance.choice([each for each in others if each != answer])
    return done[:place] + [done[place]._replace(answer=answer)] + done[place + 1:]


# ---- The forms


def redis(done: List[Done], chance: random.Random) -> str:
    """A table with the words of Redis, and what redis-cli shows as its answers."""
    lines = ["process,start,end,op,key,input,output,outcome"]
    for each in done:
        op, value = each.asked
        word = "set nx" if op == "setnx" and chance.random() < 0.5 else "set xx" if op == "setxx" else op
        answer: Any = each.answer
        if op in TOLD and word != "setnx":
            answer = "OK" if answer else chance.choice(["nil", "(nil)"])
        elif type(answer) is bool:
            answer = int(answer)
        elif answer is None and op in ("get", "getset", "getdel") and each.outcome == "ok":
            answer = chance.choice([None, "(nil)"])
        elif op == "set":
            answer = "OK"
        if type(answer) is int and op not in ("get", "getset", "getdel") and chance.random() < 0.3:
            answer = f"(integer) {answer}"
        answer = answer if each.outcome == "ok" else None
        lines.append(",".join("" if said is None else str(said) for said in (
            each.client, each.start, each.end, word, "k", value, answer, each.outcome)))
    return "\n".join(lines)


def memcached(done: List[Done], chance: random.Random) -> str:
    """A table with the words of memcached, whose answers are outcomes or outputs."""
    words = {"get": "get", "set": "set", "setnx": "add", "setxx": "replace", "del": "delete"}
    told = {"set": ("STORED", "STORED"), "setnx": ("NOT_STORED", "STORED"), "setxx": ("NOT_STORED", "STORED"),
            "del": ("NOT_FOUND", "DELETED")}
    lines = ["process,start,end,op,key,input,output,outcome"]
    for each in done:
        op, value = each.asked
        output: Any = each.answer if op == "get" else ""
        outcome = each.outcome
        if op in told and outcome == "ok":
            word = told[op][int(bool(each.answer))]
            output, outcome = (word, "ok") if chance.random() < 0.5 else ("", word)
        lines.append(",".join("" if said is None else str(said) for said in (
            each.client, each.start, each.end, words[op], "k", value, output, outcome)))
    return "\n".join(lines)


def jepsen(done: List[Done], chance: random.Random) -> str:
    lines = []
    for is_call, each in moments(done):
        op, value = each.asked
        kind, more = "invoke", ""
        shown: Any = value
        if not is_call:
            kind = {"ok": "ok", "fail": "fail", "unknown": "info"}[each.outcome]
            more = ", :error :no-effect" if kind == "fail" else ""
            if op in TOLD:
                kind = "fail" if each.answer is False else kind
            elif (op, each.answer) == ("del", 0) and chance.random() < 0.5:
                kind, more = "fail", ", :error :not-found"
            elif each.outcome == "ok" and op != "set":
                shown = each.answer
        said = "nil" if shown is None else str(shown).lower()
        lines.append(f"{{:process {each.client}, :type :{kind}, :f :{op}, :value {said}{more}}}")
    return "\n".join(lines)


def porcupine(done: List[Done], _: random.Random) -> str:
    rows = []
    for each in done:
        op, value = each.asked
        output: Dict[str, Any] = {"Err": each.outcome}
        if each.outcome == "ok" and op not in ("set", "delete"):
            output["Ok" if op in TOLD else "Value"] = each.answer
        rows.append({"ClientId": each.client, "Call": each.start, "Return": each.end,
                     "Input": {"Op": op, "Key": "k", "Value": value}, "Output": output})
    return "\n".join(map(json.dumps, rows))


def events(done: List[Done], chance: random.Random) -> str:
    """In the words of regsearch, with texts for values."""
    rows = []
    for is_call, each in moments(done):
        op, given = each.asked
        value = None if given is None else f"v{given}"
        row: Dict[str, Any] = {"process": each.client, "event": "call", "register": "k"}
        if is_call:
            words = {"get": "read", "exists": "read", "set": "write", "getset": "swap", "upsert": "swap"}
            row["op"] = words.get(op, "cas" if op in TOLD else "delete")
            asked: Dict[str, Dict[str, Any]] = {
                "set": {"value": value}, "getset": {"value": value}, "upsert": {"value": value},
                "setnx": {"from": None, "to": value},
                "setxx": {"unless": None, "to": value}, "cad": {"from": value, "to": None}}
            row.update(asked.get(op, {}))
        else:
            row["event"] = "fail" if each.outcome == "fail" else "reply"
            row.update(told_in_events(op, each, chance) if each.outcome == "ok" else {})
        rows.append(json.dumps(row))
    return "\n".join(rows)


def told_in_events(op: str, each: Done, chance: random.Random) -> Dict[str, Any]:
    answer = None if each.answer is None else f"v{each.answer}"
    if op in TOLD:
        return {"ok": each.answer}
    if op == "getset" and each.answer is not None and chance.random() < 0.3:
        return {"old": answer, "found": True}
    told: Dict[str, Dict[str, Any]] = {
        "get": {"value": answer}, "getset": {"old": answer}, "getdel": {"old": answer},
        "exists": {"found": each.answer}, "upsert": {"found": each.answer},
        "del": {"found": each.answer == 1}}
    return told.get(op, {})


class Form(NamedTuple):
    """A form, with the options that say what its words are."""

    name: str
    write: Callable[[List[Done], random.Random], str]
    words: Sequence[str]
    options: Tuple[str, ...]
    values: Sequence[Any] = (1, 2, 3)


OPS = ("--ops", "setnx=create,setxx=replace,getset=swap,del=count-delete,getdel=fetch-delete,cad=delete-if")
LOCKS = ("--ops", "acquire=lock,release=unlock")
GO = ("--ok-when", "Err=ok", "--outcomes", "fail=fail")
REDIS = tuple(word for word in ALL if word not in ("cad", "delete"))
FORMS = {
    "redis": Form("csv", redis, REDIS, ("--store", "redis")),
    "redis's counters": Form("csv", redis, (*REDIS, "incr", "incr"), ("--store", "redis"), (1, 2, 3, 0)),
    "memcached": Form("csv", memcached, ("get", "set", "setnx", "setxx", "del"), ("--store", "memcached")),
    "jepsen": Form("jepsen", jepsen, ALL, (*OPS, "--failed-cas", "missed", "--outcomes", "not-found=missed")),
    "porcupine": Form("porcupine", porcupine, ALL, (*OPS, *GO)),
    "jsonl": Form("jsonl", events, (*ALL, "upsert"), ()),
    "knossos's mutex": Form("jepsen", jepsen, ("acquire", "release"), (*LOCKS, "--failed-cas", "missed"),
                            (None,)),
    "locks with owners": Form("porcupine", porcupine, ("acquire", "release", "exists"), (*LOCKS, *GO),
                              (7, 8)),
}


class Absences(unittest.TestCase):
    def test_each_verdict_is_that_of_the_store(self) -> None:
        """By all orders of the operations on a store, and by all orders of what they are converted to."""
        kept: List[Tuple[str, bool]] = []
        for name, form in FORMS.items():
            chance = random.Random(name)
            counts = {"refused": 0, "right": 0, "faulty": 0}
            for _ in range(MANY // len(FORMS)):
                done = made(chance, form.words, form.values)
                source = form.write(done, chance)
                history = self.converted(source, form, done)
                if history is None:
                    counts["refused"] += 1
                    continue
                expected = is_linearizable(done, store, None)
                counts["right" if expected else "faulty"] += 1
                kept.append((history, expected))
                self.assertEqual(acts.is_atomic(history), expected, (name, source, history))
            with self.subTest(name, **counts):
                self.assertGreater(min(counts["right"], counts["faulty"]), MANY // len(FORMS) // 8)
        if REGSEARCH:
            self.assertEqual(verdicts([history for history, _ in kept], REGSEARCH),
                             [is_right for _, is_right in kept])

    def converted(self, source: str, form: Form, done: List[Done]) -> Optional[str]:
        """None if it is refused, and had to be."""
        if all(each.asked[0] == "incr" and each.outcome == "fail" for each in done):
            return None
        try:
            return history_of(source, form.name, *form.options, "--initial", "null", "--values", "exact")
        except Refused as error:
            self.assertRegex(str(error), UNTOLD, source)
            return None


if __name__ == "__main__":
    unittest.main()
