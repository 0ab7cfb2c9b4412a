"""Puts, creates and deletes by revision, as in etcd: their histories are as linearizable as what `regkit
convert` makes of them.

    REGKIT_REVISIONS=20000 nice python3 -m unittest tests.test_convert_revisions    more, in some minutes
"""
import json
import os
import random
import re
import unittest
from typing import Any, List, Tuple

from regkit.convert.model import Refused
from tests import acts
from tests.convert_support import history_of, run
from tests.search_sources import find_regsearch, verdicts
from tests.sequential import Asked, Done, State, is_linearizable
from tests.sequential import history_of as random_history

MANY = int(os.environ.get("REGKIT_REVISIONS", "800"))
REGSEARCH = find_regsearch()
GREATEST = 14  # revision
START: State = (None, 0, frozenset())  # the value, its revision or 0, and all revisions that were given
BACK = "so revisions don't go up"
UNCLEAR = "several puts of unknown outcome|nobody can tell|here it may matter"
UNTOLD = f"{BACK}|{UNCLEAR}|two puts to k gave the revision|" \
          "so did another change|has the version .* and the put asks"
OPTIONS = ("--revisions", "revision", "--new-revisions", "gave", "--ops",
           "putif=write,drop=count-delete,dropif=delete-if", "--initial", "null", "--values", "exact")


def store(state: State, asked: Asked) -> List[Tuple[State, Any]]:
    """All that may come of an operation, for each greater revision that a change may give: of those that a
    history names, or of those between."""
    (value, revision, given), (op, (written, asks)) = state, asked
    if op == "get":
        return [(state, (value, revision) if revision else None)]
    if op == "drop":
        return [((None, 0, given), int(revision > 0))]
    if op == "dropif":
        return [((None, 0, given), True)] if revision == asks else [(state, False)]
    if op in ("told drop", "told dropif") and (not revision or op != "told drop" and revision != asks):
        return [(state, 0)]
    if op in ("putif", "create") and revision != asks:
        return [(state, "missed")]
    last = max(given, default=0)
    free = [*range(int(last) + 1, GREATEST + 1), last + 0.001]
    is_put = op in ("put", "putif", "create")
    return [((written if is_put else None, new if is_put else 0, given | {new}), new) for new in free]


def simulated(state: State, asked: Asked) -> List[Tuple[State, Any]]:
    """A store whose revisions go up by 1 or 2."""
    return store(state, asked)[:2]


def made(chance: random.Random) -> List[Done]:
    """A history, right or with one answer changed."""
    words = chance.sample(["put", "putif", "create", "drop", "dropif", "get", "get", "told drop",
                           "told dropif"], chance.randrange(3, 10))

    def ask(state: State) -> Asked:
        op = chance.choice(words)
        asks = state[1] if chance.random() < 0.7 else chance.choice([0, *state[2]])
        asks = 0 if op == "create" else max(asks, 1) if "dropif" in op else asks
        return op, (chance.choice("abc"), asks)

    while True:
        done = random_history(chance, simulated, START, ask)
        is_small = len(done) < 9 and not any(
            type(each.answer) is int and each.answer >= GREATEST - 4 for each in done)
        if is_small and any(each.outcome == "ok" for each in done):
            return changed(done, chance) if chance.random() < 0.6 else done


def changed(done: List[Done], chance: random.Random) -> List[Done]:
    place = chance.choice([place for place, each in enumerate(done) if each.outcome == "ok"])
    op, answer = done[place].asked[0], done[place].answer
    if op == "get":
        revision = chance.randrange(1, 7)
        answer = chance.choice([None, (chance.choice("abc"), revision), ("a", revision)])
    elif op == "drop":
        answer = 1 - answer
    elif op == "dropif":
        answer = not answer
    elif "drop" in op:
        answer = chance.choice([0, chance.randrange(1, 8)])
    else:
        given = chance.randrange(1, 8)
        answer = chance.choice(["missed", given] if op != "put" else [given])
    return done[:place] + [done[place]._replace(answer=answer)] + done[place + 1:]


def table(done: List[Done]) -> str:
    lines = ["process,start,end,op,key,value,revision,gave,ok,outcome"]
    for each in done:
        op, (written, asks) = each.asked
        value: Any = written if op in ("put", "putif", "create") else ""
        revision: Any = asks if op in ("putif", "dropif", "told dropif") else ""
        gave: Any = ""
        ok, outcome = "", each.outcome
        if outcome == "ok" and op == "get" and each.answer is not None:
            value, revision = each.answer
        elif outcome == "ok" and op == "drop":
            value = each.answer
        elif outcome == "ok" and op == "dropif":
            ok = str(each.answer).lower()
        elif outcome == "ok" and "drop" in op:
            gave, found = each.answer or "", each.answer > 0
            value, ok = (int(found), "") if op == "told drop" else ("", str(found).lower())
        elif outcome == "ok" and op != "get":
            outcome = "missed" if each.answer == "missed" else "ok"
            gave = "" if outcome == "missed" else each.answer
        end = "" if each.end is None else each.end
        word = op.replace("told ", "")
        lines.append(f"{each.client},{each.start},{end},{word},k,{value},{revision},{gave},{ok},{outcome}")
    return "\n".join(lines)


class Revisions(unittest.TestCase):
    def test_each_verdict_is_that_of_the_store(self) -> None:
        """A history that isn't refused is right if and only if the store's is."""
        chance, kept = random.Random("revisions"), []
        counts = {"refused": 0, "right": 0, "faulty": 0}
        for _ in range(MANY):
            done = made(chance)
            source = table(done)
            is_right = is_linearizable(done, store, START)
            try:
                history = history_of(source, "csv", *OPTIONS)
            except Refused as error:
                counts["refused"] += 1
                self.assertRegex(str(error), UNTOLD, source)
                if not re.search(UNCLEAR, str(error)):
                    self.assertFalse(is_right, (str(error), source))
                continue
            found = acts.is_atomic(history)
            counts["right" if found else "faulty"] += 1
            self.assertEqual(found, is_right, (source, history))
            kept.append((history, found))
        with self.subTest(**counts):
            self.assertLess(counts["refused"], MANY // 2)
            self.assertGreater(min(counts["right"], counts["faulty"]), MANY // 8)
        if REGSEARCH:
            self.assertEqual(verdicts([history for history, _ in kept], REGSEARCH),
                             [each for _, each in kept])

    def test_what_is_refused(self) -> None:
        begin = "process,start,end,op,key,value,revision,gave,ok,outcome\n1,1,2,create,k,a,,5,,ok\n"
        for rows, words in [
                ("1,3,4,put,k,b,,,,ok\n", "this put doesn't tell the revision that it gave: let each put"),
                ("1,3,4,put,k,b,,5,,ok\n", "two puts to k gave the revision 5"),
                ("1,3,4,put,k,b,,4,,ok\n", "names the revision 4, and what named 5, at line 2, had ended"),
                ("1,3,9,putif,k,b,5,9,,ok\n2,4,8,put,k,c,,7,,ok\n3,5,7,drop,k,1,,,,ok\n",
                 "met the revision 5 and gave 9, and the key had the revision 7 too"),
                ("1,3,4,delete,k,1,,,,ok\n", "say --ops WORD=count-delete if that is how many values there"),
                ("1,3,4,delete,k,7,,,,ok\n", "has the value 7: say --ops WORD=delete-if"),
                ("1,3,4,drop,k,0,,6,,ok\n", "has the revision 6, and doesn't tell that it found a value"),
                ("1,3,4,drop,k,1,,5,,ok\n", "gave the revision 5, and so did another change"),
                ("1,3,4,delete,k,,5,,,ok\n", "a delete has the version 5: say --ops WORD=delete-if"),
                ("1,3,4,fetch-delete,k,a,,,,ok\n", "this delete of k asks for a value, or is answered one"),
                ("1,3,,put,k,b,,,,unknown\n2,3,,put,k,b,,,,unknown\n3,4,5,get,k,b,7,,,ok\n",
                 "several puts of unknown outcome may have given the revision 7")]:
            with self.subTest(rows):
                self.assertIn(words, run(begin + rows, "csv", *OPTIONS).told)

    def test_what_revisions_tell_of_overlaps(self) -> None:
        """A put and what begins by a create overlap, and so do deletes. Which came first?"""
        begin = "process,start,end,op,key,value,revision,gave,ok,outcome\n"
        unclear = "gave the revision 6 of k while the one of line 2 gave 5, and a delete came"
        for rows, words in [
                ("1,1,9,create,k,a,,5,,ok\n2,2,8,create,k,b,,6,,ok\n3,3,7,drop,k,1,,,,ok\n", ""),
                ("1,1,9,put,k,a,,5,,ok\n2,2,8,put,k,b,,6,,ok\n3,3,7,drop,k,1,,,,ok\n", ""),
                ("1,1,9,put,k,a,,5,,ok\n2,2,8,put,k,b,,6,,ok\n", ""),
                ("1,1,9,put,k,a,,5,,ok\n2,2,8,create,k,b,,6,,ok\n3,3,7,drop,k,1,,,,ok\n", unclear),
                ("1,1,9,create,k,a,,5,,ok\n2,2,8,put,k,b,,6,,ok\n3,3,7,drop,k,1,,,,ok\n", unclear),
                ("1,1,3,create,k,a,,5,,ok\n2,2,8,put,k,b,,6,,ok\n3,4,7,drop,k,1,,,,ok\n", ""),
                ("1,1,9,put,k,a,,5,,ok\n2,2,8,create,k,b,,7,,ok\n3,3,7,drop,k,1,,6,,ok\n", ""),
                ("1,1,9,create,k,a,,5,,ok\n2,2,8,put,k,b,,7,,ok\n3,3,7,drop,k,1,,6,,ok\n", ""),
                ("1,1,9,put,k,a,,5,,ok\n2,2,8,create,k,b,,6,,ok\n3,3,7,drop,k,1,,,,ok\n"
                 "4,10,11,get,k,b,6,,,ok\n", "")]:
            with self.subTest(rows):
                self.assertIn(words, run(begin + rows, "csv", *OPTIONS).told)

    def test_faults_that_a_history_shows(self) -> None:
        """Lost updates, and reads of old values: where no delete hides them, nothing is refused."""
        begin = "process,start,end,op,key,value,revision,gave,ok,outcome\n1,1,2,create,k,a,,5,,ok\n"
        for rows in ("1,3,9,putif,k,b,5,9,,ok\n2,4,8,putif,k,c,5,7,,ok\n",
                     "1,3,9,putif,k,b,5,9,,ok\n2,4,8,put,k,c,,7,,ok\n",
                     "1,3,4,put,k,b,,9,,ok\n2,5,6,get,k,a,5,,,ok\n",
                     "1,3,8,put,k,b,,7,,ok\n2,4,9,put,k,c,,9,,ok\n3,5,6,get,k,c,9,,,ok\n"
                     "3,7,10,get,k,b,7,,,ok\n"):
            with self.subTest(rows):
                self.assertFalse(acts.is_atomic(history_of(begin + rows, "csv", *OPTIONS)))

    def test_what_overlaps_becomes_shorter(self) -> None:
        """The put that gave 6 began first and ended first, and came second."""
        history = history_of("process,start,end,op,key,value,revision,gave,ok,outcome\n"
                             "1,1,5,put,k,b,,6,,ok\n2,2,9,put,k,a,,5,,ok\n3,3,7,drop,k,1,,,,ok\n",
                             "csv", *OPTIONS, "--clock-unit", "ns")
        lines = [(row["process"], row["event"], row["time"]) for row in map(json.loads, history.splitlines())]
        self.assertEqual(lines, [(2, "call", 2), (1, "call", 2), (3, "call", 3), (2, "reply", 5),
                                 (1, "reply", 5), (3, "reply", 7)])


if __name__ == "__main__":
    unittest.main()
