"""Puts by version: their histories are as linearizable as what `regkit convert` makes of them.

    REGKIT_VERSIONS=20000 nice python3 -m unittest tests.test_convert_versions    more, in some minutes
"""
import json
import os
import random
import unittest
from typing import Any, Callable, Dict, List, NamedTuple, Tuple

from regkit.convert.model import Refused
from tests.convert_support import history_of, run, short
from tests.search_sources import find_regsearch, verdicts
from tests.sequential import Asked, Done, State, Store, history_of as random_history
from tests.sequential import is_atomic, is_linearizable

MANY = int(os.environ.get("REGKIT_VERSIONS", "2000"))
REGSEARCH = find_regsearch()
START: State = ("", 0)  # a value and its version


class Put(NamedTuple):
    value: str
    version: int  # that it asks for
    tells: bool  # whether its answer has the version that it gave or found


def versioned(after: Callable[[Any], List[Any]]) -> Store:
    """A key of which a put gives one of the versions after the one that it has."""
    def store(state: State, asked: Asked) -> List[Tuple[State, Any]]:
        op, put = asked
        if op == "get":
            return [(state, state)]
        if put.version != state[1]:
            return [(state, ("missed", state[1] if put.tells else None))]
        return [((put.value, version), ("ok", version if put.tells else None)) for version in after(state[1])]

    return store


def by_one(version: int) -> List[int]:
    return [version + 1]


def skipping(version: int) -> List[int]:
    return [version + 1, version + 2, version + 4]


def any_greater(done: List[Done]) -> Callable[[Any], List[Any]]:
    """Any version that the history names, or one between this and the next one that it names."""
    named = {0}
    for each in done:
        named |= {each.asked[1].version} if each.asked[1] else set()
        named |= {each.answer[1] or 0} if each.answer else set()
    return lambda version: [version + 0.001, *(each for each in sorted(named) if each > version)]


def made(chance: random.Random, skips: bool, tells: float) -> List[Done]:
    """A history, right or with one answer changed."""
    def ask(state: State) -> Asked:
        if chance.random() < 0.4:
            return "get", None
        version = chance.choice([state[1]] * 6 + [state[1] + 1, max(0, state[1] - 1), 0])
        return "put", Put(chance.choice("aab"), version, chance.random() < tells)

    done = random_history(chance, versioned(skipping if skips else by_one), START, ask)
    return changed(done, chance) if chance.random() < 0.6 else done


def changed(done: List[Done], chance: random.Random) -> List[Done]:
    answered = [place for place, each in enumerate(done) if each.outcome == "ok"]
    if not answered:
        return done
    place = chance.choice(answered)
    (said, version), put = done[place].answer, done[place].asked[1]
    if put is None:
        version = max(0, version + chance.choice([-2, -1, 0, 0, 1]))
        answer: Any = (chance.choice("ab") if version else "", version)
    else:
        said = {"ok": "missed", "missed": "ok"}[said]
        answer = said, (put.version + (said == "ok") if put.tells else None)
        if put.tells and said == "missed":
            answer = said, put.version + 1
    return done[:place] + [done[place]._replace(answer=answer)] + done[place + 1:]


# ---- the forms


def _ended(each: Done) -> str:
    return str(each.answer[0]) if each.outcome == "ok" and each.asked[1] else each.outcome


def porcupine(done: List[Done]) -> str:
    errors = {"ok": "OK", "missed": "ErrVersion", "fail": "ErrLeader", "unknown": "ErrMaybe"}
    rows = []
    for each in done:
        put = each.asked[1]
        given = {"Value": put.value, "Version": put.version} if put else {}
        told: Dict[str, Any] = {"Err": errors[_ended(each)]}
        if put is None and each.outcome == "ok":
            told.update(zip(("Value", "Version"), each.answer))
            told.update({} if each.answer[1] else {"Err": "ErrNoKey"})
        elif put and each.answer:
            told["Version"] = each.answer[1] or 0
        rows.append({"ClientId": each.client, "Input": {"Op": each.asked[0], "Key": "k", **given},
                     "Call": each.start, "Output": told, "Return": each.end})
    return "\n".join(map(json.dumps, rows))


def operations(done: List[Done]) -> str:
    """An object for each operation, which has no place for the version that a put gave."""
    rows: List[Dict[str, Any]] = []
    for each in done:
        put = each.asked[1]
        found = each.answer if each.outcome == "ok" else (None, None)
        value, version = (put.value, put.version) if put else found
        create = put is not None and not put.version and each.start % 2
        rows.append({"process": each.client, "start": each.start, "end": each.end, "register": "k",
                     "op": "create" if create else each.asked[0], "value": value or None,
                     "rev": None if create else version or (None if put is None else 0),
                     "outcome": _ended(each)})
    return "\n".join(map(json.dumps, rows))


def table(done: List[Done]) -> str:
    rows = [json.loads(line) for line in operations(done).splitlines()]
    lines = [",".join("" if each is None else str(each) for each in row.values()) for row in rows]
    return "\n".join([",".join(rows[0]), *lines])


class Way(NamedTuple):
    """How a source is written, and how versions are there."""

    form: str
    write: Callable[[List[Done]], str]
    member: str
    tells: float  # how many answers to puts have a version
    options: Tuple[str, ...] = ()


WAYS = {
    "porcupine's operations": Way("porcupine", porcupine, "Version", 0.5, (
        "--ok-when", "Err=OK", "--outcomes", "ErrVersion=missed,ErrLeader=fail", "--null", ",ErrNoKey")),
    "operations": Way("operations", operations, "rev", 0.0),
    "csv": Way("csv", table, "rev", 0.0),
}


class Versions(unittest.TestCase):
    def check(self, option: str) -> None:
        """By all orders of the puts and gets, and by all orders of what they are converted to."""
        kept: List[Tuple[str, bool]] = []
        for name, way in WAYS.items():
            chance = random.Random(name + option)
            refused = faulty = 0
            for _ in range(MANY // 2 // len(WAYS)):
                done = made(chance, option == "--revisions", way.tells)
                if not done:
                    continue
                source = way.write(done)
                try:
                    history = history_of(source, way.form, *way.options, option, way.member,
                                         "--values", "exact")
                except Refused as error:
                    refused += 1
                    self.assertRegex(str(error), "which no operation names|asks for the version")
                    continue
                after = any_greater(done) if option == "--revisions" else by_one
                expected = is_linearizable(done, versioned(after), START)
                faulty += not expected
                kept.append((history, expected))
                self.assertEqual(is_atomic(history), expected, (name, source, history))
            with self.subTest(name):
                self.assertLess(refused, MANY / len(WAYS) / 4)
                self.assertGreater(faulty, MANY / len(WAYS) / 16)
        if REGSEARCH:
            self.assertEqual(verdicts([history for history, _ in kept], REGSEARCH),
                             [is_right for _, is_right in kept])

    def test_versions_go_up_by_one(self) -> None:
        self.check("--versions")

    def test_versions_skip_numbers(self) -> None:
        self.check("--revisions")


# Puts by version and gets in a short form, and whether a store may answer so. Rows of a process, an operation
# and its answer stand in order; a reply stands where its process is named alone.
ROWS: List[Tuple[List[str], bool]] = [
    (["1 put 7 0", "2 put 8 0", "1 OK", "2 ErrVersion", "3 get", "3 7 1", "3 put 9 1", "3 ErrMaybe", "1 get",
      "1 9 2"], True),
    (["1 put 7 0", "2 put 8 0", "1 OK", "2 ErrMaybe", "3 get", "3 8 1"], False),
    (["1 put 7 0", "1 ErrMaybe", "2 put 8 0", "2 ErrVersion", "3 put 9 1", "3 OK", "1 get", "1 9 2"], True),
    (["1 put 7 0", "1 ErrMaybe", "2 put 8 0", "2 ErrVersion", "3 get", "3 ErrNoKey"], False),
    (["1 put 7 0", "2 put 8 0", "1 OK", "2 OK"], False),
    (["1 put 7 0", "1 OK", "2 get", "2 7 1", "2 get", "2 7 2"], False),
]
LAB = ("--ok-when", "Err=OK", "--outcomes", "ErrVersion=missed,ErrNoKey=missed", "--null", ",ErrNoKey")


def rows(lines: List[str]) -> str:
    """Porcupine's operations as JSON, as a tester of MIT 6.5840 would write them."""
    made_of: Dict[str, Dict[str, Any]] = {}
    done: List[Dict[str, Any]] = []
    for time, line in enumerate(lines):
        process, *words = line.split()
        if words[0] in ("put", "get"):
            given: Dict[str, Any] = dict(zip(("Op", "Value"), words))
            given.update({"Version": int(words[2])} if len(words) > 2 else {})
            made_of[process] = {"ClientId": int(process), "Input": {"Key": "x", **given}, "Call": time}
            done.append(made_of[process])
        else:
            told: Dict[str, Any] = {"Err": words[0]}
            if len(words) > 1:
                told = {"Err": "OK", "Value": words[0], "Version": int(words[1])}
            made_of[process].update(Output=told, Return=time)
    return "\n".join(map(json.dumps, done))


PUT = {"ClientId": 0, "Input": {"Op": "put", "Key": "x", "Value": "a", "Version": 3}, "Call": 1,
       "Output": {"Err": "OK"}, "Return": 2}


def changed_put(**members: Any) -> str:
    """A put of which some members are others."""
    return json.dumps({**PUT, **members})


REFUSED: List[Tuple[str, Tuple[str, ...], str]] = [
    (changed_put(Output={"Err": "OK", "Version": 7}), ("--versions", "Version"),
     "asks for the version 3 and gave the next one: if versions may skip numbers, say --revisions in place"),
    (changed_put(Output={"Err": "OK", "Version": 3}), ("--revisions", "Version"),
     "asks for the version 3 and gave a greater one, if versions go up"),
    (changed_put(Output={"Err": "ErrVersion", "Version": 3}), ("--versions", "Version"),
     "asks for the version 3 and missed a put of this version"),
    (changed_put(Output={"Err": "late", "Version": 3}), ("--versions", "Version"), "so it gave none"),
    (changed_put(Output={"Err": "late"}), ("--revisions", "Version"),
     "a put of unknown outcome asks for version 3, which no operation names that certainly took place"),
    (changed_put() + "\n" + changed_put(Input={"Op": "cas", "Key": "x", "From": "a", "To": "b"},
                                        Output={"Ok": True, "Err": "OK"}), ("--versions", "Version"),
     "this cas of x asks for no version, and others do"),
    (changed_put(Input={"Op": "get", "Key": "x"}, Output={"Err": "OK", "Value": "a", "Version": 0}),
     ("--versions", "Version"), "a get found a and version 0: let it have the version of the value that"),
    (changed_put(Input={"Op": "create", "Key": "x", "Value": "a", "Version": 3}),
     ("--versions", "Version", "--ops", "create=create"), "the input of a create has the version 3"),
]


class Words(unittest.TestCase):
    def test_rows(self) -> None:
        for lines, expected in ROWS:
            for option in ("--versions", "--revisions"):
                if option == "--versions" or not any("ErrMaybe" in line for line in lines):
                    history = history_of(rows(lines), "porcupine", option, "Version", *LAB)
                    self.assertEqual(is_atomic(history), expected, (option, lines))

    def test_values_are_judged_too(self) -> None:
        """Versions alone, and values alone, may be right where both together aren't."""
        source = rows(ROWS[1][0])
        for options in [("--versions", "Version", "--ignore-member", "Value"),
                        ("--ignore-member", "Version")]:
            self.assertTrue(is_atomic(history_of(source, "porcupine", *options, "--ok-when", "Err=OK")))

    def test_the_lines(self) -> None:
        ran = run(rows(ROWS[0][0]), "porcupine", "--versions", "Version", *LAB)
        self.assertEqual(short(ran.history), [
            "1 c x None 1", "2 c x None 2", "1 True", "2 False", "3 r x", "3 = 1", "3 c x 1 3", "1 r x",
            "1 = 3"])
        texts = [text for event in ran.events for text in event.get("texts", {}).values()]
        self.assertEqual(texts, ["[1 7]", "[1 8]", "[2 9]"])

    def test_a_put_that_cannot_have_taken_place(self) -> None:
        ran = run(rows(ROWS[1][0]), "porcupine", "--versions", "Version", *LAB)
        self.assertEqual(short(ran.history), ["1 c x None 1", "1 True", "3 r x", "3 = 2"])
        self.assertIn("left out 1 put of unknown outcome that can't have taken place, since the version has",
                      ran.told)

    def test_what_is_refused(self) -> None:
        for source, options, words in REFUSED:
            with self.subTest(words):
                ran = run(source, "porcupine", *options, *LAB)
                self.assertEqual(ran.status, 2, ran.history)
                self.assertIn(words, ran.told)

    def test_options_that_do_not_fit(self) -> None:
        for options, words in [(("--versions", "a", "--revisions", "b"), "say one of them"),
                               (("--versions", "a", "--initial", "5"), "a key starts without a value"),
                               (("--columns", "event=what", "--versions", "a"), "a row for each event")]:
            ran = run("process,what,op,value,a\n", "csv", *options)
            self.assertEqual(ran.status, 3, ran.told)
            self.assertIn(words, ran.told)

    def test_the_option_is_named(self) -> None:
        for name, option in [("version", "--versions version"), ("mod_revision", "--revisions mod_revision")]:
            ran = run(f"process,start,end,op,value,{name}\n1,1,2,put,a,3\n", "csv")
            self.assertEqual(ran.status, 2)
            self.assertIn(f"{option} if a put takes place only if its key has this version", ran.told)

    def test_a_get_without_a_version(self) -> None:
        """It found nothing, or it is refused."""
        for value, version, options, words in [
                ("", "", (), None), ("", "0", (), None), ("a", "", (), "a get found a and no version"),
                ("a", "0", (), "a get found a and version 0"),
                ("", "3", (), "a get found no value and version 3"),
                ("", "0", ("--ignore-member", "value"), None),
                ("a", "", ("--ignore-member", "value"), "the answer to a get has no version in version")]:
            ran = run(f"process,start,end,op,value,version\n1,1,2,get,{value},{version}\n", "csv",
                      "--versions", "version", *options)
            with self.subTest(value=value, version=version, options=options):
                self.assertIn(words or "read 1 operation", ran.told)
                self.assertEqual(short(ran.history), [] if words else ["1 r x", "1 = None"])

    def test_a_table_has_to_say_whether_a_put_took_place(self) -> None:
        for end, status in [("", 2), (",ok", 0), (",missed", 0)]:
            header = "process,start,end,op,value,version" + (",outcome" if end else "")
            ran = run(f"{header}\n1,1,2,put,a,3{end}\n", "csv", "--versions", "version")
            self.assertEqual(ran.status, status, ran.told)


if __name__ == "__main__":
    unittest.main()
