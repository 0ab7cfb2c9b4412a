"""Appends to texts and lists: their histories are as linearizable as what `regkit convert` makes of them.

    REGKIT_LISTS=20000 nice python3 -m unittest tests.test_convert_lists    more of them, in some minutes
"""
import json
import os
import random
import unittest
from typing import Any, Callable, Dict, List, NamedTuple, Sequence, Tuple

from regkit.convert import edn
from regkit.convert.model import Refused
from tests.convert_support import history_of, run, short
from tests.search_sources import find_regsearch, verdicts
from tests.sequential import Asked, Done, State, history_of as random_history
from tests.sequential import is_atomic, is_linearizable, moments

MANY = int(os.environ.get("REGKIT_LISTS", "2000"))
REGSEARCH = find_regsearch()
# Texts that are appended: some that can be told apart wherever they stand, and some that can't.
CLEAR = [f"x {client} {count} y" for client in range(4) for count in range(6)]
UNCLEAR = ["a", "b", "ab", "ba", "aa", "bb", "aab", "c", "ca", "abc"]
PUT = ["", "", "p;", "p;", "q;", "x 9 9 y"]


def texts(state: State, asked: Asked) -> List[Tuple[State, Any]]:
    """A key with a text, which is empty at first."""
    op, value = asked
    if op == "get":
        return [(state, state)]
    return [(value if op == "put" else state + value, None)]


class Way(NamedTuple):
    """How a source is written, and how the texts of its operations are."""

    form: str
    write: Callable[[List[Done]], str]
    options: Tuple[str, ...] = ()
    has_lists: bool = False  # in place of texts
    has_puts: bool = True


def made(chance: random.Random, way: Way, words: Sequence[str] = CLEAR) -> List[Done]:
    """A history, right or with one answer changed. Each text is appended once, but after a failure."""
    unused = list(words)
    chance.shuffle(unused)

    def ask(_: State) -> Asked:
        dice = chance.random()
        if dice < 0.4:
            return "get", None
        if dice < 0.5 and way.has_puts:
            return "put", chance.choice(PUT)
        return "append", unused.pop() if unused else "y"

    done = random_history(chance, texts, "", ask)
    appended = [each.asked for each in done if each.asked[0] == "append"]
    if chance.random() < 0.3:
        done = [each._replace(asked=chance.choice(appended))
                if each.asked[0] == "append" and each.outcome == "fail" else each for each in done]
    return changed(done, chance) if chance.random() < 0.6 else done


def changed(done: List[Done], chance: random.Random) -> List[Done]:
    """The same with the answer of one get another one."""
    gets = [place for place, each in enumerate(done) if each.asked[0] == "get" and each.outcome == "ok"]
    if not gets:
        return done
    place = chance.choice(gets)
    found = done[place].answer
    asked = [each.asked[1] for each in done if each.asked[1]] or ["z"]
    others = [each.answer for each in done if each.answer]
    answer = chance.choice([
        found + chance.choice(asked), chance.choice(asked), chance.choice(asked) + found, "", "x 3 9 z",
        "".join(chance.sample(asked, min(len(asked), 2))), chance.choice(others or [""]),
        found[:-len(chance.choice(asked))]])
    return done[:place] + [done[place]._replace(answer=answer)] + done[place + 1:]


# ---- the forms


def porcupine_log(done: List[Done]) -> str:
    types = {"ok": "ok", "fail": "fail", "unknown": "info"}
    lines = []
    for is_call, each in moments(done):
        op, value = each.asked
        shown = "nil" if op == "get" and is_call else edn.quote(each.answer if op == "get" and each.answer
                                                                 is not None else value or "")
        lines.append(f"{{:process {each.client}, :type :{'invoke' if is_call else types[each.outcome]}, "
                     f":f :{op}, :key \"k\", :value {shown}}}")
    return "\n".join(lines)


def porcupine_operations(done: List[Done]) -> str:
    rows = [{"ClientId": each.client, "Call": each.start, "Return": each.end,
             "Input": {"Op": each.asked[0], "Key": "k", "Value": each.asked[1] or ""},
             "Output": {"Value": each.answer or "", "Err": {"ok": "OK", "fail": "No"}.get(each.outcome, "?")}}
            for each in done]
    return "\n".join(map(json.dumps, rows))


def table(done: List[Done]) -> str:
    lines = ["process,start,end,op,key,input,output,outcome"]
    lines += [",".join(["" if each is None else str(each) for each in (
        call.client, call.start, call.end, call.asked[0], "k", call.asked[1], call.answer, call.outcome)])
        for call in done]
    return "\n".join(lines)


def elements(text: str) -> List[str]:
    """A text as the list of what it is made of, each of which ends by a sign of its own."""
    parts: List[str] = [""]
    for letter in text:
        parts[-1] += letter
        if letter in "yz;":
            parts.append("")
    return [part for part in parts if part]


def transactions(done: List[Done]) -> str:
    types = {"ok": "ok", "fail": "fail", "unknown": "info"}
    lines = []
    for is_call, each in moments(done):
        op, value = each.asked
        shown = edn.quote(value) if op == "append" else "nil" if is_call or not each.answer else (
            f"[{' '.join(map(edn.quote, elements(each.answer)))}]")
        lines.append(f"{{:process {each.client}, :type :{'invoke' if is_call else types[each.outcome]}, "
                     f":f :txn, :value [[:{'r' if op == 'get' else 'append'} 5 {shown}]]}}")
    return "\n".join(lines)


def events(done: List[Done]) -> str:
    rows: List[Dict[str, Any]] = []
    for is_call, each in moments(done):
        op, value = each.asked
        if is_call:
            given = {} if op == "get" else {"value": elements(value) if op == "put" else value}
            rows.append({"process": each.client, "event": "call", "op": op, "register": "k", **given})
        else:
            found = {"value": elements(each.answer)} if (op, each.outcome) == ("get", "ok") else {}
            rows.append({"process": each.client, "event": "fail" if each.outcome == "fail" else "reply",
                         **found})
    return "\n".join(map(json.dumps, rows))


WAYS = {
    "porcupine's log": Way("porcupine", porcupine_log),
    "porcupine's operations": Way("porcupine", porcupine_operations,
                                  ("--ok-when", "Err=OK", "--outcomes", "No=fail")),
    "csv": Way("csv", table),
    "transactions of one append": Way("jepsen", transactions, (), True, False),
    "events with lists": Way("jsonl", events, ("--null=[]",), True),
}


class Lists(unittest.TestCase):
    def test_each_verdict_is_that_of_the_store(self) -> None:
        """By all orders of the operations on a text, and by all orders of what they are converted to."""
        kept: List[Tuple[str, bool]] = []
        for name, way in WAYS.items():
            chance = random.Random(name)
            refused = faulty = 0
            for _ in range(MANY // len(WAYS)):
                done = made(chance, way, UNCLEAR if chance.random() < 0.2 and not way.has_lists else CLEAR)
                if not any(each.outcome != "fail" for each in done):
                    continue
                source = way.write(done)
                try:
                    history = history_of(source, way.form, *way.options, "--values", "exact")
                except Refused:
                    refused += 1
                    continue
                expected = is_linearizable(done, texts, "")
                faulty += not expected
                kept.append((history, expected))
                self.assertEqual(is_atomic(history), expected, (name, source, history))
            with self.subTest(name):
                self.assertLess(refused, MANY / len(WAYS) / 4)
                self.assertGreater(faulty, MANY / len(WAYS) / 8)
        if REGSEARCH:
            self.assertEqual(verdicts([history for history, _ in kept], REGSEARCH),
                             [is_right for _, is_right in kept])


# Appends and gets in a short form, and whether a store may answer so. Rows of a process, an operation and its
# answer stand in order; a reply stands where its process is named alone.
ROWS: List[Tuple[List[str], bool]] = [
    (["1 append 1", "2 append 2", "1", "2", "3 r", "3 [2 1]", "4 append 3", "3 r", "3 [2 1 3]"], True),
    (["1 append 1", "2 append 2", "3 r", "3 [2]", "3 r", "3 [1]", "1", "2"], False),
    (["1 append 1", "1", "2 append 2", "2", "3 r", "3 [1]"], False),
    (["1 append 1", "1", "2 r", "2 [1 1]"], False),
    (["1 append 1", "2 r", "2 [1]", "2 r", "2 nil"], False),
]


def rows(lines: List[str]) -> str:
    """Jepsen's transactions of one operation."""
    asked: Dict[str, str] = {}
    events = []
    for line in lines:
        process, *rest = line.split(" ", 1)
        is_call = bool(rest) and rest[0][0] in "ar"
        if is_call:
            asked[process] = rest[0] if rest[0] != "r" else "r nil"
        op, value = asked[process].split(" ", 1)
        value = rest[0] if rest and not is_call else value
        events.append(f"{{:process {process}, :type :{'invoke' if is_call else 'ok'}, :f :txn, "
                      f":value [[:{op} :k {value}]]}}")
    return "\n".join(events)


def log(*lines: str) -> str:
    """Porcupine's lines of one client, each a call with its end: `append a` and `get ab`."""
    events = []
    for line in lines:
        op, value = line.split(" ", 1)
        for kind in ("invoke", "ok"):
            shown = "nil" if (op, kind) == ("get", "invoke") else edn.quote(value)
            events.append(f'{{:process 0, :type :{kind}, :f :{op}, :key "k", :value {shown}}}')
    return "\n".join(events)


TWICE = '{"process":1,"event":"call","op":"append","register":"k","value":%s}\n{"process":1,"event":"reply"}\n'
GET = ('{"process":1,"event":"call","op":"get","register":"k"}\n'
       '{"process":1,"event":"reply","value":%s}\n')
REFUSED: List[Tuple[str, str, str]] = [
    ("porcupine", log("append a", "append a"), "line 3: a is appended to k again, and before that at line 1"),
    ("porcupine", log("append a", "append aa", "get aaa"), "line 6: aaa can be made of what is put and"),
    ("porcupine", log("put a", "append a", "get a"), "line 6: a can be made of what is put and"),
    ("porcupine", log("append a", "append b", "get a,b"), "line 6: a get gave a,b, which isn't made of what"),
    ("porcupine", log("append a", 'get "a"'), "but for blanks, quotes and separators it is; record each"),
    ("porcupine", log("append a ", "append b ", "get a b"), "but for blanks, quotes and separators it is"),
    ("porcupine", log("append a", "get none"), "say --null=,none if it stands for none"),
    ("porcupine", log("append a", "cas a").replace('"a"}', '["a" "b"]}'), "beside appends only gets and"),
    ("jsonl", TWICE % 1 + GET % '"1"', "1 is appended to k, and gets give texts"),
    ("jsonl", TWICE % 1 + GET % '["1"]', '"1" is spelled like an element of another kind'),
    ("jsonl", TWICE % 1 + GET % "5", "the value 5 is no text, or no list, as others are"),
    ("jsonl", TWICE % 1 + GET % "[]", "the list is empty: say '--null=[]' if that is the same as no value"),
    ("jsonl", TWICE % "null", "an append of nothing changes nothing"),
    ("jsonl", TWICE.replace('"reply"', '"reply","value":1') % '"a"', "the reply of an append has the value"),
    ("csv", "process,start,end,op,input,output\n1,1,2,append,abc,3\n", "output is 3, which isn't understood"),
]


class Words(unittest.TestCase):
    def test_rows(self) -> None:
        for lines, expected in ROWS:
            self.assertEqual(is_atomic(history_of(rows(lines), "jepsen")), expected, lines)

    def test_what_is_refused(self) -> None:
        for form, source, words in REFUSED:
            with self.subTest(words):
                ran = run(source, form)
                self.assertEqual(ran.status, 2, ran.history)
                self.assertIn(words, ran.told)

    def test_the_lines(self) -> None:
        """Each append has the value that it met and that it left, and one that no get shows is a write."""
        ran = run(log("append a", "get a", "append b", "append c", "get abc", "append d"), "porcupine")
        self.assertEqual(short(ran.history), [
            "0 c k None 1", "0 True", "0 r k", "0 = 1", "0 c k 1 2", "0 True", "0 c k 2 3", "0 True", "0 r k",
            "0 = 3", "0 w k 4", "0 ."])
        self.assertIn("took 3 appends for cas: reads tell from which value to which", ran.told)
        texts = {number: text for event in ran.events for number, text in event.get("texts", {}).items()}
        self.assertEqual(texts, {"1": '"a"', "2": '"ab"', "3": '"abc"', "4": '#appended "d"'})

    def test_a_key_that_is_emptied_starts_with_the_empty_text(self) -> None:
        ran = run(log("get ", "append a", "put ", "get ", "append b", "get b"), "porcupine")
        self.assertEqual(short(ran.history), [
            "0 w k 1", "0 .", "0 r k", "0 = 1", "0 w k 2", "0 .", "0 w k 1", "0 .", "0 r k", "0 = 1",
            "0 c k 1 3", "0 True", "0 r k", "0 = 3"])

    def test_a_get_that_contradicts_the_others(self) -> None:
        """It alone has a value that nobody made."""
        ran = run(log("append a", "append b", "get ba", "get ab", "append c", "get abc"), "porcupine")
        self.assertEqual(short(ran.history), [
            "0 c k None 1", "0 True", "0 c k 1 2", "0 True", "0 r k", "0 = 3", "0 r k", "0 = 2", "0 c k 2 4",
            "0 True", "0 r k", "0 = 4"])

    def test_a_text_that_was_appended_twice(self) -> None:
        """Its first place is where it was appended, so what it makes by the second is made by nobody."""
        ran = run(log("append a", "append b", "get abb"), "porcupine")
        self.assertEqual(short(ran.history), [
            "0 c k None 1", "0 True", "0 c k 1 2", "0 True", "0 r k", "0 = 3"])

    def test_an_append_that_nobody_can_tell_of(self) -> None:
        """It is left out, and its crash stays."""
        lines = rows(["1 append 1", "2 r", "2 nil"]) + "\n" + (
            "{:process 1, :type :info, :f :txn, :value [[:append :k 1]]}")
        ran = run(lines, "jepsen")
        self.assertEqual(short(ran.history), ["2 r :k", "2 = None", "1 crash"])
        self.assertIn("left out 1 append of unknown outcome that no read shows", ran.told)

    def test_long_texts_and_lists(self) -> None:
        """Their lines are short, and no two values have one name."""
        words = [f"x 0 {count} y" for count in range(150)]
        appends = [f"append {word}" for word in words]
        gets = [f"get {''.join(words[:end])}" for end in (100, 150)]
        lists = [f"0 append {count}" if is_call else "0" for count in range(150) for is_call in (True, False)]
        read = ["0 r", f"0 [{' '.join(map(str, range(150)))}]"]
        for form, source in [("porcupine", log(*appends[:100], gets[0], *appends[100:], gets[1])),
                             ("jepsen", rows([*lists, *read]))]:
            history = history_of(source, form)
            texts = [text for line in history.splitlines()
                     for text in json.loads(line).get("texts", {}).values()]
            self.assertEqual((len(set(texts)), len(texts)), (150, 150))
            self.assertLess(max(map(len, history.splitlines())), 400)
            self.assertTrue(is_atomic(history))

    def test_events_with_lists_and_puts(self) -> None:
        put = TWICE.replace("append", "put") % "[7, 8]"
        source = TWICE % 1 + GET % "[1]" + put + TWICE % 2 + GET % "[7,8,2]"
        self.assertEqual(short(history_of(source, "jsonl")), [
            "1 c k None 1", "1 True", "1 r k", "1 = 1", "1 w k 2", "1 .", "1 c k 2 3", "1 True", "1 r k",
            "1 = 3"])

    def test_a_table_of_lists(self) -> None:
        """A cell may have a list as JSON."""
        source = ("process,start,end,op,input,output\n1,1,2,rpush,a,\n1,3,4,rpush,b,\n"
                  '1,5,6,get,,"[""a"",""b""]"\n')
        self.assertEqual(short(history_of(source, "csv", "--ops", "rpush=append")), [
            "1 c x None 1", "1 True", "1 c x 1 2", "1 True", "1 r x", "1 = 2"])


if __name__ == "__main__":
    unittest.main()
