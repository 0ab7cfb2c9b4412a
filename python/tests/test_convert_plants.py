"""Planted in each form in which a tool writes histories: a member that means failure, a version, an unknown
outcome, and a tie of times.

In each source a write of 1, or a cas from null to 1, is answered, and then null is read. That is a fault if
the write took place before the read, and none if it failed, if nobody knows, or if the two may have
overlapped.
"""
import json
import random
import re
import unittest
from typing import Any, Dict, Iterator, List, NamedTuple, Tuple

from regkit.convert.model import Refused
from tests.convert_sources import CAS_FORMS, VERSION_FORM, Call, Form
from tests.convert_support import history_of
from tests.search_sources import find_regsearch, verdicts

REGSEARCH = find_regsearch()
ROUNDS = 6  # how often each form is written, since a writer varies it
TIMED = ("porcupine's operations", "porcupine's etcd", "porcupine's puts", "csv", "csv in other words",
         "operations", "operations with codes")  # whose order is that of their time stamps
LINES = ("jepsen's history.txt", "jepsen's console")  # which have an error behind the value, and no members
FORMS = {**CAS_FORMS, "porcupine's puts": VERSION_FORM}


def calls(op: str, outcome: str = "ok", read_at: int = 3) -> List[Call]:
    """The write or the cas, from 1 to 2, and the read of null from a later time on."""
    end = None if outcome == "unknown" else 2
    return [Call(0, "a", op, 1, 1, end, outcome), Call(1, "a", "read", None, read_at, read_at + 1, "ok")]


class Source(NamedTuple):
    """A source, with what it is."""

    name: str
    op: str
    form: Form
    text: str

    def history(self, *options: str) -> str:
        return history_of(self.text, self.form.form, *self.form.options, *options)


def sources(outcome: str = "ok", read_at: int = 3) -> Iterator[Source]:
    """Each form, with a write and with a cas, several times. A put by version is a cas."""
    for name, form in FORMS.items():
        for op in ("cas",) if form is VERSION_FORM else ("write", "cas"):
            chance = random.Random(name + op)
            for _ in range(ROUNDS):
                yield Source(name, op, form, form.write(calls(op, outcome, read_at), chance))


# ---- what is planted beside the answer to the write


def planted(source: Source, member: str, value: Any) -> Tuple[str, str]:
    """The source with a member more, and the name by which it is known."""
    text = source.text
    if source.name in LINES:
        return re.sub(r"( :ok .*|\t:ok.*| {6}:ok.*)", rf"\1 {_edn(value)}", text, count=1), "error"
    if source.form.form == "csv":
        return _planted_in_table(text, member, value), member
    if text.lstrip()[0] == "{" and text.lstrip()[1] == ":":
        return re.sub(r"(:type :ok.*)\}", rf"\1, :{member} {_edn(value)}}}", text, count=1), member
    rows = json.loads(text) if text[0] == "[" else [json.loads(line) for line in text.splitlines()]
    place = next(place for place in map(_answer_in, rows) if place is not None)
    place[member] = value
    return "\n".join(map(json.dumps, rows)), member


def _edn(value: Any) -> str:
    return f":{value}" if isinstance(value, str) else str(value)


def _planted_in_table(text: str, member: str, value: Any) -> str:
    header, *rows = text.splitlines()
    delimiter = next(each for each in ",;\t" if each in header)
    is_write = re.compile(r"(?i)\b(write|store|cas|swap)\b")
    return "\n".join([header + delimiter + member,
                      *(f"{row}{delimiter}{value if is_write.search(row) else ''}" for row in rows)])


def _answer_in(row: Dict[str, Any]) -> Any:
    """Where a row, of which only the first counts, tells the answer to the write; None if it doesn't."""
    if "Output" in row:
        return row["Output"] if row["Input"]["Op"] not in (0, "get") else None
    if "Kind" in row:
        return row["Value"] if row["Kind"] is True else None
    if "type" in row:
        return row if row["type"] == "ok" else None
    if "event" in row:
        return row if row["event"] == "reply" else None
    return row if row["op"] != "read" else None


@unittest.skipUnless(REGSEARCH, "bin/regsearch isn't built, and REGSEARCH names none")
class Plants(unittest.TestCase):
    def check(self, found: List[Tuple[Source, str]], expected: Dict[str, bool]) -> None:
        """The verdicts of histories, by the names of their forms; others are faulty."""
        self.assertGreater(len(found), ROUNDS * len(FORMS))
        answers = verdicts([history for _, history in found], REGSEARCH or "")
        for (source, history), answer in zip(found, answers):
            with self.subTest(source.name, op=source.op):
                self.assertEqual(answer, expected.get(source.name, False), (source.text, history))

    def test_without_any(self) -> None:
        """So each test below can fail."""
        self.check([(source, source.history()) for source in sources()], {})

    def test_an_unknown_outcome(self) -> None:
        self.check([(source, source.history()) for source in sources("unknown")], dict.fromkeys(FORMS, True))

    def test_a_failure(self) -> None:
        """By each form's own word; Porcupine's model of etcd has none."""
        self.check([(source, source.history()) for source in sources("fail")
                    if source.name != "porcupine's etcd"], dict.fromkeys(FORMS, True))

    def test_a_tie_of_times(self) -> None:
        """It says nothing of the order, but in a log the order of the lines does."""
        logs = [source._replace(text=re.sub(r'(:time |"time": )\d+', r"\g<1>7", source.text))
                for source in sources() if source.name not in TIMED]
        ties = [source for source in sources(read_at=2) if source.name in TIMED]
        self.check([(source, source.history()) for source in logs + ties], dict.fromkeys(TIMED, True))

    def test_a_member_that_means_failure_and_a_version(self) -> None:
        """Refused by name, until the command line says what they mean."""
        found: List[Tuple[Source, str]] = []
        ignored: List[Tuple[Source, str]] = []
        for source in sources():
            for member, value in (("failed", "late"), ("revision", 7)):
                text, name = planted(source, member, value)
                changed = source._replace(text=text)
                with self.subTest(source.name, op=source.op, member=member):
                    with self.assertRaisesRegex(Refused, f"{name}( isn't understood|\\b.*--ok-when {name}=)"):
                        changed.history()
                    found.append((source, changed.history("--ok-when", f"{name}=")))
                    ignored.append((source, changed.history("--ignore-member", name)))
        self.check(found, dict.fromkeys(FORMS, True))
        self.check(ignored, {})


if __name__ == "__main__":
    unittest.main()
