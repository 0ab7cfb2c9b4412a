"""What the members of a source mean. A member is also a column of a table, and a field of a log's line.

A member that isn't understood may say how the operation ended: an error, a version that didn't match, a flag.
To pass over it could make a failed write one that took place, or a read without an answer a read of null. So
each form says here what it understands and what can't say such a thing. Any other member is refused by its
name, until the command line says what it means:

    --ok-when Err=OK        the operation took place only if Err is OK; --outcomes says what other words mean
    --ignore-member Err     Err means nothing
"""
import shlex
from collections import Counter
from functools import lru_cache
from typing import Any, Iterable, Iterator, Mapping, NamedTuple, Optional

from regkit.convert import edn
from regkit.convert.model import ENDINGS, NO_KEY, Choices, Refused, folded
from regkit.convert.spellings import spelled
from regkit.words.phrases import counted

Members = dict[str, Any]

# By form, and for Porcupine by place, the members that its reader understands.
UNDERSTOOD: dict[str, frozenset[str]] = {
    "jepsen": frozenset({"process", "type", "f", "value", "error", "exception"}),
    "operation": frozenset({"clientid", "input", "call", "output", "return"}),
    "event": frozenset({"clientid", "kind", "value", "id"}),
    "input": frozenset({"op", "value"}),
    "output": frozenset({"value"}),
    "cas input": frozenset({"op", "value", "from", "to"}),
    "cas output": frozenset({"value", "ok"}),
    "etcd input": frozenset({"op", "arg1", "arg2"}),
    "etcd output": frozenset({"ok", "exists", "value", "unknown"}),
    "csv": frozenset(),  # a table and objects name their own
    "operations": frozenset(),
    "jsonl": frozenset({"process", "event", "op", "value"}),
    "jsonl's cas": frozenset({"process", "event", "op", "value", "from", "unless", "to", "old"}),
    "jsonl's end of a cas": frozenset({"process", "event", "op", "value", "from", "unless", "to", "ok"}),
    "jsonl's end of a cas that asks": frozenset(
        {"process", "event", "op", "value", "from", "unless", "to", "ok", "old"}),
    "jsonl's end of a read": frozenset({"process", "event", "op", "value", "found"}),
    "jsonl's end of a change": frozenset({"process", "event", "op", "value", "found", "old"}),
}
# The places where a member may be the key.
_JSONL = frozenset(place for place in UNDERSTOOD if place.startswith("jsonl"))
_KEYED = frozenset({"jepsen", "input", "cas input", "etcd input"}) | _JSONL
# By form, members that say who, where and when, and never how an operation ended.
HARMLESS: dict[str, frozenset[str]] = {
    "jepsen": frozenset({"index", "time", "node", "final?"}),
    "csv": frozenset({"index", "node"}),
    "operations": frozenset({"index", "node"}),
    **dict.fromkeys(_JSONL, frozenset({"client", "node", "time"})),
}
# By form, the name of what a write's reply says, for a person.
WRITE_ANSWERS = {"jepsen": "value", "porcupine": "Output", "csv": "value", "operations": "value",
                 "jsonl": "value"}
_ANSWERS = frozenset({"value", "output"})  # what is answered, which is never the outcome
_CALLS = frozenset({"call", "invoke"})  # what says that a line is a call
_LONGEST = 40  # characters of a value that is shown
_VERSIONS = {"version": "--versions", "revision": "--revisions", "modrevision": "--revisions",
             "mod_revision": "--revisions"}  # by name of a member, the option that may say what it is


class Known:
    """Refuses what a place of a form doesn't understand."""

    def __init__(self, choices: Choices, place: str, own: Iterable[str] = (), what: str = "member") -> None:
        self.what = what
        self.register = choices.columns.get("register") if place in ("csv", "operations") else None
        self.place = place
        self.keys = frozenset(choices.key_names() if place in _KEYED else ())
        self.names = (UNDERSTOOD[place] | HARMLESS.get(place, frozenset()) | choices.ignored
                      | choices.ok_when.keys() | {folded(name) for name in own} | self.keys)
        self.seen: set[tuple[Any, ...]] = set()  # the members of lines that were let through

    def refuse(self, members: Mapping[Any, Any], strange: list[Any], line: int) -> None:
        """Raises Refused for members that mean nothing here, if there are any."""
        if strange:
            raise Refused(self._not_understood(members, strange), line)

    def check(self, members: Mapping[Any, Any], line: int) -> None:
        """Raises Refused for the members that aren't understood and aren't null."""
        names = tuple(members)
        if names in self.seen:
            return
        strange = [name for name in names if folded(spelled(name)) not in self.names]
        self.refuse(members, [name for name in strange if members[name] is not None], line)
        by_folded_name(members, line)
        if not strange:
            self.seen.add(names)

    def _not_understood(self, members: Mapping[Any, Any], strange: list[Any]) -> str:
        first, *others = (shlex.quote(spelled(name).lstrip(":")) for name in strange)
        more = f"; likewise {', '.join(others)}" if others else ""
        return (f"the {self.what} {first} isn't understood, and it may tell the outcome (here it is "
                f"{edn.write(members[strange[0]])[:_LONGEST]}): say {self._own_options(first, members)}"
                f"--ok-when {first}=WORD,.. with the words in it by which the operation took place, or "
                f"--ignore-member {first} if it means nothing{more}")

    def _own_options(self, name: str, members: Mapping[Any, Any]) -> str:
        """What else it may be: a column, or a version. To ignore a key would make one register of several."""
        if name == "''":
            return ""
        no_register = self.register is not None and self.register not in members
        return ((f"--columns register={name} if it is the key, " if no_register else "")
                + (f"--key {name} if it is the key, " if self._has_no_key(by_folded_name(members)) else "")
                + (f"--columns outcome={name} if it is the outcome, " if self.what == "column" else "")
                + (f"{_VERSIONS[folded(name)]} {name} if a put takes place only if its key has this version, "
                   if self.place in ("input", "csv", "operations") and folded(name) in _VERSIONS else ""))

    def _has_no_key(self, members: Members) -> bool:
        """Whether it is a call whose key isn't known."""
        what = members.get("event", members.get("type", "call" if self.place.endswith("input") else ""))
        return bool(self.keys) and folded(spelled(what)) in _CALLS and not self.keys & members.keys()


def word_of(value: Any) -> str:
    """A member's value as a person would write it in an option; null is the empty word."""
    return "" if value is None else spelled(value)


class Ended(NamedTuple):
    """How an operation ended that the form takes for completed."""

    ending: Optional[str]  # of the operation, as SourceOperation has it
    found_nothing: bool = False  # a read of null


_WELL = Ended("reply")
_WEAKEST_FIRST = (None, "fail", "missed", "reply")  # the first that a member says holds


class Outcomes:
    """What --ok-when and --outcomes make of operations that the form takes for completed."""

    def __init__(self, choices: Choices) -> None:
        self.choices = choices
        self.unknown: dict[tuple[str, str], int] = Counter()  # by member and its word, how many
        own = {folded(choices.columns[name]) for name in _ANSWERS if name in choices.columns}
        self.answer_names = _ANSWERS | own

    def of(self, members: Mapping[Any, Any], answers: bool) -> Ended:
        """By its members; `answers` if its reply has a value that no call has. What isn't said to be well or
        to have failed is unknown."""
        if not self.choices.ok_when:
            return _WELL
        members = by_folded_name(members)
        endings: set[Optional[str]] = {"reply"}
        for name, well in self.choices.ok_when.items():
            if answers and name in self.answer_names:
                continue
            word = word_of(members.get(name))
            if folded(word) in well:
                continue
            if answers and word and self.names_null(word):
                return Ended("reply", True)
            endings.add(self._ending(name, word))
        return Ended(next(ending for ending in _WEAKEST_FIRST if ending in endings))

    def say(self, members: Mapping[Any, Any]) -> bool:
        """Whether a member of --ok-when has a word. No word says too little of whether a cas took place."""
        members = by_folded_name(members)
        return any(word_of(members.get(name)) for name in self.choices.ok_when)

    def names_null(self, word: str) -> bool:
        return word in self.choices.nulls or word.lstrip(":") in self.choices.nulls

    def _ending(self, name: str, word: str) -> Optional[str]:
        outcome = self.choices.outcomes.get(folded(word))
        if outcome is None:
            self.unknown[name, word] += 1
        return ENDINGS[outcome or "unknown"]

    def notes(self) -> Iterator[str]:
        for (name, word), number in sorted(self.unknown.items()):
            said = f"{name} {word}" if word else f"no {name}"
            yield (f"took {counted(number, 'operation')} with {said} as of unknown outcome: if that means "
                   f"that it certainly had no effect, say --outcomes {shlex.quote(word + '=fail')}")


def ok_of(told: Any) -> Optional[bool]:
    """What a member says of whether a cas took place: true or false, as JSON has them or as texts."""
    if type(told) is str:
        return {"true": True, "false": False}.get(folded(told))
    return told if type(told) is bool else None


def by_folded_name(members: Mapping[Any, Any], line: Optional[int] = None) -> Members:
    """Members by the names under which options have them. Raises Refused if two have one name."""
    found = {_folded(name): value for name, value in members.items()}
    if len(found) < len(members):
        raise Refused(f"two members have one name, among {', '.join(map(spelled, members))}: rename "
                      "one", line)
    return found


@lru_cache(maxsize=10_000, typed=True)
def _folded(name: Any) -> str:
    return folded(spelled(name))


def same_key(one: Any, other: Any) -> bool:
    """Whether two keys are one, neither of them NO_KEY or both."""
    return one is other or (NO_KEY not in (one, other) and edn.write(one) == edn.write(other))


class KeyMember:
    """Finds the key among members. A source has one name for it, the first that it gives."""

    def __init__(self, choices: Choices) -> None:
        self.names = choices.key_names()
        self.name: Optional[str] = None

    def of(self, members: Members, line: int) -> Any:
        """The key by members with folded names; NO_KEY if they have none."""
        found = [name for name in self.names if members.get(name) is not None]
        if not found:
            return NO_KEY
        self.name = self.name or found[0]
        other = next((name for name in found if name != self.name), None)
        if other is not None:
            raise Refused(f"{self.name} is the key in this source, and there is a member {other} too, which "
                          f"is {edn.write(members[other])[:_LONGEST]}: say --key {other} if that is the key, "
                          "and --ignore-member for the one that means nothing", line)
        return members[self.name]
