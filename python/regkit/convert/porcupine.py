"""Porcupine's histories: its logs of a key-value store, Jepsen's console lines, and its Go values as JSON.

Its logs are EDN, read as Jepsen's are, with the key in a member of its own and texts for values:

    {:process 0, :type :invoke, :f :put, :key "5", :value "a b"}

Go's `porcupine.Operation` and `porcupine.Event` have no file form of their own. Written by encoding/json, one
a line or in one array, they look like this; the letters of a member's name may be of any case:

    {"ClientId":0,"Input":{"Op":"put","Key":"x","Value":"a"},"Call":10,"Output":{},"Return":20}
    {"ClientId":0,"Kind":false,"Value":{"Op":"get","Key":"x"},"Id":7}

A cas has From and To, and Ok in its output. Inputs with Arg1 and Arg2 are those of Porcupine's model of etcd,
in which Op 2 is a cas (etcd).
"""
from decimal import Decimal
from typing import Any, Iterable, Optional

from regkit.convert import etcd, jepsen, versions
from regkit.convert.json_values import is_json, json_values
from regkit.convert.members import KeyMember, Known, Members, Outcomes, by_folded_name, ok_of
from regkit.convert.model import (ANSWERED, CAS, CONDITIONAL, COUNT_DELETE, CREATE, DELETE, LOCK, READS,
                                  STATED, UNASKED, UNLOCK, WRITES, Choices, Refused, Source, SourceOperation,
                                  WrongWords)
from regkit.convert.pairing import Pairing
from regkit.convert.rows import client_of
from regkit.convert.settle import settle
from regkit.convert.spellings import spelled
from regkit.convert.timed import TimedOperations

# Operations in Porcupine's models: the key-value model has numbers, the register says whether it is a read.
_OPS = {"0": "get", "1": "put", "2": "append", "true": "get", "false": "put"}
_READS_BY_HABIT = {"0": "0=write,1=read", "true": "true=write,false=read"}  # and --ops for the contrary
_KINDS = {"call": True, "callevent": True, "false": True, "0": True,
          "return": False, "returnevent": False, "true": False, "1": False}
_END_OF_TIME = 2 ** 63 - 1  # math.MaxInt64, which stands for no return


def from_porcupine(lines: Iterable[str], choices: Choices) -> Source:
    """Tells the forms apart by what they begin with."""
    found, everything = is_json(lines)
    if choices.versions is not None and not found:
        raise WrongWords(versions.not_of("log"))
    return _Values(choices).source(everything) if found else jepsen.from_edn_or_log(everything, choices)


class _Values:
    """Go's values, as they are read."""

    def __init__(self, choices: Choices) -> None:
        self.choices = choices
        self.timed = TimedOperations()
        self.pairing = Pairing()
        self.outcomes = Outcomes(choices)
        self.key = KeyMember(choices)
        self.known = {place: Known(choices, place) for place in (
            "operation", "event", "input", "output", "cas input", "cas output", "etcd input", "etcd output")}
        if choices.versions is not None:
            for place in ("input", "output"):
                self.known[place] = Known(choices, place, [choices.versions])
        self.etcd: set[SourceOperation] = set()  # those of the model of etcd
        self.etcd_said: dict[bool, int] = {}

    def source(self, lines: Iterable[str]) -> Source:
        for line, value in json_values(lines):
            if not isinstance(value, dict):
                raise Refused("no operation and no event: an object is expected", line)
            members = by_folded_name(value, line)
            if "kind" in members:
                self._take_event(value, members, line)
            elif "call" in members:
                self._take_operation(value, members, line)
            else:
                raise Refused("neither an operation with Call and Return nor an event with Kind, but "
                              f"{', '.join(value)}", line)
            if self.pairing.steps and self.timed.operations:
                raise Refused("events and operations in one file: give each a file of its own", line)
        source = Source(self.pairing.steps) if self.pairing.steps else self.timed.source(self.choices)
        source.notes.extend(self.outcomes.notes())
        settle(source, self.choices)
        return source

    def _operation(self, line: int, client: Any, given: Any) -> SourceOperation:
        """The operation that an input describes."""
        found = by_folded_name(given, line) if isinstance(given, dict) else {}
        if found.get("op") is None:
            raise Refused("the input has no member Op: let it have Op (get or put), Key and Value, exported, "
                          "so that Go's encoding/json writes them", line)
        word = spelled(found["op"]).lower()
        kind = self.choices.kind_of(word)
        if "arg1" in found or "arg2" in found:
            self.known["etcd input"].check(given, line)
            kind, value = etcd.asked(kind, found, line)
            operation = SourceOperation(line, client, kind, self.key.of(found, line), value)
            self.etcd.add(operation)
            return operation
        self.known["cas input" if kind == CAS else "input"].check(given, line)
        key = self.key.of(found, line)
        if kind == CAS:
            return SourceOperation(line, client, kind, key, _swap(found, line))
        kind = _OPS.get(word, word) if kind == word else kind
        if self.choices.versions is not None and kind in WRITES | {CREATE}:
            return self._put(line, client, kind, found)
        if word in _READS_BY_HABIT and word not in self.choices.ops and not _is_zero(found.get("value")):
            raise Refused(f"Op {word} is a get in Porcupine's models, and this input has a value to write, "
                          f"{spelled(found['value'])[:40]}: say which operation each Op is, as in "
                          f"--ops {_READS_BY_HABIT[word]}", line)
        if self.choices.versions is not None:
            versions.refuse_asked(found.get(self.choices.versions), line)
        is_none = kind in UNASKED | {DELETE, LOCK, UNLOCK} and _is_zero(found.get("value"))
        return SourceOperation(line, client, kind, key, None if is_none else found.get("value"))

    def _put(self, line: int, client: Any, kind: str, found: Members) -> SourceOperation:
        """A put by version; to create is one by version 0."""
        member, value = self.choices.versions or "", found.get("value")
        value = None if "value" in self.choices.ignored else value
        put = SourceOperation(line, client, "write", self.key.of(found, line), value)
        given = found.get(member, 0 if kind == CREATE else None)
        put.version = versions.asked(given, member, line)
        if kind == CREATE and put.version:
            raise Refused(f"the input of a create has the version {put.version}, and it takes place only if "
                          "there is none", line)
        return put

    def _end_put(self, put: SourceOperation, ending: Optional[str], members: Members,
                 line: int) -> Optional[str]:
        """How a put by version ended, and which version it gave or found."""
        if ending == "reply":
            ending = self._end_cas(members, line)
        given = members.get(self.choices.versions or "")
        put.told_version = versions.told(given, put.version or 0, ending, self.choices, line)
        return ending

    def _end(self, operation: SourceOperation, output: Any, beside: Members, line: int) -> Optional[str]:
        """Gives an operation its answer, the output or its member Value. Returns the operation's ending."""
        members: Members = {} if output is None else {"output": output}
        is_etcd, is_cas = operation in self.etcd, operation.kind in CONDITIONAL
        if isinstance(output, dict):
            place = "etcd output" if is_etcd else "cas output" if is_cas else "output"
            self.known[place].check(output, line)
            members = by_folded_name(output, line)
        _agree(beside, members, line)
        answers = operation.kind in ANSWERED
        ending, found_nothing = self.outcomes.of({**beside, **members}, answers)
        if ending == "reply" and is_etcd:
            ending, members = etcd.ended(operation, members, self.etcd_said, line)
        if operation.version is not None:
            return self._end_put(operation, ending, {**beside, **members}, line)
        if ending != "reply":
            return ending
        if is_cas:
            return self._end_cas({**beside, **members}, line)
        if answers and not found_nothing:
            self._answer(operation, members, line)
        elif operation.kind in STATED | {DELETE} and not self.choices.explains("output", "value"):
            operation.answer = _written(members)
        elif operation.kind == COUNT_DELETE:
            operation.answer = members.get("value", members.get("output"))
        return ending

    def _answer(self, get: SourceOperation, members: Members, line: int) -> None:
        """What a get gave, with its version."""
        version = self.choices.versions
        if version is None or "value" not in self.choices.ignored:
            get.answer = self._read(members, line)
        if version is not None:
            get.version = versions.found(members.get(version), version, line)

    def _refuse_answer(self, operation: SourceOperation, members: Members, line: int) -> None:
        """An operation without Return may have an output, but none that says what it found."""
        output = members.get("output")
        told = by_folded_name(output, line) if isinstance(output, dict) else {"output": output}
        found = _written(told) if operation.kind in READS else ok_of(told.get("ok")) or None
        if found is not None and self.outcomes.of({**_beside(members), **told}, False).ending == "reply":
            raise Refused(f"the operation has an answer, {spelled(found)[:40]}, and no Return: write the "
                          "time of the answer, or no answer if there was none", line)

    def _end_cas(self, members: Members, line: int) -> str:
        """By Ok, unless the options say which words mean that it took place."""
        took_place, answer = ok_of(members.get("ok")), _written(members)
        by_words = (took_place is None or self.choices.explains("ok")) and self.outcomes.say(members)
        if took_place is None and not by_words:
            raise Refused("the output of a cas has no Ok, true or false: write true if it took place, and "
                          "false if the store found another value, or say --ok-when MEMBER=WORD,.. with the "
                          "words by which it took place", line)
        if answer is not None and not self.choices.explains("output", "value"):
            raise Refused(f"the output of a cas has the value {spelled(answer)[:40]}: say --ignore-member "
                          "Value if it means nothing", line)
        return "reply" if took_place or by_words else "missed"

    def _read(self, members: Members, line: int) -> Any:
        for name in ("value", "output"):
            if name in members:
                return members[name]
        raise Refused("the output of a get has no member Value: write one, exported and without omitempty, "
                      "or null there if the get found none; leave out Return if it had no answer", line)

    def _take_event(self, event: Members, members: Members, line: int) -> None:
        word = spelled(members["kind"]).lower()
        if word not in _KINDS:
            raise Refused(f"Kind is {word}, and call or return (false or true) is expected", line)
        self.known["event"].check(event, line)
        client, identity = _client(members), members.get("id")
        shared = None if identity is None else ("id", spelled(identity))
        if _KINDS[word]:
            self.pairing.call(self._operation(line, client, members.get("value")), shared)
            return
        called = self.pairing.called(client, line, shared)
        if "clientid" in members and called.client != client:
            raise Refused(f"ClientId is {spelled(client)[:40]}, and the call with this Id, at line "
                          f"{called.line}, has {spelled(called.client)[:40]}: give each operation an Id of "
                          "its own", line)
        ending = self._end(called, members.get("value"), _beside(members), line)
        self.pairing.end(line, client, ending, called.answer, shared)

    def _take_operation(self, value: Members, members: Members, line: int) -> None:
        """An operation without Return, or with none before the end of time, has an unknown outcome."""
        self.known["operation"].check(value, line)
        operation = self._operation(line, _client(members), members.get("input"))
        end = members.get("return")
        if end is not None and end != _END_OF_TIME:
            operation.ending = self._end(operation, members.get("output"), _beside(members), line)
        else:
            self._refuse_answer(operation, members, line)
        self.timed.add(operation, members["call"], end, ("Call", "Return"))


def _swap(given: Members, line: int) -> tuple[Any, Any]:
    """What a cas asks for and what it writes."""
    if "from" not in given or "to" not in given or not _is_zero(given.get("value")):
        raise Refused("the input of a cas has From and To, and no Value", line)
    return given["from"], given["to"]


def _client(members: Members) -> Any:
    return client_of(members.get("clientid", 0), False)


def _beside(members: Members) -> Members:
    """What stands beside the value in a line."""
    return {name: value for name, value in members.items() if name not in ("value", "output")}


def _agree(beside: Members, members: Members, line: int) -> None:
    """What stands both in a line and in its output is alike there."""
    for name in beside.keys() & members.keys():
        if beside[name] is not None and spelled(beside[name]) != spelled(members[name]):
            raise Refused(f"{name} is {spelled(beside[name])[:40]}, and {spelled(members[name])[:40]} in the "
                          "output: write one of them", line)


def _is_zero(value: Any) -> bool:
    """Whether it is what Go writes of a field that nobody gave a value."""
    return value is None or value == "" or (type(value) in (int, Decimal) and value == 0)


def _written(members: Members) -> Any:
    """What a put's output says of the value that it wrote, if anything."""
    value = members.get("value", members.get("output"))
    return None if _is_zero(value) else value
