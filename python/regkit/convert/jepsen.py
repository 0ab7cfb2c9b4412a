"""Histories of Jepsen and Maelstrom, and Porcupine's logs of a key-value store, which have the same form.

One operation is a map or a record of EDN, an object of JSON with the same members, or a line for people:

    {:process 0, :type :invoke, :f :write, :value [3 11], :index 0, :time 12}
    {"process":0,"type":"invoke","f":"write","value":[3,11],"index":0,"time":12}
    INFO  jepsen.util - 0 :invoke :write 11

`:ok` is a reply, `:fail` a failure that certainly had no effect, and `:info` a crash of the client: the
outcome is unknown and the process does nothing more. A cas has [from to] as its value; if its `:fail` says
that the store found another value, `--failed-cas missed` says so. Processes that aren't numbers, such as
:nemesis, are no clients.
"""
import itertools
from collections import Counter
from typing import Any, Iterable, Iterator, Optional

from regkit.convert import edn
from regkit.convert import pairs
from regkit.convert.independent import are_independent, nothing_for, pair_of, part, refuse_another
from regkit.convert.jepsen_lines import NO_OPERATION, line_events
from regkit.convert.json_values import as_edn, is_json, json_values
from regkit.convert.members import Ended, KeyMember, Known, Outcomes, by_folded_name, same_key, word_of
from regkit.convert.model import (ANSWERED, CONDITIONAL, DELETES, ENDINGS, KNOWN, NO_KEY, OTHER, READS,
                                  STATED, Choices, Refused, Source, SourceOperation, folded)
from regkit.convert.pairing import Pairing
from regkit.convert.settle import settle
from regkit.convert.spellings import spelled
from regkit.convert.transactions import refuse_appends, refuse_transactions, take_apart

_NO_KEY = "key-does-not-exist"  # Maelstrom's definite error of a read that found no such key
_OTHER_VALUE = "precondition-failed"  # and that of a cas that missed
_TYPES = {"ok": "reply", "fail": "fail", "info": "crash"}
_TOLD = STATED | CONDITIONAL  # whose calls have their values
_ERRORS = ("error", "exception")
_LONGEST = 40  # characters of an error that is shown

Event = dict[Any, Any]
Events = Iterable[tuple[int, Event]]


def from_jepsen(lines: Iterable[str], choices: Choices) -> Source:
    """Tells JSON, EDN and lines for people by what they begin with."""
    found, everything = is_json(lines)
    if not found:
        return from_edn_or_log(everything, choices)
    return _JepsenLog(choices).source(_json_events(everything))


def from_edn_or_log(lines: Iterable[str], choices: Choices) -> Source:
    """EDN has a map or record a line, or one vector of all; all else is lines for people."""
    rest = iter(lines)
    held: list[str] = []
    for line in rest:
        held.append(line)
        if line.strip():
            break
    first = held[-1].strip() if held else ""
    everything = itertools.chain(held, rest)
    events = _edn_events(everything) if first[:1] in "{[(#;" else line_events(everything)
    return _JepsenLog(choices).source(events)


def _edn_events(lines: Iterable[str]) -> Iterator[tuple[int, Event]]:
    for line, value in edn.values(lines, elements=True):
        if type(value) is edn.Tagged:
            value = value.value
        if not isinstance(value, dict):
            raise Refused("no operation: a map such as {:process 0, :type :invoke, :f :read, :value nil} is "
                          f"expected, and this is {edn.write(value)[:60]}", line)
        yield line, value


def _json_events(lines: Iterable[str]) -> Iterator[tuple[int, Event]]:
    """Objects of JSON as EDN would have them."""
    for line, value in json_values(lines):
        if not isinstance(value, dict):
            raise Refused("no operation: an object such as "
                          '{"process":0,"type":"invoke","f":"read","value":null} is expected', line)
        yield line, {name: as_edn(member) for name, member in value.items()}


class _JepsenLog:
    """Pairs events first, since only all calls together tell whether their values have keys."""

    def __init__(self, choices: Choices) -> None:
        self.choices = choices
        self.pairing = Pairing()
        self.known = Known(choices, "jepsen")
        self.outcomes = Outcomes(choices)
        self.key = KeyMember(choices)
        self.left_out: dict[str, int] = Counter()
        self.refused_cas: list[str] = []  # the error of each that may have failed for another reason
        self.index = -1  # of the last event that had one
        self.time = -1  # likewise, of those without an index

    def source(self, events: Events) -> Source:
        for line, members in events:
            event = by_folded_name(members, line)
            client = event.get("process")
            if type(client) is int:
                self.known.check(members, line)
                self._take(line, client, event)
            else:
                self._leave_out(line, client, event)
        source = Source(self.pairing.steps)
        source.left_out.update(self.left_out)
        source.notes.extend(self.outcomes.notes())
        if self.refused_cas:
            word = min(self.refused_cas, key=len)[:_LONGEST]
            source.notes.append(f"took {len(self.refused_cas):,} cas with an error such as {word} as failed, "
                                "and not as missed: --outcomes ERROR=missed is for an error by which the "
                                "store found another value")
        operations = list(source.operations())
        refuse_appends(operations)
        look_for_keys = pairs.have_keys if self.choices.drop_versions else are_independent
        independent = look_for_keys(operations, self.choices)
        for operation in operations:
            _place(operation, independent, self.choices)
        self._look_at_versions(source, operations)
        settle(source, self.choices)
        return source

    def _look_at_versions(self, source: Source, operations: list[SourceOperation]) -> None:
        """Takes versions out of the values, if there are any."""
        if not self.choices.drop_versions:
            pairs.refuse_versions(operations, self.choices)
            return
        for operation in operations:
            pairs.drop_versions(operation)
        source.notes.append(pairs.NOTE)

    def _leave_out(self, line: int, client: Any, event: Event) -> None:
        """Counts a line that is no client's. A client's would be missed, so it isn't left out."""
        function = self.choices.kind_of(folded(spelled(event.get("f"))))
        is_clients = function in KNOWN or function in (OTHER, "txn") or _is_clients(event.get("type"))
        if folded(spelled(client)) != "nemesis" and is_clients:
            raise Refused(f":process is {edn.write(client)}, and its :f is {edn.write(event.get('f'))}: give "
                          "each client a whole number", line)
        if client is None:
            name = "without a process"
        elif client == NO_OPERATION:
            name = NO_OPERATION
        else:
            name = f"of process {edn.write(client)}, which is no client"
        self.left_out[name] += 1

    def _take(self, line: int, client: int, event: Event) -> None:
        self._look_at_index(event, line)
        kind = folded(spelled(event.get("type")))
        if kind == "invoke":
            self._refuse_error(event, line)
            function, key = self._function(event, line), self.key.of(event, line)
            self.pairing.call(SourceOperation(line, client, function, key, event.get("value")))
            return
        if self.choices.outcomes and kind in self.choices.outcomes:
            ending = ENDINGS[self.choices.outcomes[kind]] or "crash"
        elif kind in _TYPES:
            ending = _TYPES[kind]
        else:
            raise Refused(f":type is {spelled(event.get('type'))}, and :invoke, :ok, :fail or :info is "
                          f"expected: say what it means with --outcomes {kind}=unknown (or ok, or fail, if "
                          "it certainly had no effect)", line)
        self._agree(client, event, line)
        called = self.pairing.open.get(client)
        if ending != "reply" and called is not None and not self.choices.explains("value"):
            refuse_another(called.value, event.get("value"), called.line, line)
        if ending == "crash":
            self.pairing.crash(line, client)
        else:
            self._end(line, client, ending, event)

    def _look_at_index(self, event: Event, line: int) -> None:
        """The order of the lines is the order of time, so they must not have been sorted otherwise."""
        index = event.get("index")
        if type(index) is int:
            if index < self.index:
                raise Refused(f":index is {index}, and an earlier line's {self.index}: the order of the "
                              "lines is the order of time, so sort them by :index", line)
            self.index = index
            return
        time = event.get("time")
        if type(time) is int and not self.choices.explains("time"):
            if time < self.time:
                raise Refused(f":time is {time}, and an earlier line's {self.time}, and there is no :index: "
                              "the order of the lines is taken for the order of time, so sort them by "
                              ":time, or say --ignore-member time if they are in order", line)
            self.time = time

    def _function(self, event: Event, line: int) -> str:
        name = event.get("f")
        if not isinstance(name, str):
            raise Refused(f":f is {edn.write(name)}, and a keyword such as :read is expected", line)
        return self.choices.kind_of(name.lstrip(":"))

    def _agree(self, client: int, event: Event, line: int) -> None:
        called = self.pairing.open.get(client)
        if called is None:
            return
        if self._function(event, line) != called.kind:
            raise Refused(f":f is {edn.write(event['f'])}, and the open call of process {client}, at line "
                          f"{called.line}, is :{called.kind}: is a line of the log missing?", line)
        key = self.key.of(event, line)
        if key is not NO_KEY and not same_key(key, called.key):
            asked = "none" if called.key is NO_KEY else edn.write(called.key)
            raise Refused(f":{self.key.name} is {edn.write(key)[:_LONGEST]}, and the call at line "
                          f"{called.line} has {asked[:_LONGEST]}: is a line of the log missing?", line)

    def _end(self, line: int, client: int, ending: Optional[str], event: Event) -> None:
        called = self.pairing.called(client, line)
        answer = event.get("value")
        is_read = called.kind in READS
        if ending == "fail" and is_read and self._found_no_key(event):
            ending, answer = "reply", nothing_for(called.value)
        elif ending == "fail" and folded(spelled(event.get("type"))) == "fail":
            ending = self._failure(called, event)
        elif ending == "reply":
            answers = called.kind in ANSWERED
            ending, found_nothing = self._looked_closer(event, answers, line)
            if found_nothing:
                answer = nothing_for(called.value)
            elif answers and ending == "reply" and "value" not in event:
                raise Refused(f"the reply of a {called.kind} has no :value: let it be nil if the read found "
                              "none", line)
            elif called.kind in _TOLD and self.choices.explains("value"):
                answer = called.value
        self.pairing.end(line, client, ending, answer)

    def _looked_closer(self, event: Event, answers: bool, line: int) -> Ended:
        """How an operation ended that is :ok."""
        self._refuse_error(event, line)
        return self.outcomes.of(event, answers)

    def _refuse_error(self, event: Event, line: int) -> None:
        """An error beside :ok or :invoke is a contradiction."""
        for name in _ERRORS:
            if event.get(name) is not None and not self.choices.explains(name):
                raise Refused(f"the operation is {spelled(event['type'])} and has :{name} "
                              f"{edn.write(event[name])[:60]}: say --ok-when {name}= if it took place only "
                              f"without one, or --ignore-member {name} if that means nothing", line)

    def _failure(self, called: SourceOperation, event: Event) -> str:
        """What the log's own failure says: with --failed-cas missed, a cas found another value.

        But an error may say that it failed for another reason, and then it is no more than a failure.
        """
        ending, error = self.choices.failure_of(called.kind), _error(event)
        word = folded(word_of(error))
        if called.kind in CONDITIONAL | DELETES and self.choices.outcomes.get(word) == "missed":
            return "missed"
        if ending != "missed" or error is None or word == _OTHER_VALUE:
            return ending
        if word == _NO_KEY and not self._asks_for_null(called):
            return ending
        self.refused_cas.append(word)
        return "fail"

    def _asks_for_null(self, called: SourceOperation) -> bool:
        """Whether a cas may ask for what a key has that doesn't exist."""
        pair = pair_of(called.value) or (None, None)
        word = word_of((pair_of(pair[1]) or pair)[0])
        return not word or self.choices.initial is not None or self.outcomes.names_null(word)

    def _found_no_key(self, event: Event) -> bool:
        """Whether a read failed because the key has no value: that is a read of null."""
        error = _error(event)
        word = word_of(error)
        return error is not None and (folded(word) == _NO_KEY or self.outcomes.names_null(word))


def _is_clients(kind: Any) -> bool:
    """Whether a type is a client's: what is no client only tells :info."""
    return folded(spelled(kind)) in ("invoke", "ok", "fail")


def _error(event: Event) -> Any:
    """What an operation's error begins with."""
    for name in _ERRORS:
        error = event.get(name)
        if error is not None:
            return error[0] if isinstance(error, tuple) and error else error
    return None


def _place(operation: SourceOperation, independent: bool, choices: Choices) -> None:
    """Gives an operation its key, and takes the key out of its values."""
    if operation.kind == "txn":
        take_apart(operation)
        return
    if independent and operation.key is not NO_KEY:
        raise Refused(f"the values have keys, as {edn.write(operation.value)[:60]} may have, and the "
                      f"operation has a member that is the key too, {edn.write(operation.key)[:60]}: say "
                      "--keys none if only the member is the key, or --ignore-member if it means "
                      "nothing", operation.line)
    if independent:
        part(operation)
    if operation.kind in KNOWN and choices.values != "exact":
        refuse_transactions(operation)
