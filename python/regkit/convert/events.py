"""Events in the order of time, a JSON object a line, as `regcheck` reads them but with any names and values.

    {"process":"alice","event":"call","op":"write","register":["user",7],"value":"v1"}
    {"process":"alice","event":"reply"}
    {"process":"alice","event":"call","op":"cas","register":["user",7],"from":"v1","to":"v2"}
    {"process":"alice","event":"reply","ok":true}
    {"process":"alice","event":"call","op":"delete","register":["user",7]}
    {"process":"alice","event":"reply","old":"v2"}

Processes and values may be texts, registers any JSON. What else `regcheck` says of a history holds here too.
"""
import shlex
from typing import Any, Iterable, Optional

from regkit.base.limits import GREATEST_VALUE
from regkit.convert import edn
from regkit.convert.json_values import json_values
from regkit.convert.members import KeyMember, Known, Outcomes, by_folded_name, same_key
from regkit.convert.model import (ANSWERED, CAS, CONDITIONAL, DELETE, ENDINGS, NO_KEY, READS, STATED, SWAP,
                                  Choices, Client, Refused, Source, SourceOperation, folded)
from regkit.convert.pairing import Pairing
from regkit.convert.rows import client_of
from regkit.convert.settle import settle

_ENDINGS = ("reply", "fail")

Event = dict[str, Any]


def from_events(lines: Iterable[str], choices: Choices) -> Source:
    log = _EventLog(choices)
    for line, members in json_values(lines):
        event = by_folded_name(members, line) if isinstance(members, dict) else {}
        if event.get("process") is None:
            raise Refused('no event: an object such as {"process":1,"event":"reply"} is expected', line)
        log.known_of(event).check(members, line)
        log.take(line, event)
    source = Source(log.pairing.steps)
    source.notes.extend(log.outcomes.notes())
    settle(source, choices)
    return source


class _EventLog:
    """Pairs calls with what ended them."""

    def __init__(self, choices: Choices) -> None:
        self.choices = choices
        self.pairing = Pairing(ends_with_crash=True)
        self.known = {place: Known(choices, place) for place in (
            "jsonl", "jsonl's cas", "jsonl's end of a cas", "jsonl's end of a cas that asks",
            "jsonl's end of a read", "jsonl's end of a change")}
        self.outcomes = Outcomes(choices)
        self.key = KeyMember(choices)

    def take(self, line: int, event: Event) -> None:
        client, what = client_of(event["process"], False), event.get("event")
        if what == "call":
            op = event.get("op")
            if type(op) is not str:
                raise Refused("a call has the member op, read, write or cas", line)
            kind = self.choices.kind_of(op)
            called = SourceOperation(line, client, kind, self.key.of(event, line),
                                     self._cas(event, line) if kind == CAS else event.get("value"))
            if kind == CAS:
                called.unless, called.clears = "from" not in event, event["to"] is None
                called.tells_old = event.get("old") is True
            _say_who(called, event)
            self.pairing.call(called)
        elif what == "crash":
            self._crash(line, client, event)
        else:
            ending = self._ending(what, self.pairing.open.get(client), line)
            called = self.pairing.called(client, line)
            self._agree(event, called, line)
            called.end_time = _time(event)
            if ending == "reply":
                ending = self._reply(event, called, line)
            else:
                self._refuse_answer(event, called, line)
            self.pairing.end(line, client, ending, called.answer)

    def _crash(self, line: int, client: Client, event: Event) -> None:
        ended = self.pairing.crash(line, client)
        if ended.kind == "crash":
            _say_who(ended, event)
        else:
            self._agree(event, ended, line)
            self._refuse_answer(event, ended, line)
            ended.end_time = _time(event)

    def known_of(self, event: Event) -> Known:
        """What the line of a cas has is understood in no other line, and likewise of other operations."""
        if event.get("event") == "call":
            op = event.get("op")
            is_cas = type(op) is str and self.choices.kind_of(op) == CAS
            return self.known["jsonl's cas" if is_cas else "jsonl"]
        called = self.pairing.open.get(client_of(event["process"], False))
        return self.known["jsonl" if called is None else _end_of(called)]

    def _refuse_answer(self, event: Event, called: SourceOperation, line: int) -> None:
        """A call that failed, or whose outcome is unknown, has no answer; it may repeat its value."""
        if event.get("ok") not in (None, False) and not self.choices.explains("ok"):
            raise Refused(f"the cas ends by {edn.write(event['event'])}, and ok is {edn.write(event['ok'])}: "
                          "did it take place or not?", line)
        value = event.get("value")
        asked = called.value if called.kind in STATED else None
        if value is not None and edn.write(value) != edn.write(asked) and not self.choices.explains("value"):
            raise Refused(f"the {called.kind} ends by {edn.write(event['event'])}, and there is a value, "
                          f"{edn.write(value)[:40]}: say --ignore-member value if it means nothing", line)

    def _cas(self, event: Event, line: int) -> tuple[Any, Any]:
        """What a cas asks for and what it writes."""
        if ("from" in event) == ("unless" in event) or "to" not in event:
            raise Refused("the call of a cas has from and to: write null in from if it asks for no "
                          "value; or unless in place of from, if it asks for any other value", line)
        if event.get("value") is not None and not self.choices.explains("value"):
            raise Refused(f"the call of a cas has from and to, and no value, but this is "
                          f"{edn.write(event['value'])[:40]}", line)
        return event.get("from", event.get("unless")), event["to"]

    def _ending(self, what: Any, called: Optional[SourceOperation], line: int) -> Optional[str]:
        """What an event other than a call and a crash does to its call."""
        outcome = self.choices.outcomes.get(folded(what)) if type(what) is str else None
        if outcome is not None:
            return ENDINGS[outcome]
        if what in _ENDINGS:
            return "reply" if what == "reply" or called is None else self.choices.failure_of(called.kind)
        said = "absent" if what is None else edn.write(what)
        option = shlex.quote(f"{what}=unknown") if type(what) is str else "WORD=unknown"
        raise Refused(f"event is {said}, and call, reply, fail or crash is expected: if it ends a call, say "
                      f"with --outcomes {option} what it means (or ok, or fail, if it certainly had no "
                      "effect)", line)

    def _agree(self, event: Event, called: SourceOperation, line: int) -> None:
        """A reply or a failure repeats what its call has, if it has it."""
        asks = "unless" if called.unless else "from"
        for name, asked in zip((asks, "to"), called.value if called.kind == CAS else ()):
            if event.get(name) is not None and edn.write(event[name]) != edn.write(asked):
                raise Refused(f"{name} is {edn.write(event[name])[:40]}, and the call at line {called.line} "
                              f"has {edn.write(asked)[:40]}: is it the answer to another call?", line)
        op = event.get("op")
        if op is not None and self.choices.kind_of(op if type(op) is str else edn.write(op)) != called.kind:
            raise Refused(f"op is {edn.write(op)}, and the call at line {called.line} has "
                          f"{edn.write(called.kind)}: is it the answer to another call?", line)
        key = self.key.of(event, line)
        if key is not NO_KEY and not same_key(key, called.key):
            asked = "none" if called.key is NO_KEY else edn.write(called.key)
            raise Refused(f"{self.key.name} is {edn.write(key)}, and the call at line {called.line} has "
                          f"{asked}: is it the answer to another call?", line)

    def _reply(self, event: Event, called: SourceOperation, line: int) -> Optional[str]:
        """Gives a call its answer. Returns what ended it."""
        if called.kind in CONDITIONAL:
            return self._cas_reply(event, called, line)
        ending, found_nothing = self.outcomes.of(event, called.kind in ANSWERED)
        if ending == "reply" and _tells(event, called, line):
            return ending
        if called.kind in ANSWERED and not found_nothing and ending == "reply" and "value" not in event:
            raise Refused("a read's reply has no value: write null if the read found none", line)
        told = called.kind not in STATED or not self.choices.explains("value")
        called.answer = event.get("value") if told and not found_nothing else None
        return ending

    def _cas_reply(self, event: Event, called: SourceOperation, line: int) -> Optional[str]:
        """How a cas ended that got a reply."""
        ending, _ = self.outcomes.of(event, False)
        called.tells_old = called.tells_old and "old" in event
        called.old = event.get("old") if called.tells_old else None
        if event.get("value") is not None and not self.choices.explains("value"):
            raise Refused(f"the reply of a cas has ok and no value, but this is "
                          f"{edn.write(event['value'])[:40]}: say --ok-when value=WORD,.. with the words by "
                          "which it took place, or --ignore-member value if it means nothing", line)
        if ending != "reply" or ("ok" in self.choices.ok_when and event.get("ok") is not None):
            return ending
        took_place = event.get("ok")
        if type(took_place) is not bool or "ok" in self.choices.ignored:
            raise Refused("a cas's reply has no ok, true or false: write true if it took place, and false "
                          "if the store said that it found another value", line)
        return "reply" if took_place else "missed"


def _end_of(called: SourceOperation) -> str:
    """The place of the line that ends a call."""
    if called.kind in CONDITIONAL:
        return "jsonl's end of a cas that asks" if called.tells_old else "jsonl's end of a cas"
    if called.kind in READS:
        return "jsonl's end of a read"
    return "jsonl's end of a change" if called.kind in (DELETE, SWAP) else "jsonl"


def _tells(event: Event, called: SourceOperation, line: int) -> bool:
    """Takes what a reply tells by `found` and `old`, in place of a value. Whether it does."""
    told = [name for name in ("found", "old") if name in event]
    if called.kind not in READS | {DELETE, SWAP} or not told or (called.kind in READS and "value" in event):
        return False
    found, old = event.get("found"), event.get("old")
    value = event.get("value")
    if value is not None and (called.kind != SWAP or edn.write(value) != edn.write(called.value)):
        raise Refused(f"the reply of a {called.kind} has {told[0]}, and the value {edn.write(value)[:40]} "
                      "too: which of them says what was there?", line)
    if "found" in event and (type(found) is not bool or ("old" in event and found != (old is not None))):
        raise Refused(f"found is {edn.write(found)[:40]}, and true or false is expected, as old has it", line)
    called.found = found
    called.tells_old, called.old = "old" in event, old
    return True


def _say_who(operation: SourceOperation, event: Event) -> None:
    """Keeps what a recorder says of who called, which node was asked, and when."""
    client, node = event.get("client"), event.get("node")
    operation.name = client if type(client) is str else ""
    operation.node = node if type(node) is str else ""
    operation.time = _time(event)


def _time(event: Event) -> Optional[int]:
    time = event.get("time")
    return time if type(time) is int and 0 <= time <= GREATEST_VALUE else None
