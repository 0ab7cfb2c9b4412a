"""What the lines of a history say of where they belong.

Lines of the usual form are read many at once, by one pattern over their bytes: what it captures is what any
reader of JSON finds there. Every other line is read as JSON, which takes ten times as long."""
import re
from functools import lru_cache
from typing import Any, NamedTuple, Optional

from regkit.base.limits import GREATEST_VALUE, LEAST_VALUE, MAX_LINE, MAX_NAME, MAX_PROCESS
from regkit.checker.programs import SEARCHED
from regkit.history.lines import NotJson, json_of


@lru_cache(maxsize=None)
def usual_form(space: bytes, with_search: bool) -> "re.Pattern[bytes]":
    """Lines with this after each comma and colon. Their groups are a process; of a call its register and its
    value; and the whole line if it has another form.

    A cas, a delete and a swap have this form only once it is known that there are any, and then values don't
    matter any more."""
    comma, colon = b"," + space, b":" + space
    text = rb'"[^"\\\x00-\x1f]{0,%d}"' % MAX_NAME
    number = rb"(?:[1-9][0-9]{0,17}|0|null|-[1-9][0-9]{0,17})"

    def member(name: bytes, value: bytes) -> bytes:
        return comma + b'"' + name + b'"' + colon + value

    def perhaps(part: bytes) -> bytes:
        return b"(?:" + part + b"|)"

    time = member(b"time", rb"(?:[1-9][0-9]{0,18}|0)")
    who = perhaps(member(b"client", text)) + perhaps(member(b"node", text)) + perhaps(time)
    end = rb"(?:\}\n|" + who + rb"\}\r?\n)"
    value = member(b"value", rb"(?:([1-9][0-9]{0,17}|0|-[1-9][0-9]{0,17})|null)")
    ops, truth = b'"(?:read|write)"', b"(?:true|false)"
    if with_search:
        change = member(b"(?:from|unless)", number) + member(b"to", number) + perhaps(member(b"old", b"true"))
        value = member(b"value", number) + b"()|" + change
        ops = b'"(?:read|write|delete|swap|cas)"'
    call = (b'"call"' + member(b"op", ops) + member(b"register", rb'"([^"\\\x00-\x1f]{1,%d})"' % MAX_NAME)
            + perhaps(value) + end)
    found = perhaps(member(b"found", truth)) + perhaps(member(b"old", number)) if with_search else b""
    answer = (perhaps(member(b"op", ops)) + perhaps(member(b"register", text))
              + perhaps(member(b"value", number)) + perhaps(member(b"ok", truth)) + found + end)
    return re.compile(rb'\{"process"' + colon + b"([1-9][0-9]{0,8}|0)" + comma + rb'"event"' + colon
                      + b"(?:" + call + rb'|"(?:reply|fail)"(?:\}\n|' + answer + b"))"
                      + rb"|([^\n]*\n|[^\n]+)")


NO_FORM = re.compile(rb"()()()([^\n]*\n|[^\n]+)")  # each line goes the slow way
SPACED_START = b'{"process": '


def form_of(block: bytes, with_search: bool) -> "re.Pattern[bytes]":
    """The pattern that reads most of some whole lines."""
    if not block.isascii():
        try:
            block.decode("utf-8")
        except UnicodeDecodeError:
            return NO_FORM
    return usual_form(b" " if block.startswith(SPACED_START) else b"", with_search)


class ReadEvent(NamedTuple):
    """What a line says of its part."""

    process: bytes
    event: str
    register: bytes = b""  # of a call
    value: bytes = b""  # of a call: a whole number, or empty
    is_searched: bool = False  # whether only regsearch takes it


def read_event(line: bytes) -> Optional[ReadEvent]:
    """The event of a line of any form. None if the line is faulty by itself."""
    text = line[:-1] if line.endswith(b"\n") else line
    if len(text) > MAX_LINE:
        return None
    try:
        event = json_of(text)
    except NotJson:
        return None
    if not isinstance(event, dict):
        return None
    process, what = event.get("process"), event.get("event")
    if type(process) is not int or not 0 <= process <= MAX_PROCESS:
        return None
    if what == "call":
        return read_call(b"%d" % process, event)
    # A read's reply may tell no more than whether there was a value.
    only_found = what == "reply" and "found" in event and "value" not in event and (
        event.get("op", "read") not in ("write", "cas"))
    if what not in ("reply", "fail", "crash"):
        return None
    return ReadEvent(b"%d" % process, what, is_searched=only_found)


def read_call(process: bytes, event: dict[str, Any]) -> Optional[ReadEvent]:
    register, value = event.get("register"), event.get("value")
    name = register.encode("utf-8") if isinstance(register, str) else b""
    if not 1 <= len(name) <= MAX_NAME:
        return None
    number = b"%d" % value if type(value) is int and LEAST_VALUE <= value <= GREATEST_VALUE else b""
    return ReadEvent(process, "call", name, number, event.get("op") in SEARCHED)
