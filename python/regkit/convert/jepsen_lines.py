"""The lines that Jepsen writes for people: those of its console, and those of its file history.txt.

    INFO  jepsen.util - 0 :invoke :write 11
    0   :invoke  :write  11

A line has a process, a type, a function, a value and perhaps an error, with tabs or spaces between them.
"""
import re
from typing import Any, Iterable, Iterator

from regkit.convert import edn
from regkit.convert.model import Refused

Event = dict[Any, Any]

NO_OPERATION = "of the log that record no operation"
_TYPES = "invoke|ok|fail|info"
_LINE = re.compile(rf"(?:^|\s)(:?\w[\w-]*)\s+:({_TYPES})\s+(:[^\s,]+)(.*)", re.DOTALL)
_BARE = re.compile(rf"\s*(\d+|:?nemesis)\s+({_TYPES})\s+([^\s,:]+)(.*)", re.DOTALL)  # without the colons
_LOST = re.compile(r"(?:^|\s):(?:invoke|ok|read|write|cas|txn)\s")  # part of an operation


def has_events(lines: Iterable[str]) -> bool:
    """Whether any of some lines records an operation."""
    return any(_LINE.search(line) or _BARE.fullmatch(line) for line in lines)


def line_events(lines: Iterable[str]) -> Iterator[tuple[int, Event]]:
    """The event of each line, and of a line without one who wrote it. Raises Refused."""
    for number, text in enumerate(lines, 1):
        found = _LINE.search(text) or _BARE.fullmatch(text)
        if found is not None:
            who, kind, function, rest = found.groups()
            yield number, _event(who, kind, function.lstrip(":"), _values(rest, kind, number))
        elif _LOST.search(text):
            raise Refused("an operation has a process, a type, a function and a value, with their colons, "
                          f"and this line has not all of them: {text.strip()[:60]}", number)
        elif text.strip():
            yield number, {"process": NO_OPERATION}


def _event(who: str, kind: str, function: str, values: list[Any]) -> Event:
    event: Event = {"process": int(who) if who.isdecimal() else edn.Keyword(who), "type": ":" + kind,
                    "f": edn.Keyword(":" + function)}
    event.update(zip(("value", "error"), values))
    return event


def _values(text: str, kind: str, line: int) -> list[Any]:
    """The value and the error after an operation. A failure or a crash may say anything there."""
    surely = kind in ("invoke", "ok")
    try:
        values = [value for _, value in edn.values([text])]
    except edn.NotEdn:
        if surely:
            raise Refused(f"no value of EDN behind :{kind}, but {text.strip()[:60]}", line) from None
        return []
    if surely and len(values) > 2:
        raise Refused(f"{len(values)} values behind :{kind}, and one is expected, and perhaps an error: "
                      f"{text.strip()[:60]}", line)
    return values
