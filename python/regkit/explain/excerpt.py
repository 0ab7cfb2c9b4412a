"""The operations that a report's faults name, without reading the whole history."""
import io
import re
from collections import deque
from itertools import islice
from typing import Any, Iterable, Iterator, Optional, Sequence

from regkit.checker.report import Row
from regkit.history.lines import BLANK, Event, NotJson, json_of
from regkit.history.operations import History, history_of, put_texts, read_history
from regkit.history.texts import MARK, Texts

DISGUISED = re.compile(rb"\\u00[67]")  # a letter of a member's name may be written so
Found = dict[int, Event]  # by line


def numbers_in(value: Any) -> Iterator[int]:
    """The line numbers in a fault."""
    if isinstance(value, int):
        yield value
    for part in value.values() if isinstance(value, dict) else value if isinstance(value, list) else []:
        yield from numbers_in(part)


def named_lines(row: Row) -> set[int]:
    """The lines of the operations that a register's fault names."""
    return {line for line in numbers_in([row["fault"], row.get("inversion", [])]) if line}


class EventFinder:
    """Finds events in the bytes of a history."""

    def __init__(self, data: bytes) -> None:
        self.data = data
        self.found: Found = {}

    def event_at(self, begin: int) -> Event:
        end = self.data.find(b"\n", begin)
        event = json_of(self.data[begin:end if end >= 0 else len(self.data)])
        if not isinstance(event, dict):
            raise NotJson("no object")
        return event

    def offsets(self, numbers: Iterable[int]) -> dict[int, int]:
        """Where some lines begin."""
        stream, at = io.BytesIO(self.data), 1
        found = {}
        for number in sorted(numbers):
            deque(islice(stream, number - at), maxlen=0)
            found[number], at = stream.tell(), number
        return found

    def matches(self, member: str, value: int, begin: int) -> Iterator[tuple[int, Event]]:
        """Where the lines from some place on begin whose member has a value, and their events."""
        pattern = re.compile(rb'"%s"\s*:\s*%d\b' % (member.encode(), value))
        for match in pattern.finditer(self.data, begin):
            place = self.data.rfind(b"\n", 0, match.start()) + 1
            event = self.event_at(place)
            if event.get(member) == value:
                yield place, event

    def add_call(self, number: int, begin: int) -> Event:
        """Adds a call, and what ended it."""
        call = self.found[number] = self.event_at(begin)
        behind = self.data.find(b"\n", begin) + 1
        if behind:
            for place, event in self.matches("process", call["process"], behind):
                self.found[number + self.data.count(b"\n", begin, place)] = event
                break
        return call

    def add_writes(self, value: int) -> None:
        """Adds all writes of a value, those that failed and those of other registers too."""
        number, at = 1, 0
        for place, event in self.matches("value", value, 0):
            number, at = number + self.data.count(b"\n", at, place), place
            if event["event"] == "call":
                self.add_call(number, place)

    def texts_of(self, history: History) -> Texts:
        """What the lines say of the values of some operations."""
        texts = Texts()
        values = {value for call in history.calls for value in call.values if value is not None}
        for value in values if MARK in self.data else ():
            for match in re.finditer(rb'"texts"[^\n]*"%d"\s*:' % value, self.data):
                event = self.event_at(self.data.rfind(b"\n", 0, match.start()) + 1)
                if event.get("register") in history.registers:
                    texts.add(0, event)
        return texts


def unwritten_value(finder: EventFinder, row: Row) -> Optional[int]:
    """The value that a read gave and nobody wrote, if that is the fault."""
    if row["fault"]["kind"] != "unwritten":
        return None
    read = row["fault"]["read"]
    ended = min(line for line, event in finder.found.items()
                if line > read and event["process"] == finder.found[read]["process"])
    value = finder.found[ended]["value"]
    return None if value is None else int(value)


def excerpt(data: bytes, rows: Sequence[Row]) -> History:
    """A history of what the sentences about some faults need: the operations that they name, the first one,
    from which times are counted, the writes of values that nobody wrote to the register, and what the values
    stand for."""
    if b"\\" in data and DISGUISED.search(data):
        return read_history(data)
    finder = EventFinder(data)
    lines = {line for row in rows for line in named_lines(row)}
    first = next(number for number, line in enumerate(io.BytesIO(data), 1) if line.strip(BLANK + b"\n"))
    for number, begin in finder.offsets(lines | {first}).items():
        finder.add_call(number, begin)
    for value in {unwritten_value(finder, row) for row in rows}:
        if value is not None:
            finder.add_writes(value)
    history = history_of(sorted(finder.found.items()))
    put_texts(history.calls, finder.texts_of(history))
    return history
