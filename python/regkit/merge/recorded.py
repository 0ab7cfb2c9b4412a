"""The events of one recorder's history with their times, or the reason why it can't be merged."""
import json
from typing import Any, Iterator, NamedTuple, Optional, Sequence

from regkit.checker.programs import SEARCHED
from regkit.history.lines import numbered_lines
from regkit.history.operations import history_of
from regkit.history.texts import MARK, Contradictory, Texts
from regkit.verify.operations import FOREVER, History, Refused, event_of
from regkit.words.quoting import quoted

NO_TIME = ("has no `time` in whole nanoseconds: record with a clock, as in "
           "Recorder(\"history.jsonl\", clock=time.monotonic_ns)")
_ENCODER = json.JSONEncoder(ensure_ascii=False, separators=(",", ":"))


class Unmergeable(ValueError):
    """The histories can't be merged: at which line of which one, why, and what to do."""


class RecordedEvent(NamedTuple):
    """An event of a history."""

    time: int
    process: int
    what: str  # call, reply, fail or crash
    rest: str  # its line after the process


class ValueWrite(NamedTuple):
    """Where a value is written."""

    file: str
    line: int
    register: str
    value: int

    def in_words(self, first: "ValueWrite") -> str:
        """Of the write of a value that was written already."""
        return (f"{self.file}: line {self.line} writes {self.value} to register {quoted(self.register)}, as "
                f"line {first.line} of {first.file} does")


class Recorded:
    """A history that `regsearch` accepts but for its size, whose times never go back."""

    def __init__(self, name: str, data: bytes) -> None:
        self.name = name
        self.events: list[RecordedEvent] = []
        self.writes: list[ValueWrite] = []
        self.searched: set[str] = set()  # the words of its operations that only regsearch takes
        self.has_texts = MARK in data
        history = History(FOREVER, search=True)
        try:
            for number, line in numbered_lines(data):
                event = event_of(number, line, search=True)
                history.take(number, event)
                self._add(number, event)
        except Refused as refused:
            raise Unmergeable(f"{name}: {refused.text}: `regkit check` says what to do about it") from None

    def _add(self, number: int, event: dict[str, Any]) -> None:
        """Adds the event of a line. Raises Unmergeable."""
        time, process = event.get("time"), event.pop("process")
        if type(time) is not int:
            raise Unmergeable(f"{self.name}: line {number} {NO_TIME}")
        if self.events and time < self.events[-1].time:
            raise Unmergeable(f"{self.name}: line {number} has the time {time}, and an earlier line "
                              f"{self.events[-1].time}: a recorder's clock must never go back, as "
                              "time.monotonic_ns doesn't; and a merged history can't be merged again")
        if event["event"] == "call" and event["op"] == "write":
            self.writes.append(ValueWrite(self.name, number, event["register"], event["value"]))
        if event["event"] == "call" and event["op"] in SEARCHED:
            self.searched.add(event["op"])
        self.events.append(RecordedEvent(time, process, event["event"], _ENCODER.encode(event)[1:]))

    @property
    def processes(self) -> list[int]:
        return sorted({event.process for event in self.events})

    def values(self) -> Iterator[tuple[str, int, str]]:
        """Each register with a number that it has, and what that stands for."""
        events = ({"process": event.process, **json.loads("{" + event.rest)} for event in self.events)
        for call in history_of(enumerate(events, 1)).calls:
            yield from ((call.register, int(value), str(value)) for value in call.values
                        if value is not None)


def refuse_unlike_texts(files: Sequence[Recorded]) -> None:
    """Raises Unmergeable if a number stands for one value in one history, and for another in another one."""
    texts = Texts()
    try:
        for file in files if any(file.has_texts for file in files) else ():
            for register, number, text in file.values():
                texts.meet(file.name, register, number, text)
    except Contradictory as error:
        raise Unmergeable(str(error)) from None


def refuse_twice(files: Sequence[Recorded]) -> None:
    """Raises Unmergeable if two histories are one: what it writes would count twice."""
    for place, file in enumerate(files):
        for other in files[:place]:
            if (file.writes or file.searched) and file.events == other.events:
                raise Unmergeable(f"{file.name}: it has the same events as {other.name}, at the same times: "
                                  "name each history once; if they are two, let each recorder name its "
                                  "clients")


def first_again(files: Sequence[Recorded]) -> Optional[tuple[ValueWrite, ValueWrite]]:
    """The first write of a value that was written to its register already, and the earlier write; of writes
    in two files, if there are any."""
    writers: dict[tuple[str, int], tuple[int, ValueWrite]] = {}
    within: Optional[tuple[ValueWrite, ValueWrite]] = None
    for place, file in enumerate(files):
        for write in file.writes:
            other, first = writers.setdefault((write.register, write.value), (place, write))
            if other != place:
                return write, first
            if first is not write:
                within = within or (write, first)
    return within
