"""An accepted history as its operations, for everything that explains or draws."""
from typing import Callable, Iterable, NamedTuple, Optional

from regkit.history import lines
from regkit.history.texts import MEMBER, Texts
from regkit.words.quoting import quoted

TELL_EVERY = 8192  # events between two calls of a watcher


class NotAHistory(ValueError):
    """The bytes aren't a history that the checker accepts."""


class NoRegister(ValueError):
    """A register was asked for that the history doesn't have."""

    def __init__(self, name: str) -> None:
        super().__init__(f"no register has the name {quoted(name)}")


class Guard(NamedTuple):
    """Which values an operation may meet: this one, or each but this one."""

    value: Optional[int]
    is_other: bool = False

    def allows(self, value: Optional[int]) -> bool:
        return (value == self.value) != self.is_other


class Operation:
    """A call with what ended it. `line` is the line of the call, 0 for a register's initial write of null."""

    __slots__ = ("line", "process", "register", "kind", "value", "asked", "unless", "took", "found",
                 "asks_old", "tells_old", "old", "ending", "end_line", "client", "node", "time", "end_time")

    def __init__(self, line: int, process: Optional[int], register: str, kind: str,
                 value: Optional[int]) -> None:
        self.line = line
        self.process = process
        self.register = register
        self.kind = kind  # "read", "write", "delete", "swap" or "cas"
        self.value = value  # written, or read; None is null, and also what a read that isn't completed gave
        self.asked: Optional[int] = None  # of a cas, the value that it asks for; `value` is the one it writes
        self.unless = False  # whether a cas asks for each value but `asked`
        self.took: Optional[bool] = None  # of a completed cas, whether it took place
        self.found: Optional[bool] = None  # whether there was a value, if the reply says no more than that
        self.asks_old = False  # whether the reply of a change may give the value that it met
        self.tells_old = False  # whether it gave that
        self.old: Optional[int] = None  # that value
        self.ending: Optional[str] = None  # "reply", "fail", "crash", or None if nothing ended it
        self.end_line: Optional[int] = None  # the line of that ending
        self.client: Optional[str] = None  # who called, of which server, and when, as far as the lines say it
        self.node: Optional[str] = None
        self.time: Optional[int] = None  # in nanoseconds, from the history's first call on
        self.end_time: Optional[int] = None  # the same of the line that ended it

    @property
    def completed(self) -> bool:
        return self.ending == "reply"

    @property
    def failed(self) -> bool:
        """A call that certainly had no effect: it is no operation of the history."""
        return self.ending == "fail"

    @property
    def missed(self) -> bool:
        """A cas that found another value than it asked for, or a delete that found none: it changed
        nothing."""
        return self.took is False or (self.kind == "delete" and self.guard == Guard(None))

    @property
    def writes(self) -> bool:
        """Whether it may have changed the value: all but reads and what missed."""
        return self.kind != "read" and not self.missed

    @property
    def asks(self) -> Optional[Guard]:
        """Which values its call asks for, whatever its reply says; None if any."""
        return Guard(self.asked, self.unless) if self.kind == "cas" else None

    @property
    def guard(self) -> Optional[Guard]:
        """Which values it may meet, as far as its call and its reply say it; None if any."""
        if not self.completed or self.kind == "write":
            return self.asks
        if self.tells_old:
            return Guard(self.old)
        if self.kind == "cas":
            return Guard(self.asked, self.unless != self.missed)
        if self.found is not None:
            return Guard(None, self.found)
        return Guard(self.value) if self.kind == "read" else None

    def suits(self, value: Optional[int]) -> bool:
        """Whether it may take effect where its register has this value."""
        return self.guard is None or self.guard.allows(value)

    @property
    def tells(self) -> bool:
        """Whether its reply says something of the value that it met."""
        return self.completed and self.guard is not None

    @property
    def values(self) -> tuple[Optional[int], ...]:
        """The values that its lines have."""
        return self.value, self.asked, self.old

    @property
    def pending(self) -> bool:
        """A call without a reply: its outcome is unknown. A crash leaves its process's open call so."""
        return not self.completed and not self.failed


def initial_write(register: str) -> Operation:
    """The write of null that comes before everything else. It is completed, at line 0."""
    write = Operation(0, None, register, "write", None)
    write.ending, write.end_line = "reply", 0
    return write


class History:
    """All calls of a history, failed ones too, in the order of their lines."""

    def __init__(self, calls: list[Operation], events: int, last_line: int, crashes: dict[int, int]) -> None:
        self.calls = calls
        self.events = events
        self.last_line = last_line
        self.crashes = crashes  # process -> the line of its crash
        self.by_line: dict[int, Operation] = {call.line: call for call in calls}
        self.registers: dict[str, list[Operation]] = {}  # in the order of their first calls
        for call in calls:
            self.registers.setdefault(call.register, []).append(call)

    def operation(self, register: str, line: int) -> Operation:
        """The operation of a line that a report names; 0 is the register's initial write."""
        return self.by_line[line] if line else initial_write(register)

    def must_have(self, register: str) -> None:
        """Raises NoRegister if no call is of the register."""
        if register not in self.registers:
            raise NoRegister(register)


def read_history(data: bytes, watch: Optional[Callable[[int], None]] = None) -> History:
    """The history in some bytes that `regcheck` or `regsearch` accepted. What it would refuse is not looked
    for here, and may raise NotAHistory. `watch` is told the number of the line from time to time."""
    return history_of(lines.events(data), watch)


def history_of(events: Iterable[tuple[int, lines.Event]],
               watch: Optional[Callable[[int], None]] = None) -> History:
    """The history of some events, each with the number of its line. Raises NotAHistory, and Contradictory if
    a number stands for two values."""
    calls: list[Operation] = []
    open_calls: dict[int, Operation] = {}
    crashes: dict[int, int] = {}
    texts = Texts()
    count = line = 0
    try:
        for line, event in events:
            count += 1
            if watch is not None and count % TELL_EVERY == 0:
                watch(line)
            if MEMBER in event:
                texts.add(line, event)
            if event["event"] == "call":
                call = call_of(line, event)
                calls.append(call)
                open_calls[call.process] = call  # type: ignore[index]
                note_who(call, event)
                continue
            end_call(open_calls, crashes, line, event)
    except (KeyError, TypeError, AttributeError, lines.NotJson) as error:
        raise NotAHistory(f"line {line}: no event that regcheck accepts") from error
    count_from_first(calls)
    put_texts(calls, texts)
    return History(calls, count, line, crashes)


def put_texts(calls: Iterable[Operation], texts: Texts) -> None:
    """Lets the values that stand for texts show as these."""
    for call in calls if texts else ():
        call.value = texts.label(call.register, call.value)
        call.asked = texts.label(call.register, call.asked)
        call.old = texts.label(call.register, call.old)


def call_of(line: int, event: lines.Event) -> Operation:
    call = Operation(line, event["process"], event["register"], event["op"], event.get("value"))
    if call.kind == "cas":
        call.unless = "from" not in event
        call.value, call.asked = event["to"], event["unless" if call.unless else "from"]
    call.asks_old = event.get("old") is True if call.kind == "cas" else call.kind in ("delete", "swap")
    return call


def note_who(call: Operation, event: lines.Event) -> None:
    """Notes who calls and when, if the line says so in the recorder's form. The checker takes any form."""
    call.client, call.node = text_in(event, "client"), text_in(event, "node")
    call.time = time_in(event)


def time_in(event: lines.Event) -> Optional[int]:
    time = event.get("time")
    return time if type(time) is int else None


def text_in(event: lines.Event, name: str) -> Optional[str]:
    """A member that is a text, and not the empty one."""
    said = event.get(name)
    return said if type(said) is str and said else None


def count_from_first(calls: list[Operation]) -> None:
    """Lets the times begin with the first call that has one."""
    first = min((call.time for call in calls if call.time is not None), default=0)
    for call in calls:
        if call.time is not None:
            call.time -= first
        if call.end_time is not None:
            call.end_time -= first


def end_call(open_calls: dict[int, Operation], crashes: dict[int, int], line: int,
             event: lines.Event) -> None:
    """Notes a reply, a fail or a crash on the open call of its process."""
    process, what = event["process"], event["event"]
    if what == "crash":
        crashes[process] = line
    ended = open_calls.pop(process, None)
    if ended is None:
        return
    ended.ending, ended.end_line, ended.end_time = what, line, time_in(event)
    ended.node = text_in(event, "node") or ended.node  # an answer may tell which server gave it
    if what == "reply":
        note_answer(ended, event)


def note_answer(call: Operation, event: lines.Event) -> None:
    """Notes what the reply of a call says of the value that it met."""
    if call.kind == "read":
        call.value = event.get("value")
        call.found = None if "value" in event else event["found"]
    elif call.kind == "cas":
        call.took = event["ok"]
    elif call.kind != "write":
        call.found = event.get("found")
    if call.asks_old and "old" in event:
        call.tells_old, call.old = True, event["old"]


def operations(calls: Iterable[Operation]) -> list[Operation]:
    """The calls that are operations: all but those that failed."""
    return [call for call in calls if not call.failed]
