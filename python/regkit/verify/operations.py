"""The format of a history: from its bytes to its operations, or the reason to refuse it.

docs/format.md has the rules: those of regcheck, and those of regsearch, with values that repeat and cas.
"""
from typing import Any, Optional

from regkit.base.limits import (GREATEST_VALUE, LEAST_VALUE, MAX_BYTES, MAX_EVENTS, MAX_LINE, MAX_NAME,
                                MAX_PROCESS)
from regkit.history.lines import NotJson, json_of, numbered_lines

FOREVER = float("inf")  # the line of a reply that never came: it is after every line

EVENTS = ("call", "reply", "fail", "crash")
OPS = ("read", "write")
SEARCH_OPS = (*OPS, "delete", "swap", "cas")

BAD_OP_OF_SEARCH = -6  # 6 has another text there
REASONS = {
    1: f"line is longer than {MAX_LINE} bytes",
    2: "not JSON",
    3: "not an object",
    4: f"process is not a whole number from 0 to {MAX_PROCESS}",
    5: "event is not call, reply, fail or crash",
    6: "op is neither read nor write",
    7: f"register is not a text of 1 to {MAX_NAME} bytes",
    8: "value does not fit the event",
    9: "the process has an open call at line {}",
    10: "reply without an open call",
    11: "reply disagrees with its call",
    12: "a read's reply has no value",
    13: "value already written to this register at line {}",
    14: f"more than {MAX_EVENTS} events",
    15: f"input is longer than {MAX_BYTES} bytes",
    19: "the process crashed at line {}",
    20: "from, unless or to does not fit the event",
    21: "a cas's reply has no ok, true or false",
    22: "old or found does not fit the event",
    BAD_OP_OF_SEARCH: "op is neither read, write, delete, swap nor cas",
}


class Refused(Exception):
    """The history is refused: for a line and the lowest-numbered reason there; 15 has no line."""

    def __init__(self, number: int, line: Optional[int] = None, other: Optional[int] = None) -> None:
        reason = REASONS[number].format(other)
        self.text = reason if line is None else f"line {line}: {reason}"
        super().__init__(self.text)


class Operation:
    """A call with its reply, identified by the line of its call. A register's initial write of null has 0."""

    __slots__ = ("line", "end", "process", "register", "op", "is_write", "value", "failed", "is_cas", "asked",
                 "unless", "took", "found", "asks_old", "tells_old", "old")

    def __init__(self, line: int, register: str, op: str, value: Optional[int]) -> None:
        self.line = line
        self.end: float = FOREVER  # the line of its reply
        self.process: Optional[int] = None  # the initial write is nobody's
        self.register = register
        self.op = op
        self.is_write = op in ("write", "delete", "swap")
        self.value = value  # written, or read; None is null
        self.is_cas = op == "cas"  # then `value` is what it writes if it finds `asked`, or anything else
        self.asked: Optional[int] = None
        self.unless = False
        self.took: Optional[bool] = None  # of a cas that was answered, whether it took place
        self.found: Optional[bool] = None  # whether there was a value, if the reply says that
        self.asks_old = self.op in ("delete", "swap")  # whether `old` of the reply counts
        self.tells_old = False
        self.old: Optional[int] = None  # the value that it met
        self.failed = False  # a call that failed is no operation

    @property
    def completed(self) -> bool:
        return self.end < FOREVER


def initial_write(register: str) -> Operation:
    write = Operation(0, register, "write", None)
    write.end = 0
    return write


class History:
    """The operations of each register, in the order of their calls; the registers by their first calls."""

    def __init__(self, limit: float, search: bool = False) -> None:
        self.limit = limit  # how many events it may take
        self.search = search  # by the rules of regsearch
        self.events = 0
        self.registers: dict[str, list[Operation]] = {}
        self.written: dict[str, dict[int, int]] = {}  # register -> value -> the line of its write's call
        self.open_calls: dict[int, Operation] = {}
        self.crashes: dict[int, int] = {}

    def take(self, line: int, event: dict[str, Any]) -> None:
        """Takes the event of a line. Raises Refused with the lowest of 9 to 14 and 19 that applies."""
        what, process = event["event"], event["process"]
        if what == "call":
            self.check_call(line, event)
        elif what != "crash":
            self.check_end(line, event)
        if self.events == self.limit:
            raise Refused(14, line)
        if process in self.crashes:
            raise Refused(19, line, self.crashes[process])
        if what == "reply":
            check_answer(line, event, self.open_calls[process])
        self.events += 1
        if what == "call":
            self.begin(line, event)
        elif what == "crash":
            self.crashes[process] = line
            self.open_calls.pop(process, None)
        else:
            self.end(line, event)

    def check_call(self, line: int, event: dict[str, Any]) -> None:
        open_call = self.open_calls.get(event["process"])
        if open_call is not None:
            raise Refused(9, line, open_call.line)
        if event["op"] == "write" and not self.search:
            earlier = self.written.get(event["register"], {}).get(event["value"])
            if earlier is not None:
                raise Refused(13, line, earlier)

    def check_end(self, line: int, event: dict[str, Any]) -> None:
        """Of a reply or a fail."""
        call = self.open_calls.get(event["process"])
        if call is None:
            if event["process"] not in self.crashes:
                raise Refused(10, line)
            return
        if not agrees(event, call):
            raise Refused(11, line)
        told = "value" in event or (self.search and "found" in event)
        if event["event"] == "reply" and is_read(call) and not told:
            raise Refused(12, line)

    def begin(self, line: int, event: dict[str, Any]) -> None:
        process, register, op = event["process"], event["register"], event["op"]
        call = Operation(line, register, op, event.get("value"))
        call.process = process
        if op == "cas":
            call.unless = "unless" in event
            call.asked, call.value = event["unless" if call.unless else "from"], event["to"]
            call.asks_old = event.get("old") is True
        self.open_calls[process] = call
        self.registers.setdefault(register, []).append(call)
        if op == "write":
            self.written.setdefault(register, {})[event["value"]] = line

    def end(self, line: int, event: dict[str, Any]) -> None:
        call = self.open_calls.pop(event["process"])
        if event["event"] == "fail":
            call.failed = True
            return
        call.end = line
        if call.is_cas:
            call.took = event["ok"]
        elif call.op != "write" and not ("value" in event and is_read(call)):
            call.found = event.get("found")
        if is_read(call):
            call.value = event.get("value")
        if call.asks_old and "old" in event:
            call.tells_old, call.old = True, event["old"]

    def without_failed(self) -> None:
        """Leaves out the calls that failed; a register keeps its place even if none is left."""
        for name, calls in self.registers.items():
            self.registers[name] = [call for call in calls if not call.failed]


def agrees(event: dict[str, Any], call: Operation) -> bool:
    """Each thing that a reply or a fail says is as in its call."""
    op, register = event.get("op", call.op), event.get("register", call.register)
    if op != call.op or register != call.register:
        return False
    value = event.get("value")
    if call.is_write:
        return value is None or value == call.value
    return (event["event"] == "reply" and not call.is_cas) or value is None


def check_answer(line: int, event: dict[str, Any], call: Operation) -> None:
    """What the reply of a call tells beside its value. Raises Refused with 21 or 22."""
    if call.is_cas and type(event.get("ok")) is not bool:
        raise Refused(21, line)
    if not answer_fits(event, call):
        raise Refused(22, line)


def answer_fits(event: dict[str, Any], call: Operation) -> bool:
    """Whether `found` and `old`, where they count, have their form, are there if they must, and agree."""
    has_old, old = call.asks_old and "old" in event, event.get("old")
    if has_old and not (old is None or is_value(old)):
        return False
    if call.is_cas:
        took = (old == call.asked) != call.unless
        return not has_old or event["ok"] == took
    if call.op == "write" or (is_read(call) and "value" in event):
        return True
    if "found" not in event:
        return has_old or call.op == "delete"
    return type(event["found"]) is bool and (not has_old or event["found"] == (old is not None))


def is_read(call: Operation) -> bool:
    return call.op == "read"


def read_history(history: bytes, limits: bool, search: bool = False) -> History:
    """Raises Refused for the first faulty line. The limits are those on the input and on its events. With
    `search` the rules are those of regsearch."""
    if limits and len(history) > MAX_BYTES:
        raise Refused(15)
    taken = History(MAX_EVENTS if limits else FOREVER, search)
    for number, line in numbered_lines(history):
        taken.take(number, event_of(number, line, search))
    taken.without_failed()
    return taken


def event_of(number: int, line: bytes, search: bool = False) -> dict[str, Any]:
    """The event of a line. Raises Refused with the lowest of 1 to 8 and 20 that applies."""
    if len(line) > MAX_LINE:
        raise Refused(1, number)
    try:
        event = json_of(line)
    except NotJson:
        raise Refused(2, number) from None
    if type(event) is not dict:
        raise Refused(3, number)
    if not is_whole(event.get("process"), 0, MAX_PROCESS):
        raise Refused(4, number)
    what = event.get("event")
    if what not in EVENTS:
        raise Refused(5, number)
    if what != "crash":
        ops = SEARCH_OPS if search else OPS
        fault = call_fault(event, ops) if what == "call" else end_fault(event, ops)
        if fault:
            raise Refused(BAD_OP_OF_SEARCH if search and fault == 6 else fault, number)
    return event


def call_fault(event: dict[str, Any], ops: tuple[str, ...]) -> int:
    op, value = event.get("op"), event.get("value")
    if op not in ops:
        return 6
    if not is_name(event.get("register")):
        return 7
    fits = is_value(value) if op in ("write", "swap") else value is None
    if not fits:
        return 8
    return 20 if op == "cas" and not is_change(event) else 0


def is_change(cas: dict[str, Any]) -> bool:
    """Whether the two values of a cas are there and of their form: `to`, and one of `from` and `unless`."""
    named = [name for name in ("from", "unless") if name in cas]
    return len(named) == 1 and "to" in cas and all(
        cas[name] is None or is_value(cas[name]) for name in (*named, "to"))


def end_fault(event: dict[str, Any], ops: tuple[str, ...]) -> int:
    """Of a reply or a fail, which may leave out its op, its register and its value."""
    if "op" in event and event["op"] not in ops:
        return 6
    if "register" in event and not is_name(event["register"]):
        return 7
    value = event.get("value")
    return 0 if value is None or is_value(value) else 8


def is_whole(number: Any, least: int, greatest: int) -> bool:
    return type(number) is int and least <= number <= greatest  # isinstance would let True and False pass


def is_value(value: Any) -> bool:
    return is_whole(value, LEAST_VALUE, GREATEST_VALUE)


def is_name(name: Any) -> bool:
    return type(name) is str and 0 < len(name.encode("utf-8")) <= MAX_NAME
