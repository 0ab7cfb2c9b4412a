#!/usr/bin/env python3
"""What regcheck has to answer, straight from docs/definitions.md and docs/format.md, however slowly.

    tests/reference.py answer HISTORY          the report, or the refusal on standard error; the exit status
    tests/reference.py judge HISTORY REPORT    whether each claim of a report is true: status 0, or 1
    tests/reference.py random --seed 7         a random history of a few operations, refused or accepted

It shares no code with regcheck and regkit, so that both can be compared with it. Where they sort or sweep, it
looks at every pair. It searches all orders of up to 14 operations, so that `atomic` rests on the definition
there, and not on zones. `-` is standard input. tests/histories.py makes the random histories.
"""
import argparse
import functools
import json
import math
import sys
from typing import Any, Dict, FrozenSet, Iterator, List, NamedTuple, NoReturn, Optional, Sequence, Tuple

MAX_INPUT = 67_108_864
MAX_LINE = 65_536
MAX_EVENTS = 1_048_576
MAX_NAME = 255
MAX_PROCESS = 4_294_967_295
MAX_DEPTH = 127  # of lists and objects in one line, as serde_json reads them
SEARCHED = 14  # the most operations whose orders are all searched

TEXTS = {
    1: "line is longer than 65536 bytes",
    2: "not JSON",
    3: "not an object",
    4: "process is not a whole number from 0 to 4294967295",
    5: "event is not call, reply, fail or crash",
    6: "op is neither read nor write",
    7: "register is not a text of 1 to 255 bytes",
    8: "value does not fit the event",
    9: "the process has an open call at line {}",
    10: "reply without an open call",
    11: "reply disagrees with its call",
    12: "a read's reply has no value",
    13: "value already written to this register at line {}",
    14: "more than 1048576 events",
    15: "input is longer than 67108864 bytes",
    19: "the process crashed at line {}",
    20: "from, unless or to does not fit the event",
    21: "a cas's reply has no ok, true or false",
    22: "old or found does not fit the event",
}
WITH_CAS = "op is neither read, write, delete, swap nor cas"  # text 6 of a checker that knows cas


class Options(NamedTuple):
    """Which checker is asked: what it knows, and what it is told."""

    first: bool = False  # the early answer
    cas: bool = False  # whether it knows cas, deletes, swaps, and values written twice: regsearch

    def ops(self) -> Tuple[str, ...]:
        return ("read", "write", "cas", "delete", "swap") if self.cas else ("read", "write")


class Refused(Exception):
    """The input is refused, for this line (15 has none) and this reason."""

    def __init__(self, number: int, line: Optional[int] = None, other: Optional[int] = None) -> None:
        super().__init__(number)
        self.number, self.line, self.other = number, line, other

    def text(self, options: Options) -> str:
        words = TEXTS[self.number].format(self.other)
        if self.number == 6 and options.cas:
            words = WITH_CAS
        return words if self.line is None else f"line {self.line}: {words}"


# ---- JSON, as serde_json reads it


class Members(Tuple[Tuple[str, Any], ...]):
    """The members of an object in order, those of one name too."""


def whole_or_float(text: str) -> Any:
    """An int if it fits 64 bits, else a float, as is -0. What is too large for a float is no JSON."""
    near = finite(text)
    if text == "-0" or abs(near) > 2**65:
        return near
    return int(text) if -(2**63) <= int(text) < 2**64 else near


def finite(text: str) -> float:
    near = float(text)
    if math.isinf(near):
        raise ValueError(text)
    return near


def no_constant(word: str) -> NoReturn:
    raise ValueError(word)


def look_through(value: Any, depth: int) -> None:
    """Raises ValueError for half a surrogate pair, and for lists and objects that nest too deep."""
    if isinstance(value, str):
        value.encode("utf-8")
    if not isinstance(value, (list, Members)):
        return
    if depth == 0:
        raise ValueError("too deep")
    for part in value:
        if isinstance(value, Members):
            look_through(part[0], depth)
            part = part[1]
        look_through(part, depth - 1)


def json_of(line: bytes) -> Any:
    value = json.loads(line.decode("utf-8"), object_pairs_hook=Members, parse_int=whole_or_float,
                       parse_float=finite, parse_constant=no_constant)
    look_through(value, MAX_DEPTH)
    return value


# ---- lines and events: the faults 1 to 8


class Absent:
    """What stands for a member that is not there."""


ABSENT: Any = Absent()


class Event(NamedTuple):
    line: int
    process: int
    what: str  # call, reply, fail or crash
    op: Any = ABSENT
    register: Any = ABSENT
    value: Any = ABSENT
    from_value: Any = ABSENT  # of a cas, as are the next three
    unless: Any = ABSENT
    to_value: Any = ABSENT
    ok: Any = ABSENT
    found: Any = ABSENT
    old: Any = ABSENT


def is_whole(value: Any, least: int, greatest: int) -> bool:
    return type(value) is int and least <= value <= greatest


def is_value(value: Any) -> bool:
    return is_whole(value, -(2**63), 2**63 - 1)


def is_null_or_value(value: Any) -> bool:
    return value is None or is_value(value)


def is_name(value: Any) -> bool:
    return isinstance(value, str) and 1 <= len(value.encode("utf-8")) <= MAX_NAME


def event_of(number: int, line: bytes, options: Options) -> Event:
    """The event of a line. Raises Refused with the lowest number of 1 to 8 that applies."""
    if len(line) > MAX_LINE:
        raise Refused(1, number)
    try:
        value = json_of(line)
    except (ValueError, RecursionError):
        raise Refused(2, number) from None
    if not isinstance(value, Members):
        raise Refused(3, number)
    members: Dict[str, Any] = dict(value)
    process, what = members.get("process", ABSENT), members.get("event", ABSENT)
    if not is_whole(process, 0, MAX_PROCESS):
        raise Refused(4, number)
    if what not in ("call", "reply", "fail", "crash"):
        raise Refused(5, number)
    if what == "crash":
        return Event(number, process, what)
    names = ("op", "register", "value", "from", "unless", "to", "ok", "found", "old")
    event = Event(number, process, what, *(members.get(name, ABSENT) for name in names))
    fault = (call_fault if what == "call" else reply_fault)(event, options)
    if fault:
        raise Refused(fault, number)
    return event


def call_fault(event: Event, options: Options) -> int:
    if event.op not in options.ops():
        return 6
    if not is_name(event.register):
        return 7
    fits = is_value(event.value) if event.op in ("write", "swap") else event.value in (ABSENT, None)
    if not fits:
        return 8
    return 20 if event.op == "cas" and not compares_and_writes(event) else 0


def compares_and_writes(event: Event) -> bool:
    """Whether the call of a cas has one of `from` and `unless`, and `to`, each of its form."""
    compared = [value for value in (event.from_value, event.unless) if value is not ABSENT]
    return len(compared) == 1 and is_null_or_value(compared[0]) and is_null_or_value(event.to_value)


def reply_fault(event: Event, options: Options) -> int:
    """Of a reply or a fail, which need not say anything."""
    if event.op is not ABSENT and event.op not in options.ops():
        return 6
    if event.register is not ABSENT and not is_name(event.register):
        return 7
    return 0 if event.value in (ABSENT, None) or is_value(event.value) else 8


# ---- which histories are accepted: 9 to 14, 19, 21 and 22, of an event after the events before it


def last_of_process(before: Sequence[Event], process: int) -> Optional[Event]:
    return next((event for event in reversed(before) if event.process == process), None)


def agrees(event: Event, call: Event) -> bool:
    """Whether each thing that a reply or a fail says is as in its call."""
    if event.op not in (ABSENT, call.op) or event.register not in (ABSENT, call.register):
        return False
    if call.op in ("write", "swap"):
        return event.value in (ABSENT, None, call.value)
    return (call.op == "read" and event.what == "reply") or event.value in (ABSENT, None)


def says_what_it_met(reply: Event, call: Event) -> bool:
    """Whether `old` and `found` of a reply fit its call, as far as they count."""
    if call.op == "cas":
        if call.old is not True or reply.old is ABSENT:
            return True
        met = reply.old == call.from_value if call.unless is ABSENT else reply.old != call.unless
        return is_null_or_value(reply.old) and reply.ok is met
    if call.op == "read":
        return reply.value is not ABSENT or isinstance(reply.found, bool)
    if call.op == "write":
        return True
    told = [reply.old is not None] if reply.old is not ABSENT else []
    told += [reply.found] if reply.found is not ABSENT else []
    formed = all(type(there) is bool for there in told)
    if not formed or not (reply.old is ABSENT or is_null_or_value(reply.old)):
        return False
    return len(set(told)) <= 1 and (call.op == "delete" or bool(told))


def refusal_of(event: Event, before: Sequence[Event], options: Options) -> Optional[Refused]:
    """The lowest-numbered reason of 9 to 14, 19, 21 and 22 that applies."""
    last = last_of_process(before, event.process)
    open_call = last if last is not None and last.what == "call" else None
    if event.what == "call":
        if open_call is not None:
            return Refused(9, event.line, open_call.line)
        for earlier in () if options.cas else before:
            if event.op == "write" == earlier.op and earlier.what == "call" and same_written(event, earlier):
                return Refused(13, event.line, earlier.line)
    elif event.what != "crash":
        if last is None or last.what in ("reply", "fail"):
            return Refused(10, event.line)
        if open_call is not None and not agrees(event, open_call):
            return Refused(11, event.line)
        is_read = open_call is not None and open_call.op == "read"
        says_nothing = event.value is ABSENT and (event.found is ABSENT or not options.cas)
        if is_read and event.what == "reply" and says_nothing:
            return Refused(12, event.line)
    if len(before) >= MAX_EVENTS:
        return Refused(14, event.line)
    if last is not None and last.what == "crash":
        return Refused(19, event.line, last.line)
    is_cas = open_call is not None and open_call.op == "cas"
    if is_cas and event.what == "reply" and not isinstance(event.ok, bool):
        return Refused(21, event.line)
    if options.cas and open_call is not None and event.what == "reply":
        return None if says_what_it_met(event, open_call) else Refused(22, event.line)
    return None


def same_written(one: Event, other: Event) -> bool:
    return (one.register, one.value) == (other.register, other.value)


def events_of(history: bytes, options: Options) -> List[Event]:
    """The events of an accepted history. Raises Refused for the first faulty line."""
    if len(history) > MAX_INPUT:
        raise Refused(15)
    events: List[Event] = []
    for number, line in enumerate(history.split(b"\n"), 1):
        if all(byte in b" \t\r" for byte in line):
            continue
        event = event_of(number, line, options)
        refusal = refusal_of(event, events, options)
        if refusal:
            raise refusal
        events.append(event)
    return events


# ---- operations


class Operation(NamedTuple):
    """Times: the initial write is called at 0 and replied to at 1, event i (from 0) has time i + 2."""

    line: int  # of its call; 0 for the initial write
    process: Optional[int]
    register: str
    op: str
    value: Optional[int]  # None is null, and also what a pending read gave
    call: int
    reply: int
    pending: bool


def operations_of(events: Sequence[Event]) -> List[Operation]:
    """The calls that didn't fail. A reply that is missing is later than every event."""
    found = []
    for at, event in enumerate(events):
        if event.what != "call":
            continue
        end = next((i for i in range(at + 1, len(events)) if events[i].process == event.process), len(events))
        what = events[end].what if end < len(events) else None
        if what == "fail":
            continue
        replied = what == "reply"
        value = event.value if event.op == "write" else events[end].value if replied else None
        reply = (end if replied else len(events)) + 2
        name = event.register
        found.append(Operation(event.line, event.process, name, event.op, value, at + 2, reply, not replied))
    return found


def initial_write(register: str) -> Operation:
    return Operation(0, None, register, "write", None, 0, 1, False)


def precedes(a: Operation, b: Operation) -> bool:
    return a.reply < b.call


def overlaps(a: Operation, b: Operation) -> bool:
    return not precedes(a, b) and not precedes(b, a)


class Register:
    """The operations of one register, with its initial write first."""

    def __init__(self, name: str, operations: Sequence[Operation]) -> None:
        self.name = name
        self.called = [a for a in operations if a.register == name]
        self.all = [initial_write(name), *self.called]
        self.writes = [a for a in self.all if a.op == "write"]
        self.reads = [a for a in self.called if a.op == "read" and not a.pending]  # the completed ones
        self.writers = {a.process for a in self.writes if a.process is not None}
        self.by_line = {a.line: a for a in self.all}

    def write_of(self, value: Optional[int]) -> Optional[Operation]:
        return next((a for a in self.writes if a.value == value), None)


# ---- safe and regular


def old_write(register: Register, read: Operation) -> Operation:
    return max((w for w in register.writes if precedes(w, read)), key=lambda w: w.call)


def overlapped_writes(register: Register, read: Operation) -> List[Operation]:
    return [w for w in register.writes if overlaps(w, read)]


def keeps(level: str, register: Register, read: Operation) -> bool:
    overlapped = overlapped_writes(register, read)
    if level == "safe":
        return bool(overlapped) or read.value == old_write(register, read).value
    return any(read.value == w.value for w in [old_write(register, read), *overlapped])


def verdict(level: str, register: Register) -> Dict[str, Any]:
    """What the line of a register says of safe or regular."""
    if len(register.writers) > 1:
        return {level: "several writers"}
    broken = [read for read in register.reads if not keeps(level, register, read)]
    if not broken:
        return {level: "yes"}
    return {level: "no", level + "_read": min(broken, key=lambda read: read.call).line}


# ---- clusters, zones and faults


class Cluster:
    """A kept write with all completed reads of its value."""

    def __init__(self, write: Operation, reads: Sequence[Operation]) -> None:
        self.write = write
        self.all = [write, *sorted(reads, key=lambda read: read.call)]
        self.first_reply = min(self.all, key=lambda a: a.reply)
        self.last_call = max(self.all, key=lambda a: a.call)
        self.low_end = min(self.first_reply.reply, self.last_call.call)


def clusters_of(register: Register) -> List[Cluster]:
    found = []
    for write in register.writes:
        reads = [read for read in register.reads if read.value == write.value]
        if reads or not write.pending:
            found.append(Cluster(write, reads))
    return found


def conflict(c: Cluster, d: Cluster) -> bool:
    return c.first_reply.reply < d.last_call.call and d.first_reply.reply < c.last_call.call


def fault_of(register: Register) -> Optional[Dict[str, Any]]:
    """The first kind that applies: unwritten, early, zones."""
    reads = [(read, register.write_of(read.value)) for read in register.reads]
    unwritten = [read for read, write in reads if write is None]
    if unwritten:
        return {"kind": "unwritten", "read": min(unwritten, key=lambda read: read.call).line}
    early = [(read, write) for read, write in reads if write is not None and precedes(read, write)]
    if early:
        read, write = min(early, key=lambda pair: pair[0].call)
        return {"kind": "early", "read": read.line, "write": write.line}
    clusters = clusters_of(register)
    pairs = [(c, d) for c in clusters for d in clusters if c.low_end < d.low_end and conflict(c, d)]
    if not pairs:
        return None
    c, d = min(pairs, key=lambda pair: pair[1].low_end)
    return {"first": [c.first_reply.line, d.last_call.line], "kind": "zones",
            "second": [d.first_reply.line, c.last_call.line], "writes": [c.write.line, d.write.line]}


# ---- legal orders


class Placed(NamedTuple):
    operation: Operation
    point: int  # the greatest call among the operations up to this one


def placed(order: Sequence[Operation]) -> List[Placed]:
    return [Placed(a, max(b.call for b in order[:at + 1])) for at, a in enumerate(order)]


def canonical_order(register: Register) -> List[Placed]:
    """By the low end of the cluster, then the write first, then by call."""
    clusters = sorted(clusters_of(register), key=lambda cluster: cluster.low_end)
    return placed([a for cluster in clusters for a in cluster.all])


def why_not_legal(order: Sequence[Operation]) -> Optional[str]:
    """None if no operation stands after one that it precedes, and reads give their nearest writes' values."""
    for at, a in enumerate(order):
        for b in order[:at]:
            if precedes(a, b):
                return f"line {a.line} stands after line {b.line}, which it precedes"
        writes = [b for b in order[:at] if b.op == "write" and b.register == a.register]
        if a.op == "read" and not a.pending and (not writes or writes[-1].value != a.value):
            return f"line {a.line} doesn't give the nearest write's value"
    return None


def has_legal_order(operations: Sequence[Operation]) -> bool:
    """Searches all orders of all completions. A pending read is dropped, which makes no difference."""
    kept = [a for a in operations if a.op == "write" or not a.pending]
    needed = sum(1 << at for at, a in enumerate(kept) if not a.pending)
    before = [sum(1 << at for at, b in enumerate(kept) if precedes(b, a)) for a in kept]

    @functools.lru_cache(maxsize=None)
    def goes_on(done: int, values: FrozenSet[Tuple[str, Optional[int]]]) -> bool:
        if needed & ~done == 0:
            return True
        for at, a in enumerate(kept):
            if done >> at & 1 or before[at] & ~done:
                continue
            now = dict(values)
            if a.op == "read" and now.get(a.register) != a.value:
                continue
            now[a.register] = a.value
            if goes_on(done | 1 << at, frozenset(now.items())):
                return True
        return False

    return goes_on(0, frozenset())


def must_agree(operations: Sequence[Operation], atomic: bool) -> None:
    """Compares a verdict by zones with that of the definition, if there are few operations."""
    if len(operations) <= SEARCHED and has_legal_order(operations) != atomic:
        raise AssertionError("zones and the search through all orders disagree")


# ---- the report


class Whole:
    """An accepted history: its registers in the order of their first calls, failed ones too."""

    def __init__(self, history: bytes, options: Options) -> None:
        self.events = events_of(history, options)
        self.operations = operations_of(self.events)
        names = dict.fromkeys(event.register for event in self.events if event.what == "call")
        self.registers = [Register(name, self.operations) for name in names]
        self.line_at = {at + 2: event.line for at, event in enumerate(self.events)}
        self.line_at[0] = 0


def row_of(whole: Whole, register: Register) -> Dict[str, Any]:
    fault = fault_of(register)
    must_agree(register.all, fault is None)
    row = {"register": register.name, "atomic": "no" if fault else "yes",
           "writes": sum(a.op == "write" for a in register.called),
           "reads": sum(a.op == "read" for a in register.called),
           "pending": sum(a.pending for a in register.called)}
    row.update(verdict("safe", register))
    row.update(verdict("regular", register))
    if fault is None:
        order = canonical_order(register)
        assert why_not_legal([a for a, _ in order]) is None
        row["order"] = [a.line for a, _ in order if a.line]
        row["points"] = [whole.line_at[point] for a, point in order if a.line]
    else:
        row["fault"] = fault
        if row["regular"] == "yes":
            row["inversion"] = fault["second"]
    return row


def merged_order(whole: Whole) -> List[Operation]:
    """By point, then register, then place in the register's order."""
    every = [(point, number, place, a) for number, register in enumerate(whole.registers)
             for place, (a, point) in enumerate(canonical_order(register))]
    return [a for _, _, _, a in sorted(every, key=lambda entry: entry[:3])]


def rows_of(whole: Whole, options: Options) -> List[Dict[str, Any]]:
    """The lines of the report. With `first`, of the registers only the first that isn't atomic, if any."""
    rows = [row_of(whole, register) for register in whole.registers]
    bad = [row for row in rows if row["atomic"] == "no"]
    must_agree([a for register in whole.registers for a in register.all], not bad)
    summary: Dict[str, Any] = {"atomic": "no" if bad else "yes", "operations": len(whole.operations),
                               "registers": len(rows)}
    if options.first:
        return [*bad[:1], summary]
    if not bad:
        order = merged_order(whole)
        assert why_not_legal(order) is None
        summary["order"] = [a.line for a in order if a.line]
    return [*rows, summary]


def report_text(rows: Sequence[Dict[str, Any]]) -> bytes:
    texts = [json.dumps(row, sort_keys=True, separators=(",", ":"), ensure_ascii=False) for row in rows]
    return "".join(text + "\n" for text in texts).encode("utf-8")


class Answer(NamedTuple):
    """What regcheck should give: exit status, standard output, and standard error without its line feed."""

    status: int
    report: bytes
    refusal: str


def answer(history: bytes, options: Options = Options()) -> Answer:
    try:
        rows = rows_of(Whole(history, options), options)
    except Refused as refused:
        return Answer(2, b"", refused.text(options))
    return Answer(0 if rows[-1]["atomic"] == "yes" else 1, report_text(rows), "")


# ---- whether the claims of some report are true


class Untrue(Exception):
    """A claim of the report that isn't true."""


def must(holds: Any, why: str) -> None:
    if not holds:
        raise Untrue(why)


def same(one: Any, other: Any) -> bool:
    """Equal, and of the same types throughout: in Python 1, 1.0 and true are equal."""
    return json.dumps(one, sort_keys=True) == json.dumps(other, sort_keys=True)


def lines_in(value: Any, by_line: Dict[int, Operation]) -> List[Operation]:
    must(isinstance(value, list), f"{value} is no list")
    must(all(type(line) is int and line in by_line for line in value), "a line that is no operation's")
    return [by_line[line] for line in value]


def judge_order(whole: Whole, register: Register, row: Dict[str, Any]) -> None:
    order = lines_in(row["order"], {a.line: a for a in register.called})
    completed = {a for a in register.called if not a.pending}
    read = {a.value for a in register.reads}
    needed = completed | {w for w in register.writes if w.pending and w.value in read}
    must(set(order) == needed, "others in order")
    must(len(order) == len(set(order)), "one twice in order")
    with_initial = [register.all[0], *order]
    must(why_not_legal(with_initial) is None, str(why_not_legal(with_initial)))
    points = [whole.line_at[point] for _, point in placed(with_initial)]
    must(same(row["points"], points[1:]), "other points")


def in_cluster(a: Operation, write: Operation) -> bool:
    return a == write or (a.op == "read" and not a.pending and a.value == write.value)


def judge_fault(register: Register, fault: Dict[str, Any]) -> None:
    """Any fault that is true will do, not only the one that regcheck names."""
    must(isinstance(fault, dict), "no fault")
    at = register.by_line
    if fault.get("kind") == "zones":
        must(set(fault) == {"first", "kind", "second", "writes"}, "other keys in fault")
        pairs = [lines_in(fault[key], at) for key in ("writes", "first", "second")]
        must(all(len(pair) == 2 for pair in pairs), "no pairs in fault")
        (v, w), (a, b), (c, d) = pairs
        must(v != w and v.op == w.op == "write", "no two writes")
        must(in_cluster(a, v) and in_cluster(d, v), "others than of the first cluster")
        must(in_cluster(b, w) and in_cluster(c, w), "others than of the second cluster")
        must(precedes(a, b) and precedes(c, d), "no precedence")
        return
    early = fault.get("kind") == "early"
    must(set(fault) == ({"kind", "read", "write"} if early else {"kind", "read"}), "other keys in fault")
    read, = lines_in([fault["read"]], at)
    must(read in register.reads, "no completed read")
    write = register.write_of(read.value)
    if early:
        must(write is not None and same(write.line, fault["write"]) and precedes(read, write), "not early")
    else:
        must(fault["kind"] == "unwritten" and write is None, "written")


def judge_row(whole: Whole, row: Dict[str, Any], expected: Dict[str, Any]) -> None:
    """Compares a line with the reference's own, but for the choice of the order, the points and the fault."""
    register = next(r for r in whole.registers if r.name == expected["register"])
    must(set(row) == set(expected), f"other keys: {sorted(set(row) ^ set(expected))}")
    for key in set(row) - {"order", "points", "fault", "inversion"}:
        must(same(row[key], expected[key]), f"{key} is {row[key]}")
    if "order" in row:
        judge_order(whole, register, row)
        return
    judge_fault(register, row["fault"])
    if "inversion" in row:
        must(same(row["inversion"], row["fault"].get("second")), "other inversion")


def judge_merged(whole: Whole, rows: Sequence[Dict[str, Any]], summary: Dict[str, Any]) -> None:
    """By point, then register, then place, of the orders that the lines give; and it is legal."""
    entries = [(point, number, place, line) for number, row in enumerate(rows)
               for place, (line, point) in enumerate(zip(row["order"], row["points"]))]
    must(same(summary["order"], [entry[3] for entry in sorted(entries)]), "other merged order")
    order = lines_in(summary["order"], {a.line: a for a in whole.operations})
    initial = [register.all[0] for register in whole.registers]
    must(why_not_legal([*initial, *order]) is None, "merged order isn't legal")


def report_rows(report: bytes) -> List[Dict[str, Any]]:
    def no_twice(pairs: List[Tuple[str, Any]]) -> Dict[str, Any]:
        must(len(pairs) == len(dict(pairs)), "a key twice")
        return dict(pairs)

    try:
        rows = [json.loads(line, object_pairs_hook=no_twice) for line in report.split(b"\n")[:-1]]
    except ValueError as error:
        raise Untrue("not JSON") from error
    must(rows and report.endswith(b"\n"), "no lines")
    must(all(isinstance(row, dict) for row in rows), "no objects")
    return rows


def judge(history: bytes, report: bytes, options: Options = Options()) -> Optional[str]:
    """None if each claim of the report is true, else the first that isn't."""
    try:
        judge_whole(history, report_rows(report), options)
    except (Untrue, KeyError, IndexError, TypeError, ValueError) as untrue:
        return repr(untrue)
    except Refused as refused:
        return refused.text(options)
    return None


def judge_whole(history: bytes, rows: List[Dict[str, Any]], options: Options) -> None:
    whole = Whole(history, options)
    expected = rows_of(whole, options)
    if "order" not in rows[-1] and len(rows) != len(expected):
        expected = rows_of(whole, options._replace(first=True))
    must(len(rows) == len(expected), "more or fewer lines")
    for row, wanted in zip(rows[:-1], expected[:-1]):
        judge_row(whole, row, wanted)
    summary, wanted = dict(rows[-1]), dict(expected[-1])
    if "order" in wanted:
        judge_merged(whole, rows[:-1], summary)
        del summary["order"], wanted["order"]
    must(same(summary, wanted), "other summary")


# ---- the command line


def read_file(name: str) -> bytes:
    if name == "-":
        return sys.stdin.buffer.read()
    with open(name, "rb") as file:
        return file.read()


def words() -> argparse.Namespace:
    top = argparse.ArgumentParser(description=__doc__, formatter_class=argparse.RawDescriptionHelpFormatter)
    commands = top.add_subparsers(dest="command", required=True)
    for name, files in (("answer", ["history"]), ("judge", ["history", "report"])):
        command = commands.add_parser(name)
        for file in files:
            command.add_argument(file)
        command.add_argument("--first", action="store_true", help="the early answer")
    command = commands.add_parser("random")
    command.add_argument("--seed", type=int, required=True)
    return top.parse_args()


def main() -> int:
    arguments = words()
    if arguments.command == "random":
        import histories  # beside this file
        sys.stdout.buffer.write(histories.random_history(arguments.seed))
        return 0
    options = Options(arguments.first)
    try:
        history = read_file(arguments.history)
    except OSError:
        print("input could not be read", file=sys.stderr)
        return 4
    if arguments.command == "judge":
        untrue = judge(history, read_file(arguments.report), options)
        print(untrue or "true")
        return 1 if untrue else 0
    status, report, refusal = answer(history, options)
    sys.stdout.buffer.write(report)
    if refusal:
        print(refusal, file=sys.stderr)
    return status


if __name__ == "__main__":
    sys.exit(main())
