#!/usr/bin/env python3
"""What regsearch has to answer, straight from the definitions, by trying all orders.

    tests/search_judge.py answer HISTORY                 a right report, or the refusal; the exit status
    tests/search_judge.py judge HISTORY STATUS REPORT    whether an answer is right: status 0, or 1

Options of the program, such as `--steps 5`, may follow the history or the report.

Lines are read and refused as in tests/reference.py; nothing else is shared with it. An operation's times are
the lines of its call and its reply. Only registers of up to 12 operations are searched, and up to 19 pending
cas beside them: those have to be decided, and a no has to name the first hopeless reply and an order before
it. If low bounds were given, any hopeless reply will do. Of larger registers only what the report itself
shows is looked at. A register without cas whose written values are distinct has to be decided in any case.
`-` is standard input.
"""
import sys
from typing import Any, Dict, List, NamedTuple, Optional, Sequence, Set, Tuple

import judging
import reference
from judging import Ended, Row, Wrong, compare, rows_in, wrong

SEARCHED = 12  # the most operations whose orders are all searched,
PENDING_CAS = 19  # and the most pending cas beside them
END = sys.maxsize  # a line after all others
OPTIONS = reference.Options(cas=True)
STATUSES = {"yes": 0, "no": 1, "unknown": 6}
MEMBERS = {"yes": {"order", "points"}, "no": {"fault"}, "unknown": {"gave_up"}}
BOUNDS = ("configurations", "steps")
BOUNDED = {f"--{bound}" for bound in BOUNDS}

Value = Optional[int]


class Operation(NamedTuple):
    line: int  # of its call
    reply: int  # the line of its reply; END if it is pending
    op: str  # read, write or cas: what it counts as
    asks: str  # that the value it meets is "any", "this" one or an "other" one
    asked: Value  # the value that it asks about
    changes: bool
    given: Value  # the value that it leaves, if it changes anything

    def pending(self) -> bool:
        return self.reply == END

    def suits(self, value: Value) -> bool:
        return self.asks == "any" or (value == self.asked) == (self.asks == "this")

    def left(self, value: Value) -> Value:
        return self.given if self.changes else value


ANY: Tuple[str, Value] = ("any", None)
THERE: Tuple[str, Value] = ("other", None)  # any value but null
GONE: Tuple[str, Value] = ("this", None)


def found_by(reply: reference.Event) -> Tuple[str, Value]:
    """What `found` says of the value that was met. In the reply to a read, `old` says nothing."""
    if reply.found is reference.ABSENT:
        return ANY
    return THERE if reply.found else GONE


def what_was_met(reply: reference.Event) -> Tuple[str, Value]:
    """What the reply to a delete or a swap says of the value that it met."""
    return ("this", reply.old) if reply.old is not reference.ABSENT else found_by(reply)


def cas_of(line: int, call: reference.Event, end: Optional[reference.Event]) -> Operation:
    from_is_there = call.unless is reference.ABSENT
    compared = call.from_value if from_is_there else call.unless
    took_place = end is None or end.ok
    asks = "this" if from_is_there == took_place else "other"
    if end and call.old is True and end.old is not reference.ABSENT:
        asks, compared = "this", end.old
    return Operation(line, end.line if end else END, "cas", asks, compared, took_place, call.to_value)


def operation_of(call: reference.Event, end: Optional[reference.Event]) -> Operation:
    """The operation of a call and its reply, if it has one."""
    line, reply = call.line, end.line if end else END
    if call.op == "cas":
        return cas_of(line, call, end)
    if call.op == "write":
        return Operation(line, reply, "write", *ANY, True, call.value)
    if call.op == "read" and end and end.value is not reference.ABSENT:
        return Operation(line, reply, "read", "this", end.value, False, None)
    if call.op == "read":
        return Operation(line, reply, "read", *(found_by(end) if end else ANY), False, None)
    asks, asked = what_was_met(end) if end else ANY
    if call.op == "swap":
        return Operation(line, reply, "write", asks, asked, True, call.value)
    return Operation(line, reply, "write", asks, asked, (asks, asked) != GONE, None)


def registers_of(events: Sequence[reference.Event]) -> Dict[str, List[Operation]]:
    """The operations of each register, in the order of first calls, failed ones too."""
    found: Dict[str, List[Operation]] = {}
    for at, call in enumerate(events):
        if call.what != "call":
            continue
        operations = found.setdefault(call.register, [])
        end = next((event for event in events[at + 1:] if event.process == call.process), None)
        if end is None or end.what != "fail":
            operations.append(operation_of(call, end if end and end.what == "reply" else None))
    return found


# ---- legal orders of what happened up to some line


def precedes(a: Operation, b: Operation) -> bool:
    return a.reply < b.line


def legal_order(operations: Sequence[Operation], last: int = END) -> Optional[List[int]]:
    """The lines of a legal order of the calls up to line `last`, of which those that replied by then have to
    stand in it. What a call did counts even if its reply is later."""
    called = [a for a in operations if a.line <= last]
    needed = sum(1 << at for at, a in enumerate(called) if not a.pending() and a.reply <= last)
    before = [sum(1 << at for at, b in enumerate(called) if precedes(b, a)) for a in called]
    tried: Set[Tuple[int, Value]] = set()

    def rest(done: int, value: Value) -> Optional[List[int]]:
        if needed & ~done == 0:
            return []
        tried.add((done, value))
        for at, a in enumerate(called):
            if done >> at & 1 or before[at] & ~done or not a.suits(value):
                continue
            now = (done | 1 << at, a.left(value))
            found = None if now in tried else rest(*now)
            if found is not None:
                return [a.line, *found]
        return None

    return rest(0, None)


def why_not_legal(operations: Sequence[Operation], order: Any, last: int = END) -> Optional[str]:
    """None if these lines are a legal order as above."""
    by_line = {a.line: a for a in operations if a.line <= last}
    if not isinstance(order, list) or not all(type(line) is int and line in by_line for line in order):
        return f"{order} isn't a list of lines of calls"
    if len(set(order)) != len(order):
        return f"a line twice in {order}"
    for a in by_line.values():
        if not a.pending() and a.reply <= last and a.line not in order:
            return f"line {a.line} isn't in {order}"
    value: Value = None
    for at, a in enumerate(by_line[line] for line in order):
        for line in order[:at]:
            if precedes(a, by_line[line]):
                return f"line {line} stands before line {a.line}, which precedes it"
        if not a.suits(value):
            return f"line {a.line} meets {value} in {order}"
        value = a.left(value)
    return None


def points_of(order: Sequence[int]) -> List[int]:
    return [max(order[:at + 1]) for at in range(len(order))]


def first_hopeless_reply(operations: Sequence[Operation]) -> Optional[int]:
    if legal_order(operations) is not None:
        return None
    replies = sorted(a.reply for a in operations if not a.pending())
    return next(reply for reply in replies if legal_order(operations, reply) is None)


def first_unwritten(operations: Sequence[Operation]) -> Optional[int]:
    written = {None, *(a.given for a in operations if a.changes)}
    return next((a.line for a in operations
                 if not a.pending() and a.asks == "this" and a.asked not in written), None)


# ---- the report


def counts(name: str, operations: Sequence[Operation]) -> Row:
    kinds = {plural: sum(a.op == op for a in operations)
             for op, plural in (("read", "reads"), ("write", "writes"), ("cas", "cas"))}
    return {"register": name, "pending": sum(a.pending() for a in operations), **kinds}


def open_calls(operations: Sequence[Operation], reply: int) -> List[int]:
    """The lines of the calls before a reply that no earlier reply answers."""
    return sorted(a.line for a in operations if a.line < reply <= a.reply)


def search_fault(operations: Sequence[Operation], reply: int) -> Row:
    """What is determined of the fault of a reply."""
    return {"asks": open_calls(operations, reply), "kind": "search", "reply": reply}


def fault_of(operations: Sequence[Operation]) -> Optional[Row]:
    """What a register's fault has to say, if it has one, but for `before`."""
    line = first_unwritten(operations)
    if line is not None:
        return {"call": line, "kind": "unwritten"}
    reply = first_hopeless_reply(operations)
    return None if reply is None else search_fault(operations, reply)


def row_of(name: str, operations: Sequence[Operation]) -> Row:
    fault = fault_of(operations)
    if fault is None:
        order = legal_order(operations)
        assert order is not None
        return {**counts(name, operations), "atomic": "yes", "order": order, "points": points_of(order)}
    if fault["kind"] == "search":
        fault["before"] = legal_order(operations, fault["reply"] - 1)
    return {**counts(name, operations), "atomic": "no", "fault": fault}


def summary_of(rows: Sequence[Row], registers: Dict[str, List[Operation]]) -> Row:
    words = [row["atomic"] for row in rows]
    atomic = next((word for word in ("no", "unknown") if word in words), "yes")
    return {"atomic": atomic, "operations": sum(map(len, registers.values())), "registers": len(registers)}


def answer(history: bytes) -> Ended:
    """A right answer; one of several, if more than one order is legal."""
    try:
        registers = registers_of(reference.events_of(history, OPTIONS))
    except reference.Refused as refused:
        return judging.refused(refused, OPTIONS)
    rows = [row_of(name, operations) for name, operations in registers.items()]
    rows.append(summary_of(rows, registers))
    return Ended(STATUSES[rows[-1]["atomic"]], reference.report_text(rows), b"")


# ---- whether an answer is right


def judge_yes(row: Row, operations: Sequence[Operation]) -> None:
    why = why_not_legal(operations, row["order"])
    if why:
        wrong("order:", why)
    compare("points", row["points"], points_of(row["order"]))


def is_searched(operations: Sequence[Operation]) -> bool:
    """Whether they are so few that all their orders are tried."""
    pending_cas = sum(a.op == "cas" and a.pending() for a in operations)
    return len(operations) - min(pending_cas, PENDING_CAS) <= SEARCHED


def judge_search_fault(fault: Row, operations: Sequence[Operation], decided: bool) -> None:
    """Of a register that isn't searched, any reply will do."""
    reply = next((a.reply for a in operations if not a.pending() and a.reply == fault.get("reply")), None)
    if reply is None:
        wrong("nothing replies in line", fault.get("reply"))
    said = {key: value for key, value in fault.items() if key != "before"}
    compare("fault, but for before,", said, search_fault(operations, reply))
    why = why_not_legal(operations, fault["before"], reply - 1) if "before" in fault else None
    if why:
        wrong("before:", why)
    if decided and is_searched(operations):
        compare("the first hopeless reply", reply, first_hopeless_reply(operations))
        compare("that there is a before", "before" in fault, True)
    elif is_searched(operations) and legal_order(operations, reply) is not None:
        wrong("the reply of line", reply, "isn't hopeless")


def judge_fault(fault: Any, operations: Sequence[Operation], decided: bool) -> None:
    if not isinstance(fault, dict):
        wrong("fault is", fault)
    line = first_unwritten(operations)
    if line is not None:
        compare("fault", fault, {"call": line, "kind": "unwritten"})
    else:
        judge_search_fault(fault, operations, decided)


def is_distinct(operations: Sequence[Operation]) -> bool:
    """Whether they are reads with their values, and writes that need none, and no value is written twice, nor
    null."""
    written = [a.given for a in operations if a.changes]
    plain = all(a.asks == "any" if a.changes else a.asks != "other" for a in operations)
    return plain and None not in written and len(set(written)) == len(written)


def judge_row(row: Row, name: str, operations: Sequence[Operation], decided: bool) -> None:
    """`decided` says that the bounds let the program decide each small register, whatever its values."""
    wanted, is_certain = counts(name, operations), decided or is_distinct(operations)
    compare("a line without its verdict", {key: row.get(key) for key in wanted}, wanted)
    atomic = row.get("atomic")
    if atomic not in MEMBERS or set(row) != {"atomic", *wanted, *MEMBERS[atomic]}:
        wrong("keys are", *sorted(row), "where atomic is", atomic)
    if atomic == "yes":
        judge_yes(row, operations)
    elif atomic == "no":
        judge_fault(row["fault"], operations, is_certain)
    elif row["gave_up"] not in [{"bound": bound} for bound in BOUNDS]:
        wrong("gave_up is", row["gave_up"])
    elif is_distinct(operations):
        wrong("not decided, with distinct values")
    elif decided and is_searched(operations):
        wrong("not decided, with", len(operations), "operations")
    if atomic != "no" and first_unwritten(operations) is not None:
        wrong("nobody wrote what line", first_unwritten(operations), "found, but atomic is", atomic)


def judge_report(ended: Ended, registers: Dict[str, List[Operation]], decided: bool) -> None:
    rows = rows_in(ended.output)
    if len(rows) != len(registers) + 1:
        wrong(len(rows), "lines for", len(registers), "registers")
    for row, (name, operations) in zip(rows, registers.items()):
        try:
            judge_row(row, name, operations, decided)
        except Wrong as why:
            wrong(f"register {name!r}:", why)
    compare("the summary", rows[-1], summary_of(rows[:-1], registers))
    compare("the exit status", ended.status, STATUSES[rows[-1]["atomic"]])
    compare("standard error", ended.error.decode("utf-8", "replace"), "")


def complaint(history: bytes, ended: Ended, decided: bool = True) -> Optional[str]:
    """None if the program may end so on this history, else what is wrong."""
    try:
        registers = registers_of(reference.events_of(history, OPTIONS))
    except reference.Refused as refused:
        want = judging.refused(refused, OPTIONS)
        return None if ended == want else f"it should end so: {want}"
    try:
        judge_report(ended, registers, decided)
    except Wrong as why:
        return str(why)
    return None


def complaint_about(history: bytes, ended: Ended, options: Sequence[str]) -> Optional[str]:
    """The same of a program with these options, whose names stand by themselves."""
    return complaint(history, ended, not BOUNDED & {*options})


if __name__ == "__main__":
    sys.exit(judging.main(__doc__, lambda history, _: answer(history), complaint_about))
