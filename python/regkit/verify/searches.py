"""What each key of a report of regsearch claims, and how it is checked.

A yes is replayed along its order. Of a no, the order of what was known before the reply is replayed, the
calls that were open at the reply are looked up, and that there is no order with the reply is searched again,
in a plain way and up to a bound.
"""
from typing import Any, Iterator, NamedTuple, Optional, Sequence

from regkit.verify.operations import FOREVER, History, Operation, is_read
from regkit.verify.rows import Lines, Row, is_number, lines_of, need, with_name

MOST_STEPS = 1_000_000  # of one search: how often it may look at an open call
BOUNDS = ("steps", "configurations")
KEYS = {"yes": {"order", "points"}, "no": {"fault"}, "unknown": {"gave_up"}}

Value = Optional[int]
Configuration = tuple[Value, frozenset[int]]  # the register's value, and the open calls that took effect


class Nos(NamedTuple):
    """How the nos of a report were checked."""

    by_definition: int = 0  # a value that nobody wrote
    searched: int = 0  # again, and there is no order
    unsearched: int = 0  # it would have taken too long
    listed: int = 0  # of all, those that list the calls which were open, and these were


def check_search_report(history: History, rows: Sequence[Row]) -> Nos:
    """Checks each claim of a report of regsearch. Raises Wrong."""
    *lines, summary = rows
    named = [line.get("register") for line in lines]
    need(named == list(history.registers),
         "the lines aren't those of the registers, in the order of their first calls")
    kinds: list[str] = []
    for line in lines:
        name = line["register"]
        with_name(name, check_line, history.registers[name], line, kinds)
    check_summary(history, lines, summary)
    return Nos(*(kinds.count(kind) for kind in Nos._fields))


def check_summary(history: History, lines: Sequence[Row], summary: Row) -> None:
    words = {line["atomic"] for line in lines}
    said = "no" if "no" in words else "unknown" if "unknown" in words else "yes"
    operations = sum(map(len, history.registers.values()))
    need(summary.get("atomic") == said, f"by the registers' lines, the summary's `atomic` is {said}")
    need(is_number(summary.get("operations"), operations), f"there are {operations} operations")
    need(is_number(summary["registers"], len(lines)), f"there are {len(lines)} registers")
    need(set(summary) == {"atomic", "operations", "registers"}, "the summary has other keys")


def check_line(operations: list[Operation], line: Row, kinds: list[str]) -> None:
    """Adds to `kinds` how a no was checked."""
    atomic = line.get("atomic")
    need(type(atomic) is str and atomic in KEYS, "`atomic` is neither yes, no nor unknown")
    counts = {"reads": sum(map(is_read, operations)), "writes": sum(a.is_write for a in operations),
              "cas": sum(a.is_cas for a in operations), "pending": sum(not a.completed for a in operations)}
    for key, count in counts.items():
        need(is_number(line.get(key), count), f"`{key}` is {count}")
    due = {"atomic", "register", *counts, *KEYS[str(atomic)]}
    need(set(line) == due, f"its keys are not {', '.join(sorted(due))}")
    if atomic == "no":
        kinds.append(check_fault(operations, line["fault"]))
        kinds += ["listed"] if "asks" in line["fault"] else []
        return
    for found in unwritten_calls(operations):
        need(False, f"line {found.line} found a value that nobody wrote")
    if atomic == "yes":
        check_order(operations, lines_of(line, "order"))
        check_points(lines_of(line, "order"), lines_of(line, "points"))
    else:
        need(line["gave_up"] in [{"bound": bound} for bound in BOUNDS],
             "`gave_up` names no bound of a search")


# ---- An order


def check_order(operations: list[Operation], order: Lines, end: float = FOREVER) -> None:
    """Whether these lines are a legal order of what was called before some line, of which all that replied
    before it has to be there."""
    called = {a.line: a for a in operations if a.line < end}
    need(len(set(order)) == len(order), "an order has an operation twice")
    for line in order:
        need(line in called, f"an order has line {line}, which doesn't belong there")
    lacking = {a.line for a in called.values() if a.end < end} - set(order)
    need(not lacking, f"an order lacks line {min(lacking, default=0)}")
    value: Value = None
    latest = 0
    for a in map(called.__getitem__, order):
        need(a.end >= latest, f"line {a.line} stands after line {latest}, which was called after its reply")
        latest = max(latest, a.line)
        need(suits(a, value), f"line {a.line} doesn't fit the value {value} that its register has there")
        value = left_by(a, value)


def check_points(order: Lines, points: Lines) -> None:
    need(len(points) == len(order), "`points` has not as many places as `order`")
    latest = 0
    for line, point in zip(order, points):
        latest = max(latest, line)
        need(point == latest, f"the point of line {line} is {latest}")


def changes(a: Operation) -> bool:
    """Whether it may change the value."""
    return a.is_write or (a.is_cas and a.took is not False)


def suits(a: Operation, value: Value) -> bool:
    """Whether an operation may take effect where its register has a value."""
    if a.tells_old and value != a.old:
        return False
    if a.found is not None:
        return a.found == (value is not None)
    if a.is_cas:
        return ((value == a.asked) != a.unless) != (a.took is False)
    return a.is_write or not a.completed or value == a.value


def surely_found(a: Operation) -> Value:
    """The value that a completed operation must have met; None if several would do, or if it is null."""
    if a.tells_old:
        return a.old
    if a.is_cas:
        return a.asked if a.took != a.unless else None
    return a.value if is_read(a) else None


def left_by(a: Operation, value: Value) -> Value:
    return a.value if changes(a) else value


# ---- A fault


def check_fault(operations: list[Operation], fault: Any) -> str:
    """Says how it was checked: the name of a count of Nos."""
    need(type(fault) is dict, "`fault` is not an object")
    if fault.get("kind") == "unwritten":
        need(set(fault) == {"call", "kind"}, "the keys of the fault are not call, kind")
        need(any(is_number(fault["call"], a.line) for a in unwritten_calls(operations)),
             f"line {fault['call']} is no call that found a value that nobody wrote")
        return "by_definition"
    need(fault.get("kind") == "search", "no fault is of that kind")
    need(set(fault) | {"asks", "before"} == {"asks", "before", "kind", "reply"},
         "the keys of the fault are not asks, before, kind, reply")
    reply = fault["reply"]
    need(any(is_number(reply, int(a.end)) for a in operations if a.completed), f"line {reply} is no reply")
    if "asks" in fault:  # the first reports of regsearch lacked it
        check_open(operations, lines_of(fault, "asks"), reply)
    if "before" in fault:
        check_order(operations, lines_of(fault, "before"), reply)
    found = has_order(operations, reply)
    need(found is not True, f"what was called before line {reply} has a legal order")
    return "unsearched" if found is None else "searched"


def check_open(operations: list[Operation], asks: Lines, reply: int) -> None:
    """The calls that are open at a reply came before it, and have no earlier one."""
    due = [a.line for a in operations if a.line < reply <= a.end]
    lacking, others = set(due) - set(asks), set(asks) - set(due)
    need(not lacking, f"`asks` lacks line {min(lacking, default=0)}, a call that is open at line {reply}")
    need(not others, f"`asks` has line {min(others, default=0)}, which is no call that is open "
         f"at line {reply}")
    need(asks == due, "`asks` isn't in the order of the calls, or has one twice")


def unwritten_calls(operations: list[Operation]) -> Iterator[Operation]:
    """The completed operations which found a number that nobody wrote."""
    written = {None, *(a.value for a in operations if changes(a))}
    for a in operations:
        if a.completed and surely_found(a) not in written:
            yield a


def has_order(operations: list[Operation], end: int) -> Optional[bool]:
    """Whether what was called before line `end` has a legal order in which all that replied up to that line
    stands. None if the search would take too long.

    It goes through the lines, and keeps each value that the register may have, with the open calls that took
    effect. What replied later and changes nothing is left out: it may be dropped from each order."""
    left = MOST_STEPS
    opened: dict[int, Operation] = {}
    found: set[Configuration] = {(None, frozenset())}
    for line, a in events_of(operations, end):
        if line == a.line:
            opened[line] = a
            continue
        known, left = reached(found, a, list(opened.values()), left)
        if left < 0:
            return None
        del opened[a.line]
        found = {(value, done - {a.line}) for value, done in known if a.line in done}
    return bool(found)


def reached(found: set[Configuration], a: Operation, opened: list[Operation],
            left: int) -> tuple[set[Configuration], int]:
    """What can be reached by letting open calls take effect until `a` did, and how many steps are left.

    A call that fits the value and doesn't change it takes effect at once: in any order where it comes later
    it may be moved to this place."""
    changing = [b for b in opened if changes(b)]
    others = [b for b in opened if not changes(b)]

    def settled(value: Value, done: frozenset[int]) -> Configuration:
        return value, done | {b.line for b in others if suits(b, value)}

    known = {settled(*each) for each in found}
    ahead = list(known)
    while ahead and left >= 0:
        value, done = ahead.pop()
        left -= len(opened)
        if a.line in done:
            continue
        for b in changing:
            if b.line not in done and suits(b, value):
                now = settled(left_by(b, value), done | {b.line})
                if now not in known:
                    known.add(now)
                    ahead.append(now)
    return known, left


def events_of(operations: list[Operation], end: int) -> list[tuple[int, Operation]]:
    """The lines of the calls before a line, and of the replies up to it, in order."""
    called = [a for a in operations if a.line < end and (a.end <= end or changes(a))]
    replies = [(int(a.end), a) for a in called if a.end <= end]
    return sorted([*((a.line, a) for a in called), *replies], key=lambda event: event[0])
