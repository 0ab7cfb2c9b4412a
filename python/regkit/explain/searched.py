"""What `regsearch` reports of a register, in sentences."""
from typing import NamedTuple, Optional, Sequence

from regkit.checker.report import Row
from regkit.explain.sentences import named, value_of, wanted_of
from regkit.history.operations import History, Operation
from regkit.words.phrases import counted

MOST_OPEN = 6  # open calls that are named
BOUNDS = ("configurations", "steps")  # of a search


class Contradicted(NamedTuple):
    """A reply that no order explains, with what was known just before it."""

    call: Operation  # whose reply it is
    line: int
    before: Optional[list[Operation]]  # an order of what was known until then, if the search found one
    opened: list[Operation]  # the other calls that were open


def is_unwritten(row: Row) -> bool:
    return bool(row["fault"]["kind"] == "unwritten")


def contradicted(history: History, row: Row) -> Contradicted:
    """The fault of a search. Raises KeyError if it isn't of this history."""
    fault, calls = row["fault"], history.registers[row["register"]]
    by_line: dict[int, Operation] = {call.line: call for call in calls}
    line = fault["reply"]
    found = next((call for call in calls if call.completed and call.end_line == line), None)
    if found is None:
        raise KeyError(line)
    before = [by_line[each] for each in fault["before"]] if "before" in fault else None
    opened = [by_line[each] for each in fault["asks"]] if "asks" in fault else [
        call for call in calls if is_open(call, line)]
    return Contradicted(found, line, before, [call for call in opened if call is not found])


def is_open(call: Operation, line: int) -> bool:
    """Whether a call may take effect just before a line. One that failed never does."""
    return call.line < line and not call.failed and not (call.completed and (call.end_line or 0) < line)


def value_after(order: Sequence[Operation]) -> Optional[Operation]:
    """What wrote the value that an order leaves; None if that is the initial null."""
    return next((call for call in reversed(order) if call.writes), None)


def may_explain(other: Operation, call: Operation) -> bool:
    """Whether another call would leave a value that the answer to a call needs."""
    return call.guard is not None and other.writes and call.suits(other.value)


def likeliest_first(opened: Sequence[Operation], call: Operation) -> list[Operation]:
    """The calls that were open at a reply: first those that could explain it, then what was answered later
    and changes the value, then reads; and last what nobody answered, the oldest at the end."""
    def place(other: Operation) -> tuple[bool, bool, bool, int]:
        lingers = other.pending and other.writes
        return not may_explain(other, call), lingers, not other.writes, -other.line if lingers else other.line

    return sorted(opened, key=place)


def needed(call: Operation) -> str:
    """The value that the answer to a call needs."""
    is_other = call.guard is not None and call.guard.is_other
    return f"something else than {wanted_of(call)}" if is_other else wanted_of(call)


def must_have_been(told: Contradicted) -> str:
    """What the reply says of the value, and that no order has it."""
    call, line = told.call, told.line
    must = f"the value must have been {needed(call)}" if call.guard else "it must have taken effect"
    return (f"{named(call)}: {must} at some moment from line {call.line} to line {line}, and no order of the "
            f"operations called before line {line} in which it comes at such a moment gives the other answers")


def open_then(other: Operation, told: Contradicted) -> str:
    """A call that was open at the reply, and why it doesn't help if it seems to."""
    if not may_explain(other, told.call):
        return f"open then: {named(other)}"
    return (f"open then: {named(other)}, which would leave {value_of(other)}; but no order in which the "
            f"{told.call.kind} of line {told.call.line} finds that gives the other answers")


def why_none_of(told: Contradicted) -> list[str]:
    """The calls that were open at the reply, and why none of them helps."""
    opened = likeliest_first(told.opened, told.call)
    if not opened:
        return ["no other call of this register was open then"]
    lines = [open_then(other, told) for other in opened[:MOST_OPEN]]
    if told.call.guard is not None and not may_explain(opened[0], told.call):
        lines.insert(0, f"no call that was open then would leave {needed(told.call)}")
    if len(opened) > MOST_OPEN:
        lines.append(f"and {counted(len(opened) - MOST_OPEN, 'other open call')}")
    return lines


def search_sentences(history: History, row: Row) -> list[str]:
    """Why a search found no order."""
    told = contradicted(history, row)
    lines = [must_have_been(told)]
    if told.before is not None:
        last = value_after(told.before)
        left = "null, the initial value" if last is None else f"{value_of(last)}, by {named(last)}"
        lines.append(f"until then there was an order, and at the end of one the value is {left}")
    return lines + why_none_of(told)


def without_effect(history: History, call: Operation) -> Optional[Operation]:
    """A call that failed or missed, and would have written the value that a call found, if there is one."""
    value = None if call.guard is None else call.guard.value
    for other in history.registers[call.register]:
        if other.kind != "read" and other.value == value and (other.failed or other.missed):
            return other
    return None


def unwritten_sentences(history: History, row: Row) -> list[str]:
    """A value that a call found, and nobody wrote."""
    register, line = row["register"], row["fault"]["call"]
    call = history.operation(register, line)
    if call not in history.registers[register]:
        raise KeyError(line)
    found = "gave" if call.kind == "read" else "found"
    other = without_effect(history, call)
    if other is not None:
        why = "failed" if other.failed else "missed"
        return [f"{named(call)} {found} {wanted_of(call)}, which only a call that {why} would have written: "
                f"{named(other)}"]
    return [f"{named(call)} {found} {wanted_of(call)}, which nobody wrote to this register"]


def sentences_of(history: History, row: Row) -> list[str]:
    """The fault of a register's line of a report of regsearch, in sentences without their full stops."""
    return (unwritten_sentences if is_unwritten(row) else search_sentences)(history, row)


def bounds_of(rows: Sequence[Row]) -> list[str]:
    """The bounds at which the searches of some registers gave up. Raises KeyError."""
    met = {row["gave_up"]["bound"] for row in rows}
    return [bound for bound in BOUNDS if bound in met]


def what_to_do(rows: Sequence[Row], dashes: str = "--") -> str:
    """What to do about registers that are unknown. Arguments of a function are named without dashes."""
    raised = " and ".join(f"`{dashes}{bound}`" for bound in bounds_of(rows))
    return (f"raise {raised}; or record runs with fewer calls open at once, fewer crashed calls (a call that "
            "nothing answers stays open to the end), or more registers; or let each write of a register "
            "write a value of its own, and use no cas: that needs no search")
