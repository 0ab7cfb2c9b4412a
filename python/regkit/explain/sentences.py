"""Operations and faults in words."""
from typing import Optional

from regkit.checker.report import Row
from regkit.explain.nearest import Pair, precedence_between, with_reads
from regkit.history.operations import History, Operation
from regkit.history.who import process_of
from regkit.words.quoting import quoted


def value_of(operation: Operation) -> str:
    return "null" if operation.value is None else str(operation.value)


def change_of(call: Operation) -> str:
    """`write of 11`, `cas from 0 to 1`, `cas to 5 unless null`, `delete` or `swap to 7`."""
    if call.kind == "cas":
        asked, value = "null" if call.asked is None else str(call.asked), value_of(call)
        return f"cas to {value} unless {asked}" if call.unless else f"cas from {asked} to {value}"
    said = {"write": f"write of {value_of(call)}", "swap": f"swap to {value_of(call)}"}
    return said.get(call.kind, call.kind)


def wanted_of(call: Operation) -> str:
    """The value that a call found or asks for, or the only one that it doesn't."""
    value = None if call.guard is None else call.guard.value
    return "null" if value is None else str(value)


def told_of(call: Operation) -> str:
    """`that took place`, `that found nothing`: what the reply to a change tells. Empty if that is nothing."""
    told = {True: "took place", False: "missed", None: ""}[call.took]
    found = wanted_of(call) if call.tells_old else {True: "a value", False: "nothing", None: ""}[call.found]
    said = " and ".join(filter(None, (found and f"found {found}", told)))
    return f"that {said}" if said else ""


def lines_of(operation: Operation) -> str:
    """The lines of the call and of what ended it."""
    begin, end = operation.line, operation.end_line
    if operation.completed:
        return f"lines {begin} to {end}"
    if operation.failed:
        return f"lines {begin} to {end}, failed"
    if operation.ending == "crash":
        return f"line {begin}, open when its process crashed at line {end}"
    return f"line {begin}, never answered"


def named(operation: Operation) -> str:
    """`the write of 11 by process 3 (lines 196 to 200)`."""
    if operation.line == 0:
        return "the initial write of null"
    told = f" {told_of(operation)}," if told_of(operation) else ""
    return f"the {what_of(operation)}{told} by {process_of(operation)} ({lines_of(operation)})"


def what_of(operation: Operation) -> str:
    """`read of 3`, or a change."""
    if operation.kind != "read":
        return change_of(operation)
    return f"read of {value_of(operation)}" if operation.completed and operation.found is None else "read"


def precedence(before: Operation, after: Operation) -> str:
    """Why one operation can't take effect after another."""
    if before.line == 0:
        return f"{named(before)} came before {named(after)}"
    return f"{named(before)} ended before {named(after)} began"


def contradiction(pairs: list[Pair], values: tuple[str, str]) -> list[str]:
    """Two precedences that put the writes of two values in both orders."""
    (first, second), (old, new) = pairs, values
    return [f"{precedence(*first)}, so {old} comes before {new}",
            f"{precedence(*second)}, so {new} comes before {old}"]


def failed_write(history: History, read: Operation) -> Optional[Operation]:
    """The failed write of the value that a read gave, if there is one."""
    for call in history.registers[read.register]:
        if call.kind == "write" and call.failed and call.value == read.value:
            return call
    return None


def elsewhere(history: History, read: Operation) -> Optional[Operation]:
    """The only write of the value to another register, if it began before the read ended."""
    end = read.end_line or 0
    writes = [call for call in history.calls
              if call.kind == "write" and call.value == read.value and call.line < end]
    return writes[0] if len(writes) == 1 and writes[0].register != read.register else None


def unwritten(history: History, read: Operation) -> list[str]:
    """A value that no operation wrote: a failed call did, another register has it, or nobody."""
    failed = failed_write(history, read)
    if failed is not None:
        return [f"{named(read)} gave a value that was written only by a call that failed: {named(failed)}"]
    sentences = [f"{named(read)} gave a value that nobody wrote to this register"]
    other = elsewhere(history, read)
    if other is not None:
        sentences.append(f"register {quoted(other.register)} was given this value, by {named(other)}")
    return sentences


def early(read: Operation, write: Operation) -> list[str]:
    return [f"{named(read)} ended before the write of its value began: {named(write)}"]


def pairs_of(history: History, row: Row) -> list[Pair]:
    """The two precedences of a conflict: of each, the operation that ended before the other one began. They
    are between the values that the report names, and of all such operations the easiest to follow."""
    fault, register = row["fault"], row["register"]
    calls = history.registers[register]
    old, new = (with_reads(history.operation(register, line), calls) for line in fault["writes"])
    reported = [(history.operation(register, begin), history.operation(register, end))
                for begin, end in (fault["first"], fault["second"])]
    return [precedence_between(old, new) or reported[0], precedence_between(new, old) or reported[1]]


def zones(history: History, row: Row) -> list[str]:
    old, new = (value_of(history.operation(row["register"], line)) for line in row["fault"]["writes"])
    return contradiction(pairs_of(history, row), (old, new))


def fault_of(history: History, row: Row) -> list[str]:
    """The fault of a register's line of the report, in sentences without their full stops."""
    fault, register = row["fault"], row["register"]
    if fault["kind"] == "zones":
        return zones(history, row)
    read = history.operation(register, fault["read"])
    if fault["kind"] == "early":
        return early(read, history.operation(register, fault["write"]))
    return unwritten(history, read)


def inversion(history: History, row: Row) -> list[str]:
    """A regular register whose reads went back, in a sentence."""
    if row.get("regular") != "yes" or row["fault"]["kind"] != "zones":
        return []
    new, old = pairs_of(history, row)[1]
    if "inversion" in row and {new.kind, old.kind} != {"read"}:
        new, old = (history.operation(row["register"], line) for line in row["inversion"])
    return [f"this is a new-old inversion: the read of line {new.line} gave {value_of(new)}, the new value, "
            f"and the later read of line {old.line} gave {value_of(old)}, the old one"]
