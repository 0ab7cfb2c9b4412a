"""One register: its operations, and at which levels it is safe and regular."""
import json
from bisect import bisect_left
from typing import Any, Optional

from regkit.verify.operations import Operation, initial_write
from regkit.verify.rows import Row, is_number, lines_of, need


class Register:
    """The operations of one register."""

    def __init__(self, name: str, operations: list[Operation]) -> None:
        initial = initial_write(name)
        self.operations = operations  # by call, without the initial write
        self.by_line: dict[int, Operation] = {a.line: a for a in [initial, *operations]}
        self.writes = [a for a in operations if a.is_write]
        self.reads = [a for a in operations if not a.is_write]
        self.completed_reads = [a for a in self.reads if a.completed]
        self.write_of: dict[Optional[int], Operation] = {a.value: a for a in [initial, *self.writes]}
        self.single_writer = len({a.process for a in self.writes}) <= 1


def operation_of(register: Register, line: Any) -> Operation:
    is_one = type(line) is int and line in register.by_line
    need(is_one, f"{json.dumps(line)} is not the line of an operation of this register")
    return register.by_line[line]


def pair_of(register: Register, row: Row, key: str) -> list[Operation]:
    pair = [operation_of(register, line) for line in lines_of(row, key)]
    need(len(pair) == 2, f"`{key}` is not a pair")
    return pair


def check_levels(register: Register, line: Row) -> None:
    """Each completed read is looked at again. The line has to name the first one that breaks a level."""
    if not register.single_writer:
        need(line.get("safe") == line.get("regular") == "several writers", "several processes write")
        return
    for level, first in zip(("safe", "regular"), first_breaks(register)):
        if first is None:
            need(line.get(level) == "yes", f"no read breaks `{level}`")
        else:
            holds = line.get(level) == "no" and is_number(line.get(f"{level}_read"), first)
            need(holds, f"line {first} is the first read that breaks `{level}`")


def first_breaks(register: Register) -> tuple[Optional[int], Optional[int]]:
    """The first reads by call that aren't safe and aren't regular, of a register with a single writer.

    The writes of one process follow one another, so their calls and their replies both ascend.
    """
    writes = [register.by_line[0], *register.writes]
    calls, replies = [w.line for w in writes], [w.end for w in writes]
    safe = regular = None
    for read in register.completed_reads:
        ended = bisect_left(replies, read.line)  # this many writes precede the read: the last is the old one
        begun = bisect_left(calls, read.end)  # this many begin before it ends: all but the `ended` overlap it
        if read.value == writes[ended - 1].value:
            continue
        if safe is None and begun == ended:
            safe = read.line
        write = register.write_of.get(read.value)
        if regular is None and (write is None or write.end < read.line or read.end < write.line):
            regular = read.line
    return safe, regular
