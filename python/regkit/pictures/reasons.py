"""Why a register didn't keep a level, as a cycle of writes that each have to come before the next, or as a
read of a value that nobody had written yet."""
import json
from typing import Any, NamedTuple, Optional

from regkit.checker.levels import HALVES, LEVELS, kept
from regkit.checker.report import Row

Fault = dict[str, Any]


class Reason(NamedTuple):
    """A fault, and the levels that it breaks."""

    fault: Fault
    levels: list[str]
    gap: Optional[int]  # if the two writes are those of the register's gap


def cycle(writes: list[int], *steps: list[int]) -> Fault:
    return {"kind": "cycle", "steps": list(steps), "writes": writes}


def from_first_write(fault: Fault) -> Fault:
    """A cycle from the write on that was called first, so that the same cycle is told once. Other faults stay
    as they are."""
    if fault["kind"] != "cycle":
        return fault
    writes, steps = fault["writes"], fault["steps"]
    place = writes.index(min(writes))
    return cycle(writes[place:] + writes[:place], *steps[place:], *steps[:place])


def first_stale(row: Row, seen_write: int) -> Fault:
    """The first stale read as a cycle: what had its value ended before the newer write began, and this ended
    before the read began."""
    old = row["stale_read"]
    return cycle([seen_write, old["newer"]], [old["seen"], old["newer"]], [old["newer"], old["read"]])


def unclean(row: Row) -> Optional[Fault]:
    """The first read of a value that nobody had written yet."""
    if "unwritten" in row:
        return {"kind": "unwritten", "read": row["unwritten"]}
    return {"kind": "early", **row["early"]} if "early" in row else None


def fault_of(row: Row, level: str, write_of_stale: Optional[int]) -> Optional[Fault]:
    """Why a level wasn't kept; None if the report says it nowhere."""
    if level == "atomic" and "gap" in row:
        return cycle(row["gap"]["writes"], row["gap"]["first"], row["gap"]["second"])
    if level == "regular" and "stale_read" in row and write_of_stale is not None:
        return first_stale(row, write_of_stale)
    if level in ("atomic", "regular"):
        return unclean(row)
    levels = (level, *HALVES) if level == "session" else (level,)  # what breaks a half breaks the whole
    return next((row[f"{each}_fault"] for each in levels if f"{each}_fault" in row), None)


def reasons_of(row: Row, write_of_stale: Optional[int]) -> list[Reason]:
    """One reason for each level that a register didn't keep, and each reason once. The line is that of the
    write whose value the first stale read gave."""
    found: dict[str, Reason] = {}
    for level in LEVELS:
        fault = None if level in kept(row) else fault_of(row, level, write_of_stale)
        if fault is not None:
            fault = from_first_write(fault)
            gap = row["gap"]["events"] if level == "atomic" and "gap" in row else None
            found.setdefault(json.dumps(fault, sort_keys=True), Reason(fault, [], gap)).levels.append(level)
    return list(found.values())
