"""What a register that isn't atomic claims: a few operations that no order can hold."""
from typing import Any

from regkit.verify.operations import Operation
from regkit.verify.register import Register, operation_of, pair_of
from regkit.verify.rows import Row, is_number, need


def check_fault(register: Register, fault: Any) -> None:
    """A few operations that no order can hold. Which of several such faults is named isn't checked."""
    need(type(fault) is dict, "`fault` is not an object")
    keys = {"unwritten": {"kind", "read"}, "early": {"kind", "read", "write"},
            "zones": {"first", "kind", "second", "writes"}}
    kind = fault.get("kind")
    need(type(kind) is str and kind in keys, "no fault is of that kind")
    need(set(fault) == keys[kind], f"the keys of the fault are not {', '.join(sorted(keys[kind]))}")
    if kind == "zones":
        check_zones(*(pair_of(register, fault, key) for key in ("writes", "first", "second")))
        return
    read = operation_of(register, fault["read"])
    need(not read.is_write and read.completed, f"line {read.line} is no completed read")
    write = register.write_of.get(read.value)
    if kind == "unwritten":
        need(write is None, f"the value of line {read.line} was written")
    else:
        is_its_write = write is not None and is_number(fault["write"], write.line)
        need(is_its_write, f"line {read.line} gave the value of another write")
        need(read.end < fault["write"], f"line {read.line} didn't end before the write")


def check_zones(writes: list[Operation], first: list[Operation], second: list[Operation]) -> None:
    """By `first`, write V has to come before write W in any order; by `second`, W before V.

    In an order, a write and the reads of its value stand together. So if one of V's precedes one of W's, all
    of V's come before all of W's.
    """
    v, w = writes
    need(v.is_write and w.is_write and v is not w, "`writes` is not two writes")
    for key, (before, after), (a, b) in (("first", (v, w), first), ("second", (w, v), second)):
        need(is_in_cluster(a, before) and is_in_cluster(b, after), f"`{key}` is not of the two clusters")
        need(a.end < b.line, f"the first of `{key}` doesn't precede the second")


def is_in_cluster(operation: Operation, write: Operation) -> bool:
    """The write itself, or a completed read of its value."""
    is_completed_read = not operation.is_write and operation.completed
    return operation is write or (is_completed_read and operation.value == write.value)


def check_inversion(register: Register, line: Row) -> None:
    """Two reads, one after the other, of which the first gives the newer value: the fault's `second`."""
    newer, older = pair_of(register, line, "inversion")
    need(not newer.is_write and not older.is_write, "`inversion` is not two reads")
    need(line["inversion"] == line["fault"].get("second"), "`inversion` is not the `second` of the fault")
    newer_write, older_write = register.write_of[newer.value], register.write_of[older.value]
    need(older_write.end < newer_write.line, "the first read of `inversion` doesn't give the newer value")
