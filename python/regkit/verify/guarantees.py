"""What each level asks of an order, and the two things that show whether a register kept it.

An order that keeps the level shows a yes. A cycle shows a no: each write has to come before the next, and the
last before the first. In an order, a write and the reads of its value stand together; so if an operation of
one such cluster has to come before one of another, all of the first come before all of the second.
"""
from typing import Any, Hashable, NamedTuple

from regkit.verify.faults import is_in_cluster
from regkit.verify.operations import Operation
from regkit.verify.register import Register, operation_of
from regkit.verify.rows import Lines, is_number, lines_of, need

Places = dict[int, int]  # of the lines, among the events; 0 is before all


class Guarantee(NamedTuple):
    """Which operations have to come before one that they precede: all before a write, all that ended at least
    `age` events before a read began, and the writes and the reads of its session before either."""

    all_before_writes: bool = True  # writes keep real time
    all_before_reads: bool = False
    own_writes: bool = False
    own_reads: bool = False
    age: int = 0

    def keeps_own(self, is_write: bool) -> bool:
        """Whether the writes, or the reads, of a session come before what follows them in it."""
        return self.own_writes if is_write else self.own_reads


GUARANTEES = {
    "atomic": Guarantee(all_before_reads=True),
    "session": Guarantee(own_writes=True, own_reads=True),
    "own_writes": Guarantee(own_writes=True),
    "monotonic": Guarantee(own_reads=True),
    "sequential": Guarantee(all_before_writes=False, own_writes=True, own_reads=True),
}


def within(age: int) -> Guarantee:
    """Atomic, if reads may be younger than so many events."""
    return Guarantee(all_before_reads=True, age=age)


def is_before_in_session(a: Operation, b: Operation) -> bool:
    """One process called both, a first. The initial write, which is nobody's, comes first in each session."""
    if a.process is None:
        return b.process is not None
    return a.process == b.process and a.line < b.line


def must_come_before(guarantee: Guarantee, a: Operation, b: Operation, places: Places) -> bool:
    if not a.end < b.line:
        return False
    if b.is_write and guarantee.all_before_writes:
        return True
    if not b.is_write and guarantee.all_before_reads:
        return places[b.line] - places[int(a.end)] >= guarantee.age
    return is_before_in_session(a, b) and guarantee.keeps_own(a.is_write)


# ---- A yes: an order


def groups_before(guarantee: Guarantee, b: Operation) -> list[Hashable]:
    """The groups of operations, by `groups_of`, that have to come before b where they precede it."""
    if guarantee.all_before_writes if b.is_write else guarantee.all_before_reads:
        return ["all"]
    own = [is_write for is_write in (True, False) if guarantee.keeps_own(is_write)]
    return [(b.process, is_write) for is_write in own]


def check_order(register: Register, order: Lines, guarantee: Guarantee, places: Places) -> None:
    """Whether these lines, behind the initial write, are a legal order that keeps a guarantee."""
    need(len(set(order)) == len(order), "an order has an operation twice")
    for line in order:
        need(line != 0 and line in register.by_line, f"an order has line {line}, which doesn't belong there")
    lacking = {a.line for a in register.operations if a.completed} - set(order)
    need(not lacking, f"an order lacks line {min(lacking, default=0)}")
    operations = [register.by_line[line] for line in order]
    check_values(operations)
    check_precedence(operations, guarantee, places)


def check_values(operations: list[Operation]) -> None:
    """Each completed read gives the value of the nearest write before it."""
    value = None
    for a in operations:
        if a.is_write:
            value = a.value
        else:
            need(not a.completed or a.value == value,
                 f"the read of line {a.line} doesn't give the value of the last write before it in an order")


def check_precedence(operations: list[Operation], guarantee: Guarantee, places: Places) -> None:
    """No operation stands behind one that it has to come before. The order is gone through from its end; of
    each group, the operation behind that ended first is looked at."""
    first: dict[Hashable, Operation] = {}
    for b in reversed(operations):
        for group in groups_before(guarantee, b):
            a = first.get(group, b)
            need(not must_come_before(guarantee, a, b, places),
                 f"line {a.line} stands behind line {b.line} in an order, and has to come before it")
        for group in ("all", (b.process, b.is_write)):
            first[group] = min(first.get(group, b), b, key=lambda a: a.end)


# ---- A no: a fault


def check_level_fault(register: Register, fault: Any, guarantee: Guarantee, places: Places) -> None:
    """Which of several true faults is named isn't checked."""
    need(type(fault) is dict, "a fault is not an object")
    keys = {"unwritten": {"kind", "read"}, "early": {"kind", "read", "write"},
            "cycle": {"kind", "steps", "writes"}}
    kind = fault.get("kind")
    need(type(kind) is str and kind in keys, "no fault is of that kind")
    need(set(fault) == keys[kind], f"the keys of the fault are not {', '.join(sorted(keys[kind]))}")
    if kind == "cycle":
        check_cycle(register, fault, guarantee, places)
        return
    read = operation_of(register, fault["read"])
    need(not read.is_write and read.completed, f"line {read.line} is no completed read")
    write = register.write_of.get(read.value)
    if kind == "unwritten":
        need(write is None, f"the value of line {read.line} was written")
        return
    need(write is not None and is_number(fault["write"], write.line),
         f"line {read.line} gave the value of another write")
    assert write is not None
    need(must_come_before(guarantee, read, write, places),
         f"line {read.line} doesn't have to come before line {write.line}")


def check_cycle(register: Register, fault: dict[str, Any], guarantee: Guarantee, places: Places) -> None:
    writes = [operation_of(register, line) for line in lines_of(fault, "writes")]
    steps = fault["steps"]
    need(type(steps) is list and len(steps) == len(writes) >= 2,
         "a cycle needs two writes, and as many steps")
    for step, v, w in zip(steps, writes, [*writes[1:], writes[0]]):
        need(v.is_write and w.is_write and v is not w, f"lines {v.line} and {w.line} are not two writes")
        check_step(register, step, (v, w), guarantee, places)


def check_step(register: Register, step: Any, clusters: tuple[Operation, Operation], guarantee: Guarantee,
               places: Places) -> None:
    """An operation of one cluster, and one of the next that has to come after it."""
    need(type(step) is list and len(step) == 2, "a step is not a pair")
    (a, b), (v, w) = (operation_of(register, line) for line in step), clusters
    need(is_in_cluster(a, v), f"line {a.line} is not of the cluster of line {v.line}")
    need(is_in_cluster(b, w), f"line {b.line} is not of the cluster of line {w.line}")
    need(must_come_before(guarantee, a, b, places),
         f"line {a.line} doesn't have to come before line {b.line}")
