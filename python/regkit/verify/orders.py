"""What an atomic register claims: an order of its operations, which is replayed."""
from typing import Iterable, Optional

from regkit.verify.operations import Operation
from regkit.verify.register import Register
from regkit.verify.rows import Lines, Wrong, need


def check_order(register: Register, order: Lines, points: Lines) -> None:
    read = {a.value for a in register.completed_reads}
    due = {a.line for a in register.operations if a.completed or (a.is_write and a.value in read)}
    there = set(order)
    need(len(there) == len(order), "`order` has an operation twice")
    for line in due - there:
        raise Wrong(f"`order` lacks line {line}")
    for line in there - due:
        raise Wrong(f"`order` has line {line}, which doesn't belong there")
    need(len(points) == len(order), "`points` has not as many places as `order`")
    replay(order, register.by_line)
    latest = 0
    for line, point in zip(order, points):
        latest = max(latest, line)  # replay has shown that it lies before the reply
        if point != latest:
            raise Wrong(f"the point of line {line} is {latest}")


def replay(order: Iterable[int], operations: dict[int, Operation]) -> None:
    """Lets the operations take effect one after another. Raises Wrong.

    None may stand after one that it precedes. Each read has to give the value of its register's last write.
    """
    values: dict[str, Optional[int]] = {}
    latest = 0  # the greatest call so far
    for line in order:
        operation = operations[line]
        if operation.end < latest:
            raise Wrong(f"line {line} stands after line {latest}, which was called after its reply")
        latest = max(latest, line)
        if operation.is_write:
            values[operation.register] = operation.value
        elif operation.value != values.get(operation.register):
            raise Wrong(f"the read of line {line} doesn't give the value of the last write before it")


def check_without_line(register: Register) -> None:
    """An early answer claims that this register is atomic and gives no order: one is built, and replayed."""
    try:
        replay(built_order(register), register.by_line)
    except Wrong as wrong:
        raise Wrong(f"it has no line, though it isn't atomic: {wrong}") from None


def built_order(register: Register) -> Lines:
    """An order that is right if any is: cluster by cluster, the write first.

    A cluster is a write with all completed reads of its value. Clusters are sorted by their first reply or
    their last call, whichever comes first. Nothing rests on this rule, since the order is replayed.
    """
    clusters: dict[Optional[int], list[Operation]] = {}
    for read in register.completed_reads:
        clusters.setdefault(read.value, []).append(read)
    for write in register.writes:
        if write.completed or write.value in clusters:
            clusters.setdefault(write.value, []).insert(0, write)
    initial = clusters.pop(None, [])  # the reads of null come first, after the initial write
    ranked = sorted(clusters.values(), key=low_end)
    return [a.line for cluster in [initial, *ranked] for a in cluster]


def low_end(cluster: list[Operation]) -> float:
    return min(min(a.end for a in cluster), max(a.line for a in cluster))
