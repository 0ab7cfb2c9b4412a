"""Which operations of a contradiction are named: the writes of its values, where they make it, and otherwise
those that are nearest to each other.

Any operation of a value will do. That the write of 1 ended before the write of 2 began says the same as that
it ended before some read of 2 began, and is easier to follow."""
from bisect import bisect_right
from typing import Optional, Sequence

from regkit.history.operations import Operation

Pair = tuple[Operation, Operation]


def with_reads(write: Operation, calls: Sequence[Operation]) -> list[Operation]:
    """A write, and the reads that gave its value."""
    return [write, *(call for call in calls
                     if call.kind == "read" and call.completed and call.value == write.value)]


def ended(call: Operation) -> int:
    """The line of a completed operation's reply."""
    return call.end_line or 0


def distance(pair: Pair) -> int:
    return pair[1].line - ended(pair[0])


def nearest(before: Sequence[Operation], after: Sequence[Operation]) -> list[Pair]:
    """The two that are nearest, of those where one of `before` ended before one of `after` began; else nothing."""
    first = sorted((call for call in before if call.completed), key=ended)
    ends = [ended(call) for call in first]
    places = [(bisect_right(ends, call.line - 1), call) for call in after if call.line]
    return sorted(((first[place - 1], call) for place, call in places if place), key=distance)[:1]


def precedence_between(before: Sequence[Operation], after: Sequence[Operation]) -> Optional[Pair]:
    """An operation of one value that ended before one of another value began, or None. Each list begins with
    the write of its value."""
    with_one_write = sorted(nearest(before[:1], after) + nearest(before, after[:1]), key=distance)
    found = nearest(before[:1], after[:1]) + with_one_write + nearest(before, after)
    return found[0] if found else None
