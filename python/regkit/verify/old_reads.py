"""The old reads and the lost writes of a clean register, by the definitions.

The value of a read is older than a write if some operation of the value's cluster ended before that write
began: the register had the value by then. A read is old if something that comes earlier had a newer value:

- stale: a write that precedes it;
- own: an earlier write of its session;
- back: an earlier read of its session;
- inverted: a read that precedes it.
"""
from bisect import bisect_right
from typing import Callable, NamedTuple, Optional, Sequence

from regkit.verify.clusters import clusters_of
from regkit.verify.operations import Operation
from regkit.verify.register import Register


class Old(NamedTuple):
    """An old read, the newer write, and what has its value and comes earlier: that write, or a read."""

    read: Operation
    newer: Operation
    earlier: Operation


class Found(NamedTuple):
    """All old reads of each kind, and all lost writes, by their calls."""

    stale: list[Old]
    own: list[Old]
    back: list[Old]
    inverted: list[Old]
    lost: list[Operation]


Since = dict[Optional[int], float]  # a write that begins after this is newer than the value
Source = Callable[[Operation], Operation]  # the write of an operation's value


def find_old(register: Register) -> Found:
    since = {cluster.write.value: cluster.first_reply.end for cluster in clusters_of(register)}

    def source(a: Operation) -> Operation:
        return register.write_of[a.value]

    reads = register.completed_reads
    writes = [register.by_line[0], *register.writes]
    return Found(preceded(reads, writes, source, since), followed(register, True, source, since),
                 followed(register, False, source, since), preceded(reads, reads, source, since),
                 lost_writes(register, since))


def preceded(reads: Sequence[Operation], having: Sequence[Operation], source: Source,
             since: Since) -> list[Old]:
    """The reads that come after one of some operations with a newer value, each with the one of these that
    ended first."""
    ranked = sorted(having, key=lambda a: source(a).line)
    calls = [source(a).line for a in ranked]
    first = ranked[:]  # of those from each place on, the one that ended first
    for place in range(len(ranked) - 2, -1, -1):
        first[place] = min(first[place], first[place + 1], key=lambda a: a.end)
    found = []
    for read in reads:
        place = bisect_right(calls, since[read.value])
        if place < len(first) and first[place].end < read.line:
            found.append(Old(read, source(first[place]), first[place]))
    return found


def followed(register: Register, by_writes: bool, source: Source, since: Since) -> list[Old]:
    """The reads whose session had called a newer write before, or had read a newer value, each with the
    newest."""
    newest: dict[Optional[int], Operation] = {}
    found = []
    for a in register.operations:
        if not a.is_write and a.completed:
            earlier = newest.get(a.process)
            if earlier is not None and source(earlier).line > since[a.value]:
                found.append(Old(a, source(earlier), earlier))
        if a.is_write == by_writes and (a.is_write or a.completed):
            known = newest.get(a.process, a)
            newest[a.process] = known if source(known).line > source(a).line else a
    return found


def lost_writes(register: Register, since: Since) -> list[Operation]:
    """The writes that some completed read follows, and of which all these gave older values. Nothing follows
    a pending one."""
    reads = register.completed_reads
    calls = [read.line for read in reads]
    latest = [since[read.value] for read in reads]  # of the reads from each place on, the newest value's
    for place in range(len(reads) - 2, -1, -1):
        latest[place] = max(latest[place], latest[place + 1])
    lost = []
    for write in register.writes:
        place = bisect_right(calls, write.end)
        if place < len(reads) and latest[place] < write.line:
            lost.append(write)
    return lost
