"""The reads of a register that can't be explained, in the order in which their replies came.

The history is replayed line by line. Failed calls are left out: they are no operations. A read can't be
explained if its reply makes the lines so far not atomic. It is then set aside, as though it had never been
answered, and the replay goes on. So the first such read is the one with whose reply the register stopped
being atomic, and a register has such a read exactly if it isn't atomic.

The lines so far are atomic as long as each read's value was written by a call before its reply, and no two
clusters conflict. A cluster is a write with the completed reads of its value; two conflict if the first
reply of each comes before the last call of the other. A reply that is the first of its cluster comes after
all calls, so it makes no conflict, and neither does the reply of a write. That leaves the reads that move
their cluster's last call."""
from bisect import bisect_left
from typing import NamedTuple, Optional

from regkit.explain.nearest import Pair, precedence_between, with_reads
from regkit.history.operations import Operation, initial_write


class Cluster:
    """A write and, so far, those of its reads that can be explained."""

    __slots__ = ("write", "first", "last", "place")

    def __init__(self, write: Operation) -> None:
        self.write = write
        self.first: Optional[Operation] = None  # the operation that ended first
        self.last = write  # the operation that was called last
        self.place = -1  # among the clusters, in the order of their first replies


class Peaks:
    """Numbers at places 0, 1, 2 and so on that only grow, and the greatest of a range, in log n each."""

    def __init__(self, places: int) -> None:
        self.size = places
        self.tree = [-1] * (2 * places)

    def raise_to(self, place: int, number: int) -> None:
        node = place + self.size
        while node and self.tree[node] < number:
            self.tree[node] = number
            node >>= 1

    def greatest(self, begin: int, end: int) -> int:
        """The greatest number from place `begin` up to `end`, which is left out; -1 if there is none."""
        found = -1
        begin, end = begin + self.size, end + self.size
        while begin < end:
            if begin & 1:
                found = max(found, self.tree[begin])
                begin += 1
            if end & 1:
                end -= 1
                found = max(found, self.tree[end])
            begin, end = begin >> 1, end >> 1
        return found


class Unexplained(NamedTuple):
    """A read that can't be explained, and what its reply contradicts."""

    read: Operation
    kind: str  # "unwritten", "early" or "zones"
    write: Optional[Operation]  # the write of its value, unless it is unwritten
    other: Optional[Operation]  # zones: a write that has to come both before and after that one
    pairs: list[Pair]  # zones: two pairs of which the one ended before the other began


class Replay:
    """The replay of one register: all replies, in the order of their lines."""

    def __init__(self, calls: list[Operation]) -> None:
        operations = [call for call in calls if not call.failed]
        initial = initial_write(calls[0].register)
        writes = [initial] + [call for call in operations if call.kind == "write"]
        self.clusters: dict[Optional[int], Cluster] = {write.value: Cluster(write) for write in writes}
        self.peaks = Peaks(len(writes))
        self.begun: list[Cluster] = []  # the clusters with a reply, in the order of their first replies
        self.first_replies: list[int] = []  # the lines of those replies
        self.replies = sorted((call for call in operations if call.completed), key=end_of)
        self.add_reply(self.clusters[None], initial)

    def add_reply(self, cluster: Cluster, operation: Operation) -> None:
        """Counts an operation to its cluster. Its reply comes after all replies so far."""
        if cluster.first is None:
            cluster.first, cluster.place = operation, len(self.begun)
            self.begun.append(cluster)
            self.first_replies.append(end_of(operation))
        if operation.line > cluster.last.line:
            cluster.last = operation
        self.peaks.raise_to(cluster.place, cluster.last.line)

    def conflicts(self, cluster: Cluster, read: Operation) -> bool:
        """Whether the cluster, with this read too, conflicts with another one."""
        if cluster.first is None or read.line < cluster.last.line:
            return False
        first, replied = end_of(cluster.first), bisect_left(self.first_replies, read.line)
        return (self.peaks.greatest(0, min(cluster.place, replied)) > first
                or self.peaks.greatest(cluster.place + 1, replied) > first)

    def judge(self, operation: Operation) -> Optional[str]:
        """Adds the next reply, or says as what kind of fault its read is set aside."""
        cluster = self.clusters.get(operation.value)
        if operation.kind == "write":
            self.add_reply(self.clusters[operation.value], operation)
            return None
        if cluster is None:
            return "unwritten"
        if cluster.write.line > end_of(operation):
            return "early"
        if self.conflicts(cluster, operation):
            return "zones"
        self.add_reply(cluster, operation)
        return None

    def told(self, read: Operation, kind: str) -> Unexplained:
        """What a read that was set aside just now contradicts."""
        if kind == "unwritten":
            return Unexplained(read, kind, None, None, [])
        cluster = self.clusters[read.value]
        if kind == "early":
            return Unexplained(read, kind, cluster.write, None, [])
        other = self.latest_conflict(cluster, read)
        known = [reply for reply in self.replies if end_of(reply) <= end_of(read)]
        own, others = with_reads(cluster.write, known), with_reads(other.write, known)
        found = precedence_between(own, others), precedence_between(others, [read])
        pairs = [pair for pair in found if pair is not None]
        return Unexplained(read, kind, cluster.write, other.write, pairs)

    def latest_conflict(self, cluster: Cluster, read: Operation) -> Cluster:
        """Of the clusters in conflict with the read's, the one that got its first reply last."""
        replied = bisect_left(self.first_replies, read.line)
        first = self.first_replies[cluster.place]
        return next(other for other in reversed(self.begun[:replied])
                    if other is not cluster and other.last.line > first)


def end_of(operation: Operation) -> int:
    """The line of the reply of a completed operation."""
    assert operation.end_line is not None
    return operation.end_line


def find_unexplained(calls: list[Operation]) -> tuple[Optional[Unexplained], int]:
    """The first read of one register that can't be explained, and how many there are."""
    replay = Replay(calls)
    first, count = None, 0
    for operation in replay.replies:
        kind = replay.judge(operation)
        if kind is None:
            continue
        count += 1
        if first is None:
            first = replay.told(operation, kind)
    return first, count
