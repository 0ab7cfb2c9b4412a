"""What a picture points at: the two clusters that contradict each other, the precedences between them, the
first read that can't be explained, the writes that were open beside it, and a stale read and a fresh one."""
from typing import Hashable, NamedTuple, Optional, Sequence

from regkit.checker.report import Row
from regkit.explain.causes import StalePair, stale_pair
from regkit.explain.searched import contradicted, is_unwritten, likeliest_first, value_after, without_effect
from regkit.explain.sentences import pairs_of, value_of
from regkit.explain.unexplained import Unexplained
from regkit.history.operations import History, Operation

FIRST, SECOND = "first", "second"  # the two clusters, by the numbers of the arrows that leave them


class Arrow(NamedTuple):
    """One operation comes before another: mostly since it ended before that began."""

    before: Operation
    after: Operation
    cluster: str  # of `before`
    number: int
    label: str = ""  # beside it, if not the two values
    why: str = ""  # if it didn't end before
    via: Sequence[Operation] = ()  # the operations along which it leads

    @property
    def hops(self) -> list[tuple[Operation, Operation]]:
        """From each operation of its way to the next."""
        way = [self.before, *self.via, self.after]
        return list(zip(way, way[1:]))


def foot_of(before: Operation, after: Operation) -> int:
    """The line at which an arrow leaves an operation: its end, unless it was still open as the other
    began."""
    end = before.end_line or 0
    return before.line if before.pending or end > after.line else end


def head_of(before: Operation, after: Operation) -> int:
    """The line at which an arrow comes to an operation: its beginning, if that isn't before the arrow's foot
    though its end is behind it."""
    foot, end = foot_of(before, after), after.end_line
    return after.line if end is None or not after.line < foot < end else end


class Zone(NamedTuple):
    """From a cluster's first reply to its last call, or the other way round."""

    cluster: str
    value: str
    begin: int
    end: int
    forward: bool  # the first reply comes before the last call


class Marks:
    """What one picture points at."""

    across = False  # whether the picture is of several registers

    def __init__(self) -> None:
        self.clusters: dict[Hashable, str] = {}  # value -> cluster
        self.named: dict[int, Operation] = {}  # by line, the operations that the contradiction rests on
        self.arrows: list[Arrow] = []
        self.zones: list[Zone] = []
        self.unexplained: Optional[Operation] = None
        self.pair: Optional[StalePair] = None
        self.overlapped: list[Operation] = []  # the writes that were open while the unexplained read was
        self.overlapped_lines: set[int] = set()
        self.stale_lines: set[int] = set()  # the lines of stale reads, where a report lists them
        self.doubted_lines: set[int] = set()  # the lines of reads of which one is stale
        self.loose: set[int] = set()  # the lines of calls whose replies needn't count
        self.by_search = False  # whether the unexplained reply is one for which a search found no order

    def name(self, operation: Operation) -> None:
        self.named[operation.line] = operation

    def cluster_of(self, operation: Operation) -> str:
        """The cluster of an operation, or nothing. A failed call is in none, nor is a pending read, nor a cas
        that missed."""
        if operation.failed or operation.missed or (operation.kind == "read" and not operation.completed):
            return ""
        return self.clusters.get(self.key_of(operation), "")

    def key_of(self, operation: Operation) -> Hashable:
        """By what operations are of one cluster."""
        return operation.value

    def prefix_of(self, operation: Operation) -> str:
        """What stands before the label of its bar."""
        return ""

    def add_pairs(self, pairs: list[tuple[Operation, Operation]]) -> None:
        for number, (pair, cluster) in enumerate(zip(pairs, (FIRST, SECOND)), 1):
            self.arrows.append(Arrow(pair[0], pair[1], cluster, number))
            for operation in pair:
                self.name(operation)

    def add_pair(self, pair: Optional[StalePair]) -> None:
        """Adds a stale read and what shows that it is one."""
        self.pair = pair
        if pair is not None:
            self.name(pair.fresh)
            self.name(pair.stale)

    def add_unexplained(self, read: Operation, calls: list[Operation]) -> None:
        self.unexplained = read
        self.overlapped = overlapped_writes(read, calls)
        self.overlapped_lines = {write.line for write in self.overlapped}
        self.name(read)

    def without_arrows(self) -> "Marks":
        """The same for the pictures of the whole register, which repeat no arrow and no zone."""
        marks = Marks()
        marks.clusters, marks.unexplained, marks.pair = self.clusters, self.unexplained, self.pair
        marks.overlapped, marks.overlapped_lines = self.overlapped, self.overlapped_lines
        marks.by_search = self.by_search
        marks.named = {line: operation for line, operation in self.named.items() if line}
        return marks

    def of(self, calls: list[Operation], loose: set[int]) -> "Marks":
        """The same for a picture of a few of the calls, some of whose replies needn't count."""
        marks = Marks()
        marks.clusters, marks.by_search, marks.loose = self.clusters, self.by_search, loose
        if self.unexplained is not None:
            marks.add_unexplained(self.unexplained, calls)
        return marks


def overlapped_writes(read: Operation, calls: list[Operation]) -> list[Operation]:
    """The writes that a completed read overlaps, those first that could explain it. A pending one is open for
    good."""
    assert read.end_line is not None
    end = read.end_line
    found = [call for call in calls if call.line < end and call.writes and not call.failed
             and call is not read and (call.pending or (call.end_line or 0) > read.line)]
    return likeliest_first(found, read)


def marks_of_fault(history: History, row: Row) -> Marks:
    """What a register's line of the report names."""
    marks, fault, register = Marks(), row["fault"], row["register"]
    if fault["kind"] == "zones":
        writes = [history.operation(register, line) for line in fault["writes"]]
        for write, cluster in zip(writes, (FIRST, SECOND)):
            marks.clusters[write.value] = cluster
            marks.name(write)
        marks.add_pairs(pairs_of(history, row))
        marks.add_pair(stale_pair(pairs_of(history, row), history.registers[register]))
        marks.zones = [zone_of(write, history.registers[register], cluster)
                       for write, cluster in zip(writes, (FIRST, SECOND))]
        return marks
    read = history.operation(register, fault["read"])
    marks.name(read)
    if fault["kind"] == "early":
        marks.clusters[read.value] = FIRST
        marks.add_pairs([(read, history.operation(register, fault["write"]))])
    return marks


def marks_of_read(found: Unexplained, calls: list[Operation]) -> Marks:
    """The first read that can't be explained, where the report's fault doesn't name it."""
    marks = Marks()
    if found.write is not None:
        marks.clusters[found.read.value] = FIRST
        marks.name(found.write)
    if found.other is not None:
        marks.clusters[found.other.value] = SECOND
        marks.name(found.other)
    marks.add_pairs(found.pairs)
    if found.kind == "early" and found.write is not None:
        marks.add_pairs([(found.read, found.write)])
    marks.add_pair(stale_pair(found.pairs, calls, found.read))
    marks.add_unexplained(found.read, calls)
    return marks


def marks_of_search(history: History, row: Row) -> Marks:
    """The reply for which a search found no order, and what wrote the value that the register may have
    there."""
    marks = Marks()
    if is_unwritten(row):
        call = history.operation(row["register"], row["fault"]["call"])
        other = without_effect(history, call)
    else:
        told = contradicted(history, row)
        call, other = told.call, value_after(told.before or [])
    if other is not None:
        marks.clusters[other.value] = FIRST
        marks.name(other)
    marks.add_unexplained(call, history.registers[row["register"]])
    marks.by_search = True
    return marks


def zone_of(write: Operation, calls: list[Operation], cluster: str) -> Zone:
    """The zone of a write and of the completed reads of its value."""
    reads = [call for call in calls if call.kind == "read" and call.completed and call.value == write.value]
    replies = [each.end_line for each in [write, *reads] if each.completed and each.end_line is not None]
    first, last = min(replies), max(each.line for each in [write, *reads])
    return Zone(cluster, value_of(write), min(first, last), max(first, last), first < last)
