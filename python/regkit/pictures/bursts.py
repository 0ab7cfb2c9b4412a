"""How many reads were stale in each part of a run, by the node that answered or by the client that asked.

A burst suggests a failover or a cut link; an even spread, a replica or cache that lags."""
from collections import Counter
from typing import Iterator, NamedTuple, Optional

from regkit.history.operations import History, Operation
from regkit.levels.shares import name_of
from regkit.levels.subject import Subject
from regkit.pictures.ticks import round_step

PARTS = 120  # of a run, at most
MOST_ROWS = 12
Name = Optional[str]


class Extent(NamedTuple):
    """From where to where a run goes: in nanoseconds, or in lines of the history."""

    first: int
    last: int
    is_time: bool

    @property
    def step(self) -> int:
        """How long each part is; the last one may be shorter."""
        return round_step(self.last + 1 - self.first, PARTS)

    @property
    def parts(self) -> int:
        return -(-(self.last + 1 - self.first) // self.step)

    def part_of(self, read: Operation) -> int:
        """In which part a read began."""
        begin = read.line if not self.is_time or read.time is None else read.time
        return (begin - self.first) // self.step


class Row(NamedTuple):
    """The reads of a node or of a client, by the parts of the run in which they began."""

    name: Name
    reads: Counter[int]
    stale: Counter[int]


class Bursts(NamedTuple):
    """All rows. `what` is `node` or `client`, or empty if there is one row of all reads."""

    extent: Extent
    what: str
    rows: list[Row]
    hidden: int  # rows that aren't shown, for want of room


def extent_of(history: History) -> Extent:
    """By the clock, if each call has a time and none goes back; otherwise by lines."""
    times = [call.time for call in history.calls if call.time is not None]
    ends = [call.end_time for call in history.calls if call.end_time is not None]
    if len(times) < len(history.calls) or any(after < before for before, after in zip(times, times[1:])):
        return Extent(1, history.last_line, False)
    return Extent(0, max([*times[-1:], *ends], default=0), True)


def counted_reads(subject: Subject) -> Iterator[Operation]:
    """The completed reads of the registers whose old reads were counted."""
    for row in subject.levels.rows:
        if "stale_reads" in row:
            for call in subject.history.registers[row["register"]]:
                if call.kind == "read" and call.completed:
                    yield call


def rows_by(reads: list[Operation]) -> str:
    """By what the rows are: nodes if there are several, else clients if there are several."""
    for what in ("node", "client"):
        if len({name_of(read, what) for read in reads}) > 1:
            return what
    return ""


def bursts_of(subject: Subject, stale: list[Operation]) -> Bursts:
    """The rows with most stale reads come first."""
    extent, reads = extent_of(subject.history), list(counted_reads(subject))
    what = rows_by(reads)
    found: dict[Name, Row] = {}
    for call in reads:
        name = name_of(call, what) if what else None
        row = found.setdefault(name, Row(name, Counter(), Counter()))
        row.reads[extent.part_of(call)] += 1
    for call in stale:
        found[name_of(call, what) if what else None].stale[extent.part_of(call)] += 1
    rows = sorted(found.values(), key=lambda row: (-sum(row.stale.values()), row.name or ""))
    return Bursts(extent, what, rows[:MOST_ROWS], len(rows[MOST_ROWS:]))
