"""How old the values of reads were: in events, and by the clock where the lines have times."""
from typing import NamedTuple, Optional

from regkit.checker.report import Row
from regkit.history.operations import Operation
from regkit.levels.subject import Subject
from regkit.words.phrases import counted, duration


FEW = 5  # stale reads, of which half would say little


class Age(NamedTuple):
    """From the end of an operation to the beginning of a later one."""

    events: int
    nanoseconds: Optional[int]  # None if the times of the lines don't tell


def nanoseconds_between(before: Operation, after: Operation) -> Optional[int]:
    """None if a line has no time, or the clock went back."""
    if before.end_time is None or after.time is None or after.time < before.end_time:
        return None
    return after.time - before.end_time


class StaleRead(NamedTuple):
    """A stale read, and how long before it a newer write had ended."""

    read: Operation
    age: Age


def stale_reads(subject: Subject) -> list[StaleRead]:
    """The stale reads of each register, in the order of the report."""
    found = []
    for row in subject.levels.rows:
        for line, newer in row.get("stale_reads", ()):
            read, write = subject.operation(row, line), subject.operation(row, newer)
            events = subject.places.between(write.end_line or 0, read.line)
            found.append(StaleRead(read, Age(events, nanoseconds_between(write, read))))
    return found


def oldest_first(reads: list[StaleRead]) -> list[Age]:
    ages = [each.age for each in reads]
    return sorted(ages, key=lambda age: (age.nanoseconds or 0, age.events), reverse=True)


def stale_ages(subject: Subject) -> list[Age]:
    """Of each stale read, how long before it a newer write had ended; the oldest first."""
    return oldest_first(stale_reads(subject))


def spans_of(ages: list[Age]) -> list[str]:
    """The ages in words, the oldest first: in events unless all have a time."""
    if all(age.nanoseconds is not None for age in ages):
        return [duration(age.nanoseconds or 0) for age in ages]
    return [counted(events, "event") for events in sorted((age.events for age in ages), reverse=True)]


def ages_in_words(ages: list[Age]) -> str:
    """How long after a newer write stale reads came: half of them, 1 in 100, and the worst. Of few, the
    worst alone."""
    spans = spans_of(ages)
    if len(spans) < FEW:
        return f"{'it' if len(spans) == 1 else 'the worst'} came {spans[0]} after a newer write had ended"
    hundredth = f"1 in 100 at least {spans[(len(spans) - 1) // 100]}, " if len(spans) >= 100 else ""
    return (f"half of them came at least {spans[(len(spans) - 1) // 2]} after a newer write had ended, "
            f"{hundredth}the worst {spans[0]}")


def gap_of(subject: Subject, row: Row) -> Age:
    """The gap of a register that has one. A step of it that ends with a read says how old this would have to
    be. What comes before the history has no time, and is older than anything."""
    steps = [[subject.operation(row, line) for line in row["gap"][key]] for key in ("first", "second")]
    ages = [nanoseconds_between(*step) for step in steps if step[0].line and step[1].kind == "read"]
    known = [age for age in ages if age is not None]
    return Age(row["gap"]["events"], min(known) if known and len(known) == len(ages) else None)


def greatest_gap(subject: Subject) -> Age:
    """Of all registers: in events, and by the clock if each gap has a time."""
    gaps = [gap_of(subject, row) for row in subject.levels.rows if "gap" in row]
    times = [gap.nanoseconds for gap in gaps if gap.nanoseconds is not None]
    return Age(subject.levels.summary["gap"], max(times) if times and len(times) == len(gaps) else None)


def allowed(gap: Age) -> str:
    """How old reads might have to be for all to be linearizable. The clock gives a lower bound."""
    events = counted(gap.events, "event")
    if not gap.nanoseconds:
        return f"if reads might be {events} old, and no less"
    return f"only if reads might be {duration(gap.nanoseconds)} old or more ({events})"


def gap_in_words(subject: Subject) -> str:
    """The same of a history. Empty without a gap."""
    if "gap" not in subject.levels.summary:
        return ""
    return f"linearizable {allowed(greatest_gap(subject))}"
