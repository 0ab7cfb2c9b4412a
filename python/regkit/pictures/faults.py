"""The pictures of why a register didn't keep a level, each with its steps in words."""
from typing import Iterator, NamedTuple, Optional

from regkit.checker.report import Row
from regkit.drawing import shapes
from regkit.drawing.marks import Arrow, Marks, marks_of_fault, zone_of
from regkit.drawing.section import Author, with_signs
from regkit.drawing.style import CLUSTERS
from regkit.drawing.svg import tag
from regkit.drawing.text import name, words
from regkit.drawing.walk import Order
from regkit.explain import sentences
from regkit.explain.causes import ended_before
from regkit.explain.shrinking import ShrinkSettings
from regkit.history.operations import Operation
from regkit.levels.ages import allowed, gap_of
from regkit.levels.faults import steps
from regkit.levels.subject import Subject
from regkit.pictures.reasons import Fault, Reason, reasons_of
from regkit.words.levels import in_words
from regkit.words.phrases import capital

MOST_ARROWS = 12  # of a picture
STEP = "step"  # the class of all arrows where they are more than there are colours
GAP = "The register would be linearizable {allowed}. That is its gap."


class Section(NamedTuple):
    """The markup of a register, and its pictures for the legend."""

    heading: str
    pictures: str
    author: Author
    order: Optional[Order]  # in which the script shows what takes effect


def clusters_of(fault: Fault) -> list[str]:
    """The colours of the writes of a cycle."""
    size = len(fault["writes"])
    return list(CLUSTERS[:size]) if size <= len(CLUSTERS) else [STEP] * size


def must_lead(before: Operation, after: Operation, writes: tuple[Operation, Operation]) -> None:
    """Raises ValueError if a step doesn't lead from one write to the other, or the history doesn't bear it
    out: then the report is of another one."""
    values = before.value, after.value
    if values != (writes[0].value, writes[1].value) or not ended_before(before, after):
        raise ValueError(f"the step from line {before.line} to line {after.line}")


def marks_of_cycle(subject: Subject, row: Row, fault: Fault) -> Marks:
    """Arrows from each write of a cycle to the next, and the operations that they join."""
    marks, clusters = Marks(), clusters_of(fault)
    writes = [subject.operation(row, line) for line in fault["writes"]]
    for write, cluster in zip(writes, clusters):
        if cluster != STEP:
            marks.clusters[write.value] = cluster
        marks.name(write)
    for number, (step, cluster) in enumerate(zip(fault["steps"], clusters), 1):
        before, after = (subject.operation(row, line) for line in step)
        must_lead(before, after, (writes[number - 1], writes[number % len(writes)]))
        marks.arrows.append(Arrow(before, after, cluster, number))
        marks.name(before)
        marks.name(after)
    return marks


def marks_of(subject: Subject, row: Row, reason: Reason) -> Optional[Marks]:
    """None if there are too many arrows for a picture."""
    fault = reason.fault
    if fault["kind"] != "cycle":
        return marks_of_fault(subject.history, {"register": row["register"], "fault": fault})
    if len(fault["steps"]) > MOST_ARROWS:
        return None
    marks = marks_of_cycle(subject, row, fault)
    marks.stale_lines = {line for line, _ in row.get("stale_reads", ())}
    if reason.gap is not None:
        calls = subject.history.registers[row["register"]]
        marks.zones = [zone_of(subject.operation(row, line), calls, cluster)
                       for line, cluster in zip(fault["writes"], clusters_of(fault))]
    return marks


def told_of(subject: Subject, row: Row, reason: Reason) -> str:
    """The steps in words, each after the number of its arrow."""
    fault = reason.fault
    if fault["kind"] != "cycle":
        said = sentences.fault_of(subject.history, {"register": row["register"], "fault": fault})
        return with_signs(said, [shapes.exclamation(10, 10)] * len(said))
    said = steps(subject, row, fault)
    if len(said) < len(fault["steps"]):  # too many to tell
        return "".join(tag("p", words(capital(each) + ".")) for each in said)
    badges = [shapes.badge(10, 10, str(number), cluster)
              for number, cluster in enumerate(clusters_of(fault), 1)]
    return with_signs(said, badges)


def write_of_stale(subject: Subject, row: Row) -> Optional[int]:
    """The line of the write whose value the first stale read gave: 0 if that is the initial one."""
    if "stale_read" not in row:
        return None
    value = subject.operation(row, row["stale_read"]["read"]).value
    calls = subject.history.registers[row["register"]]
    return next((call.line for call in calls if call.kind == "write" and call.value == value), 0)


def parts_of(subject: Subject, row: Row, author: Author) -> Iterator[str]:
    for reason in reasons_of(row, write_of_stale(subject, row)):
        lacking = in_words(reason.levels)
        yield tag("h3", words(f"Not kept: {lacking}")) + told_of(subject, row, reason)
        if reason.gap is not None:
            yield tag("p", words(GAP.format(allowed=allowed(gap_of(subject, row)))))
        marks = marks_of(subject, row, reason)
        if marks is not None:
            yield author.windows(marks, f"what the register didn't keep: {lacking}")


def section(subject: Subject, row: Row) -> Section:
    """The pictures of one register."""
    author = Author(subject.history, {"register": row["register"]}, ShrinkSettings())
    pictures = "".join(parts_of(subject, row, author))
    return Section(tag("h2", "Register " + name(row["register"])), pictures, author, order_of(subject, row))


def order_of(subject: Subject, row: Row) -> Optional[Order]:
    """An order that keeps the strongest level that one shows, if the report has it."""
    if "order" not in row:
        return None
    found = [subject.operation(row, line) for line in row["order"]]
    return Order(f"An order that keeps {in_words([row['order_of']])}", found)
