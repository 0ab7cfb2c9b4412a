"""The picture of why a history isn't causal: a cycle of operations of several registers, with its parts in
words."""
from typing import Hashable, Iterator, Optional

from regkit.drawing import shapes
from regkit.drawing.bars import shown_value
from regkit.drawing.marks import Arrow, Marks
from regkit.drawing.section import Author, with_signs
from regkit.drawing.style import CLUSTERS
from regkit.drawing.svg import tag
from regkit.drawing.text import words
from regkit.explain.sentences import value_of
from regkit.explain.shrinking import ShrinkSettings
from regkit.history.operations import Operation
from regkit.levels.causal import MOST_PARTS, MOST_SESSIONS, Part, Teller, parts_of, sessions_of, told_parts
from regkit.levels.subject import Subject
from regkit.pictures.faults import MOST_ARROWS, STEP, Section
from regkit.words.phrases import capital
from regkit.words.quoting import plain, shortened

LONGEST = 10  # characters of a register's name before a bar's label
TITLE = "All registers together"


class AcrossRegisters(Marks):
    """Marks in which a cluster is of one register, and a bar names its own."""

    across = True

    def key_of(self, operation: Operation) -> Hashable:
        return operation.register, operation.value

    def prefix_of(self, operation: Operation) -> str:
        return f"{plain(shortened(operation.register, LONGEST))}: "


def colours_of(parts: list[Part]) -> list[str]:
    return list(CLUSTERS[:len(parts)]) if len(parts) <= len(CLUSTERS) else [STEP] * len(parts)


def stops_of(part: Part) -> list[Operation]:
    """The way of a part as the words tell it, to the read that knew of it and gave something else, if there
    is one: what each session did first and last. Of too many sessions the first operation and the last
    session."""
    sessions = sessions_of(part.way)
    if len(sessions) > MOST_SESSIONS:
        sessions = [[part.before], sessions[-1]]
    stops = [call for own in sessions for call in (own if len(own) == 1 else (own[0], own[-1]))]
    return stops or [part.before, part.read or part.after]


def named_in(part: Part) -> list[Operation]:
    """What a part rests on."""
    return [part.before, part.after, *stops_of(part)]


def label_of(part: Part, marks: Marks) -> str:
    """`x: 2 -> 1`, or the register of each."""
    before, after = part.before, part.after
    same = before.register == after.register
    other = "" if same else marks.prefix_of(after)
    return (f"{marks.prefix_of(before)}{shown_value(value_of(before))} \u2192 "
            f"{other}{shown_value(value_of(after))}")


def marks_of(parts: list[Part], teller: Teller) -> Optional[Marks]:
    """None if they are too many for a picture, or the initial writes of several registers are among them,
    which have one place there."""
    initial = {part.before.register for part in parts if not part.before.line}
    if len(parts) > MOST_ARROWS or len(initial) > 1:
        return None
    marks = AcrossRegisters()
    for number, (part, colour) in enumerate(zip(parts, colours_of(parts)), 1):
        if colour != STEP and part.before.kind == "write":
            marks.clusters[marks.key_of(part.before)] = colour
        for operation in named_in(part):
            marks.name(operation)
        first, *via, last = stops_of(part)
        why = "; ".join(teller.part(part))
        marks.arrows.append(Arrow(first, last, colour, number, label_of(part, marks), why, via))
    reads = {part.read.line for part in parts if part.read is not None}
    marks.stale_lines, marks.doubted_lines = (reads, set()) if len(reads) == 1 else (set(), reads)
    return marks


def told_of(subject: Subject, parts: list[Part], teller: Teller) -> str:
    """The parts in words, each after the number of its arrow."""
    if len(parts) > MOST_PARTS:
        said = told_parts(subject, subject.levels.summary["causal_fault"])
        return "".join(tag("p", words(capital(each) + ".")) for each in said)
    said = [". ".join(capital(line) for line in teller.part(part)) for part in parts]
    return with_signs(said, [shapes.badge(10, 10, str(number), colour)
                             for number, colour in enumerate(colours_of(parts), 1)])


def causal_sections(subject: Subject) -> Iterator[Section]:
    """One, if a cycle shows that the history isn't causal. With one register this is that of `sequential`."""
    fault = subject.levels.summary.get("causal_fault", {})
    if fault.get("kind") != "cycle" or len(subject.levels.rows) < 2:
        return
    parts, teller = parts_of(subject.history, fault), Teller(subject)
    registers = {operation.register for part in parts for operation in named_in(part)}
    calls = [call for call in subject.history.calls if call.register in registers]
    author = Author(subject.history, {"register": ""}, ShrinkSettings(), calls)
    pictures = tag("h3", "Not kept: causal") + told_of(subject, parts, teller)
    marks = marks_of(parts, teller)
    if marks is not None:
        pictures += author.windows(marks, "why the history isn't causal")
    yield Section(tag("h2", TITLE), pictures, author, None)
