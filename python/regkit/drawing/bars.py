"""A bar for each call that is drawn: where it begins and ends, and the label that has to fit into it."""
from typing import NamedTuple, Optional

from regkit.drawing.marks import Marks
from regkit.explain.sentences import value_of, wanted_of
from regkit.history.operations import Operation
from regkit.words.quoting import columns

INITIAL_CALL = -1  # where the initial write's bar begins; it ends at line 0
LETTER = 6.9  # the width of a letter of a label, with a little to spare: fonts differ
SMALL_LETTER = 6.2  # of the process and of the place in the order, beside the label
PADDING = 7.0  # between a bar's ends and its label
SIGN = 19.0  # the width of a sign after the label
LONGEST_VALUE = 13  # characters of a value that are shown
NOT = "\u2260"  # before a value: each but that


class Bar(NamedTuple):
    """A call as it is drawn."""

    operation: Operation
    begin: int
    end: Optional[int]  # None: it is never over
    label: str
    process: str  # beside the label, if the lane doesn't say it
    place: str  # in the order, if there is one
    cluster: str
    signs: list[str]  # the names of its signs, as barmarks.py has them
    strong: bool  # the contradiction rests on it

    @property
    def width(self) -> float:
        """The least width in which its label and its signs fit."""
        return self.label_width + len(self.signs) * SIGN

    @property
    def label_width(self) -> float:
        small = sum(len(text) * SMALL_LETTER + PADDING for text in (self.process, self.place) if text)
        return 2 * PADDING + columns(self.label) * LETTER + small


def shown_value(value: str) -> str:
    """A value without its middle if it is long. The last digits tell values apart best."""
    return value if len(value) <= LONGEST_VALUE else f"{value[:4]}\u2026{value[-7:]}"


def label_of(operation: Operation) -> str:
    if operation.kind == "read":
        return f"r {read_label(operation)}" if operation.completed else "r ?"
    if operation.kind == "write":
        return f"w {shown_value(value_of(operation))}"
    found = f" found {found_label(operation)}" if found_label(operation) else ""
    missed = " missed" if operation.kind == "cas" and operation.missed else ""
    return change_label(operation) + found + missed


def read_label(read: Operation) -> str:
    """What a read gave; of one that only told whether there was a value, that."""
    return f"{NOT}null" if read.found else shown_value(value_of(read))


def change_label(call: Operation) -> str:
    """What a call asks for and what it writes."""
    value = shown_value(value_of(call))
    if call.kind != "cas":
        return "d" if call.kind == "delete" else f"s {value}"
    asked = shown_value("null" if call.asked is None else str(call.asked))
    return f"c {NOT if call.unless else ''}{asked}\u2192{value}"


def found_label(call: Operation) -> str:
    """What a change found, if its reply tells it beside whether it took place."""
    if call.tells_old:
        return shown_value(wanted_of(call))
    return {True: f"{NOT}null", False: "null", None: ""}[call.found]


def signs_of(operation: Operation, marks: Marks) -> list[str]:
    signs = []
    if marks.unexplained is not None and operation.line == marks.unexplained.line:
        signs.append("contradicted" if marks.by_search else "unexplained")
    if operation.line in marks.stale_lines or (marks.pair is not None and operation is marks.pair.stale):
        signs.append("stale")
    if operation.line in marks.doubted_lines:
        signs.append("doubted")
    if marks.pair is not None and operation is marks.pair.fresh and operation.kind == "read":
        signs.append("fresh")
    if operation.line in marks.overlapped_lines:
        signs.append("beside" if marks.by_search else "overlapped")
    if operation.line in marks.loose:
        signs.append("loose")
    if operation.failed:
        signs.append("failed")
    return signs


def bar_of(operation: Operation, marks: Marks, process: str = "", place: str = "") -> Bar:
    """The bar of an operation. A crash ends no operation: what it leaves open is drawn to the right edge."""
    begin = operation.line if operation.line else INITIAL_CALL
    end = None if operation.pending else operation.end_line
    label = marks.prefix_of(operation) + label_of(operation)
    return Bar(operation, begin, end, label, process, place, marks.cluster_of(operation),
               signs_of(operation, marks), operation.line in marks.named)
