"""What the page says and shows of one register."""
from typing import NamedTuple, Optional

from regkit.checker.report import Row
from regkit.drawing import shapes
from regkit.drawing.figure import PAGE_WIDTH, RIGHT, Figure, gutter_of, zones_in_words
from regkit.drawing.marks import FIRST, SECOND, Marks, marks_of_fault, marks_of_read, marks_of_search
from regkit.drawing.reduced import Reduced, reduced, table
from regkit.drawing.scene import Register, Scene, fitted, strips
from regkit.drawing.svg import tag
from regkit.drawing.text import name, with_code, words
from regkit.drawing.walk import Order
from regkit.explain import causes, sentences
from regkit.explain.searched import contradicted, is_unwritten, sentences_of, what_to_do
from regkit.explain.sentences import named
from regkit.explain.shrinking import ShrinkSettings
from regkit.explain.unexplained import Unexplained, find_unexplained
from regkit.history.operations import History, Operation
from regkit.words.phrases import capital, counted, joined

WHOLE = 600  # events; a register of no more is drawn whole, below its fault
FIRST_EVENTS = 400  # of a register that is atomic: this many are drawn
MOST_NAMED = 3  # writes beside the unexplained read, or lost, that are named in words


class Section(NamedTuple):
    """The markup for a register, and its pictures for the legend."""

    heading: str
    pictures: str
    scenes: list[Scene]
    order: Optional[Order]  # in which the script shows what takes effect


class Author:
    """Writes the section of one register."""

    def __init__(self, history: History, row: Row, shrinking: ShrinkSettings,
                 calls: Optional[list[Operation]] = None) -> None:
        self.history = history
        self.row = row
        self.shrinking = shrinking
        self.calls = history.registers[row["register"]] if calls is None else calls
        self.register = Register(self.calls, row.get("order", []), row.get("points", []))
        self.scenes: list[Scene] = []

    def write(self) -> Section:
        heading = tag("h2", "Register " + name(self.row["register"])) + facts(self.row)
        if "cas" in self.row and self.row["atomic"] != "yes":
            return self.of_search(heading)
        if self.row.get("atomic") != "no":
            return Section(heading, self.whole(Marks(), FIRST_EVENTS), self.scenes, self.order())
        marks = marks_of_fault(self.history, self.row)
        heading += reasons(sentences.fault_of(self.history, self.row), numbered=bool(marks.arrows))
        for sentence in sentences.inversion(self.history, self.row):
            heading += tag("p", words(capital(sentence) + "."))
        if marks.pair is not None:
            heading += tag("p", words(capital(marks.pair.in_words()) + "."))
        found, count = find_unexplained(self.calls)
        pictures = ""
        if found is not None:
            own_marks = marks_of_read(found, self.calls)
            heading += tag("p", words(unexplained_words(found, count, own_marks.overlapped)))
            heading += self.causes(found)
            if self.is_near(found.read, marks):
                marks.add_unexplained(found.read, self.calls)
            else:
                pictures = self.first_read(found, own_marks)
        pictures = self.windows(marks, "the fault of the register") + pictures
        if len(self.register.events) <= WHOLE and all(scene.left_out for scene in self.scenes):
            pictures += tag("h3", "The whole register") + self.whole(marks.without_arrows(), WHOLE)
        return Section(heading, pictures, self.scenes, None)

    def order(self) -> Optional[Order]:
        """The order of a yes."""
        by_line = {call.line: call for call in self.calls}
        lines = self.row.get("order", [])
        return Order("Order", [by_line[line] for line in lines]) if lines else None

    def of_search(self, heading: str) -> Section:
        """What a search found, in sentences and around the reply that no order gives; or what it gave up."""
        if self.row["atomic"] == "unknown":
            heading += tag("p", with_code(capital(what_to_do([self.row])) + "."))
            return Section(heading, self.whole(Marks(), FIRST_EVENTS), self.scenes, None)
        marks = marks_of_search(self.history, self.row)
        said = sentences_of(self.history, self.row)
        heading += reasons(said[:1], numbered=False)
        heading += "".join(tag("p", words(capital(sentence) + ".")) for sentence in said[1:])
        small = None if is_unwritten(self.row) else reduced(
            self.calls, contradicted(self.history, self.row), self.shrinking)
        pictures = self.windows(marks, "the reply that no order gives")
        if len(self.register.events) <= WHOLE and all(scene.left_out for scene in self.scenes):
            pictures += tag("h3", "The whole register") + self.whole(marks.without_arrows(), WHOLE)
        if small is not None:
            pictures = self.enough(small, marks, pictures)
        return Section(heading, pictures, self.scenes, self.order_before())

    def order_before(self) -> Optional[Order]:
        """An order of what was known before the reply that no order gives, if the search found one."""
        told = None if is_unwritten(self.row) else contradicted(self.history, self.row)
        if told is None or not told.before:
            return None
        return Order(f"Order until line {told.line}", told.before,
                     f"After that, no order gives the reply of line {told.line}.")

    def enough(self, small: Reduced, marks: Marks, pictures: str) -> str:
        """What is enough for the fault, before the pictures of what is around it."""
        text = tag("h3", "What is enough for it")
        text += "".join(tag("p", words(capital(sentence) + ".")) for sentence in small.sentences)
        part = Author(self.history, self.row, self.shrinking, small.calls)
        text += part.whole(marks.of(small.calls, small.loose), WHOLE)
        self.scenes += part.scenes
        text += table(small.moments)
        return text + tag("h3", "Around the reply that no order gives") + pictures

    def causes(self, found: Unexplained) -> str:
        """The writes that were lost, and what to ask."""
        lost = causes.find_lost(found, self.calls)
        said = causes.questions(self.history, found, lost)
        if lost is not None:
            said.insert(0, f"{lost.in_words()}: {listed(lost.writes)}")
        return "".join(tag("p", words(capital(sentence) + "."), class_="ask") for sentence in said)

    def is_near(self, read: Operation, marks: Marks) -> bool:
        """Whether the first read that can't be explained is in the picture of the fault anyway."""
        if read.line in marks.named:
            return True
        axis = fitted(self.register, marks, self.room(marks)).axis
        return axis.has(read.line) and axis.has(read.end_line)

    def room(self, marks: Marks) -> float:
        """What is left of the page's width beside the labels."""
        longest = f"process {max(self.register.processes)}"
        return PAGE_WIDTH - gutter_of(marks, [longest], list(self.register.details.values())) - RIGHT

    def first_read(self, found: Unexplained, marks: Marks) -> str:
        """A picture of its own for the first read that can't be explained, which may be far from the
        fault."""
        title = tag("h3", "The first read that can't be explained")
        why = reasons(self.reasons_of(found), numbered=bool(marks.arrows))
        if marks.pair is not None:
            why += tag("p", words(capital(marks.pair.in_words()) + "."))
        return title + why + self.windows(marks, "the first read that can't be explained")

    def reasons_of(self, found: Unexplained) -> list[str]:
        """Why a read can't be explained, in sentences."""
        if found.write is None:
            return sentences.unwritten(self.history, found.read)
        if found.other is None:
            return sentences.early(found.read, found.write)
        values = sentences.value_of(found.write), sentences.value_of(found.other)
        return sentences.contradiction(found.pairs, values)

    def windows(self, marks: Marks, label: str) -> str:
        scene = fitted(self.register, marks, self.room(marks))
        self.scenes.append(scene)
        drawn = Figure(scene, self.history)
        more = "The picture goes on to the right." if drawn.scrolls else ""
        said = [self.caption(scene), zones_in_words(marks.zones), more]
        return figure(drawn, label, " ".join(filter(None, said)))

    def caption(self, scene: Scene) -> str:
        """How much is drawn and what isn't."""
        total = len(self.calls)
        drawn = sum(bar.operation.line != 0 for bar in scene.bars) - scene.lanes.crowded_out
        if drawn == total:
            return ""
        size = f"{drawn:,} of {counted(total, 'call')} drawn"
        return f"{size}, around the lines that matter here. {crowd(scene)}".rstrip()

    def whole(self, marks: Marks, events: int) -> str:
        """The register from its beginning, strip below strip."""
        label = "the operations of the register"
        found = strips(self.register, marks, events, self.room(marks))
        self.scenes += found
        text = "".join(figure(Figure(scene._replace(left_out=0), self.history), label, crowd(scene))
                       for scene in found)
        total = len(self.register.events)
        if total > events:
            text += tag("p", words(f"The first {events:,} of {total:,} events of this register are drawn."),
                        class_="note")
        return text


def crowd(scene: Scene) -> str:
    """What isn't drawn for want of lanes."""
    count = scene.lanes.crowded_out
    if not count:
        return ""
    return f"{count:,} more that were open at the same time {'is' if count == 1 else 'are'} left out."


def figure(drawn: Figure, label: str, caption: str) -> str:
    text = drawn.svg(f"Picture of {label}")
    return tag("figure", text + (tag("figcaption", words(caption)) if caption else ""))


def facts(row: Row) -> str:
    """The three answers, with the first read that breaks each."""
    parts = []
    for level, word in (("atomic", "linearizable"), ("regular", "regular"), ("safe", "safe")):
        if level in row:
            read = row.get(f"{level}_read")
            where = f" (first broken by the read of line {read})" if read is not None else ""
            parts.append(f"{word} {tag('b', words(str(row[level])))}{words(where)}")
    return tag("p", " &#183; ".join(parts), class_="facts") if parts else ""


def reasons(told: list[str], numbered: bool) -> str:
    """Sentences, each after the number of its arrow or the sign of a read that can't be explained."""
    if not numbered:
        return with_signs(told, [shapes.exclamation(10, 10)] * len(told))
    return with_signs(told, [shapes.badge(10, 10, str(number), FIRST if number == 1 else SECOND)
                             for number in range(1, len(told) + 1)])


def with_signs(told: list[str], signs: list[str]) -> str:
    """Sentences, each after its sign."""
    items = [tag("li", tag("svg", sign, viewBox="0 0 20 20", aria_hidden="true") +
                 words(capital(sentence) + ".")) for sentence, sign in zip(told, signs)]
    return tag("ol", "".join(items), class_="reasons") if items else ""


def listed(writes: list[Operation]) -> str:
    """The first few writes, and how many more there are."""
    shown = [named(write) for write in writes[:MOST_NAMED]]
    if len(writes) > MOST_NAMED:
        shown.append(counted(len(writes) - MOST_NAMED, "more write"))
    return joined(shown)


def unexplained_words(found: Unexplained, count: int, overlapped: list[Operation]) -> str:
    """The first read that can't be explained, how many there are, and the writes that were open beside it."""
    text = f"The first read that can't be explained is {named(found.read)}."
    if count > 1:
        text += f" {count:,} reads in all can't be explained."
    return f"{text} It overlaps {listed(overlapped) if overlapped else 'no write'}."


def section(history: History, row: Row, shrinking: ShrinkSettings) -> Section:
    return Author(history, row, shrinking).write()
