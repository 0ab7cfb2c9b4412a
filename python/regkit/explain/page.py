"""The text of an explanation, line by line, and the error if there can be none."""
import textwrap

from regkit.explain.timeline import Entry, draw, legend
from regkit.words.colour import Painter
from regkit.words.phrases import capital

READ_SIGN, ACTOR_SIGN = "X", "*"  # of the read or reply in question, and of what it contradicts
TIMELINE = "Time line: a column for each line where one of these begins or ends"


class NotOfHistory(ValueError):
    """The report says what its history can't be the reason of."""

    def __init__(self) -> None:
        super().__init__("the report isn't of this history: run regcheck on it again")


class Page:
    """Lines that are wrapped and indented as they are added."""

    def __init__(self, width: int, paint: Painter) -> None:
        self.width = width
        self.paint = paint
        self.lines: list[str] = []

    def heading(self, text: str) -> None:
        self.lines += ["", self.paint("bold", text)]

    def sentence(self, text: str, style: str = "") -> None:
        self.lines += [self.paint(style, line) for line in textwrap.wrap(
            capital(text) + ".", self.width, initial_indent="  ", subsequent_indent="    ",
            break_long_words=False, break_on_hyphens=False)]

    def timeline(self, entries: list[Entry], meanings: dict[str, str]) -> None:
        """The calls in a picture, and below it what their signs and the ends of their bars mean."""
        for line in draw(entries, self.width - 2):
            self.lines.append("  " + self.paint(line.style, line.text.rstrip()))
        used = {entry.sign for entry in entries}
        signs = [f"{sign} {meaning}" for sign, meaning in meanings.items() if sign in used]
        self.lines.append("")
        self.lines += [self.paint("faint", "  " + "   ".join(each)) for each in (signs, legend(entries))]

    def text(self) -> str:
        return "\n".join(self.lines)
