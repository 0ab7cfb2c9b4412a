"""The checkers' refusals of a line: their numbers and texts, and how they are read from a message."""
import re
from typing import Callable, NamedTuple, Optional

from regkit.base.limits import MAX_LINE, MAX_NAME, MAX_PROCESS

# The numbers of the refusals of an op that only regsearch takes, of a read that doesn't give the value, and
# of a repeated value.
BAD_OP, NO_VALUE, REPEATED = 6, 12, 13

# The texts of the refusals of a line, by their numbers in docs/format.md. On one line the lowest counts.
TEXTS = {
    1: f"line is longer than {MAX_LINE} bytes",
    2: "not JSON",
    3: "not an object",
    4: f"process is not a whole number from 0 to {MAX_PROCESS}",
    5: "event is not call, reply, fail or crash",
    BAD_OP: "op is neither read nor write",
    7: f"register is not a text of 1 to {MAX_NAME} bytes",
    8: "value does not fit the event",
    9: "the process has an open call",
    10: "reply without an open call",
    11: "reply disagrees with its call",
    NO_VALUE: "a read's reply has no value",
    REPEATED: "value already written to this register",
    19: "the process crashed",
}
# Those of `regsearch` that differ.
SEARCH_TEXTS = {
    BAD_OP: "op is neither read, write, delete, swap nor cas",
    20: "from, unless or to does not fit the event",
    21: "a cas's reply has no ok, true or false",
    22: "old or found does not fit the event",
}
NUMBERS = {text: number for texts in (TEXTS, SEARCH_TEXTS) for number, text in texts.items()}
WORDS = re.compile(r"line (\d+): (.+?)(?: at line (\d+))?")


class Refusal(NamedTuple):
    """Refusals compare as one run orders them: the first line, and on it the lowest number."""

    line: int
    number: int
    text: str
    other: Optional[int]  # the line of the event that the refused one contradicts

    @property
    def rank(self) -> tuple[int, int]:
        """By which one run names the lowest."""
        return self.line, self.number

    def __str__(self) -> str:
        return f"line {self.line}: {self.text}" + ("" if self.other is None else f" at line {self.other}")


def same_line(line: int) -> int:
    """The line of the whole history, where that has the number it has in the part."""
    return line


def read_refusal(words: str, line_of: Callable[[int], int] = same_line) -> Optional[Refusal]:
    """The refusal in a program's words. None if it is about the size of the input.

    `line_of` gives for each line of a part its line in the whole history."""
    found = WORDS.fullmatch(words)
    if found is None or found[2] not in NUMBERS:
        return None
    other = None if found[3] is None else line_of(int(found[3]))
    return Refusal(line_of(int(found[1])), NUMBERS[found[2]], found[2], other)
