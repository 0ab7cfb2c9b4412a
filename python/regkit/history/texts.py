"""What the numbers of a converted history stand for: the values of its source, as its lines say them.

    {"process":1,"event":"call","op":"write","register":"k","value":1,"texts":{"1":"\\"v1\\""}}

In register k, 1 stands for the text "v1". A number that stands for nothing is itself. `regkit convert` says
it once, in the first line that has the number, and that line names its register. So what is said stays with
the register's lines, however these are copied, split and merged.
"""
import hashlib
import json
from typing import Any, Iterable

from regkit.history.lines import Event, json_of, numbered_lines
from regkit.words.quoting import plain, quoted, shortened

MEMBER = "texts"
MARK = b'"texts"'  # in the bytes of a history that has some
LONGEST = 80  # characters of a value that are kept whole


class Contradictory(ValueError):
    """A number stands for two values, or two numbers for one: lines of several conversions were put together.
    Such numbers can't be compared."""

    def __init__(self, where: str, register: str, one: str, other: str) -> None:
        super().__init__(f"{where}: in register {quoted(register)}, {one}, and before that {other}: lines of "
                         "two conversions were put together. Put the sources together, and convert them once")


class Labelled(int):
    """A number that shows as what it stands for. It is equal to the number all the same."""

    label: str

    def __str__(self) -> str:
        return self.label


def labelled(number: int, said: str) -> Labelled:
    """The number with a label that is safe to print."""
    shown = Labelled(number)
    shown.label = plain(said)
    return shown


def kept(text: str) -> str:
    """A value as lines say it. Of a long one, its ends and what tells it from all others."""
    text = text.encode("utf-8", "backslashreplace").decode("utf-8")
    if len(text) <= LONGEST:
        return text
    return f"{shortened(text, LONGEST)} (SHA-256 {hashlib.sha256(text.encode('utf-8')).hexdigest()[:16]})"


def member(texts: dict[int, str]) -> str:
    """What a line says of some numbers; nothing if there are none."""
    said = {str(number): kept(text) for number, text in texts.items()}
    return f',"{MEMBER}":{json.dumps(said, ensure_ascii=False, separators=(",", ":"))}' if said else ""


def texts_in(event: Event) -> Iterable[tuple[int, str]]:
    """What a line says, as far as it has the converter's form. A checker takes any form."""
    said: Any = event.get(MEMBER)
    for number, text in said.items() if isinstance(said, dict) else ():
        digits = number.lstrip("-")
        if isinstance(text, str) and text and digits.isascii() and digits.isdigit():
            yield int(number), text


class Texts:
    """What the lines of a history say, register by register."""

    def __init__(self) -> None:
        self._texts: dict[tuple[str, int], str] = {}
        self._numbers: dict[tuple[str, str], int] = {}

    def add(self, line: int, event: Event) -> None:
        """Takes what a line says of its register. Raises Contradictory."""
        register = event.get("register")
        if isinstance(register, str):
            for number, text in texts_in(event):
                self.meet(f"line {line}", register, number, text)

    def meet(self, where: str, register: str, number: int, text: str) -> None:
        """Takes one number of a register with what it stands for. Raises Contradictory."""
        known = self._texts.setdefault((register, number), text)
        if known != text:
            raise Contradictory(where, register, f"{number} stands for {plain(text)}", f"for {plain(known)}")
        first = self._numbers.setdefault((register, text), number)
        if first != number:
            raise Contradictory(where, register, f"{number} stands for {plain(text)}", f"{first} did")

    def label(self, register: str, value: Any) -> Any:
        """A value of a register, with what it stands for if that is known."""
        said = self._texts.get((register, value)) if value is not None else None
        return value if said is None else labelled(value, said)

    def __bool__(self) -> bool:
        return bool(self._texts)


def refuse_contradictory(history: bytes) -> None:
    """Raises Contradictory if the numbers of a history can't be compared."""
    texts = Texts()
    for number, line in numbered_lines(history) if MARK in history else ():
        if MARK in line:
            texts.add(number, json_of(line))
