"""Values as EDN has them, and the one text of each.

nil is None; true, false and whole numbers are Python's; other numbers are Decimal; vectors and lists are
tuples, since Clojure takes them for equal.
"""
import re
from decimal import MAX_EMAX, MAX_PREC, MIN_EMIN, Context, Decimal
from typing import Any

Value = Any
_EXACT = Context(prec=MAX_PREC, Emax=MAX_EMAX, Emin=MIN_EMIN)


class Keyword(str):
    """A keyword, with its colon."""

    __slots__ = ()


class Symbol(str):
    """A symbol, a character, a pattern, or a number of another kind (1/2, 1.5M, ##Inf), as it was spelled."""

    __slots__ = ()


class Map(dict[Value, Value]):
    """A map, and the line on which it began."""

    __slots__ = ("line",)
    line: int

    def __hash__(self) -> int:  # type: ignore[override]
        return hash(write(self))


class Set(tuple[Value, ...]):
    """The members of a set, in the order in which they were written."""

    __slots__ = ()


class Tagged:
    """A value after a tag, such as a record: #jepsen.history.Op{..}."""

    __slots__ = ("tag", "value")

    def __init__(self, tag: str, value: Value) -> None:
        self.tag = tag
        self.value = value


class NotEdn(ValueError):
    """The text isn't EDN, on the line that it names."""

    def __init__(self, line: int, why: str) -> None:
        super().__init__(f"line {line}: not EDN: {why}")


_QUOTED = {'"': '\\"', "\\": "\\\\", "\n": "\\n", "\r": "\\r", "\t": "\\t"}
_TO_QUOTE = re.compile(r'["\\\n\r\t\ud800-\udfff]')


def quote(text: str) -> str:
    """A text as EDN writes it."""
    return '"' + _TO_QUOTE.sub(lambda found: _QUOTED.get(found[0]) or f"\\u{ord(found[0]):04x}", text) + '"'


def _decimal(value: Decimal) -> str:
    """A number that isn't whole, equal ones alike, and never as a whole number is written."""
    text = str(value.normalize(_EXACT))
    return text if "." in text or "E" in text else text + ".0"


def write(value: Value) -> str:
    """The one text of a value: two values have one text only if EDN takes them for equal."""
    kind = type(value)
    if kind is int or kind is Keyword or kind is Symbol:
        return str(value)
    if kind is str:
        return quote(value)
    if value is None or kind is bool:
        return {None: "nil", True: "true", False: "false"}[value]
    if isinstance(value, Set):
        return "#{" + " ".join(sorted(map(write, value))) + "}"
    if isinstance(value, (tuple, list)):
        return "[" + " ".join(map(write, value)) + "]"
    if isinstance(value, dict):
        return "{" + ", ".join(sorted(f"{write(key)} {write(member)}" for key, member in value.items())) + "}"
    if kind is Tagged:
        return f"#{value.tag} {write(value.value)}"
    return _decimal(value)
