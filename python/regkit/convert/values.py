"""The source's values as whole numbers: whole numbers stay, all else is numbered register by register."""
import re
from typing import AbstractSet, Any, Iterable

from regkit.base.limits import GREATEST_VALUE, LEAST_VALUE
from regkit.convert import edn
from regkit.convert.model import DELETE, Refused, SourceOperation, Value
from regkit.convert.spellings import bare, spelled

ALL_TEXTS = frozenset({"csv", "porcupine"})  # forms in which a text of a whole number is that number
_WHOLE = re.compile(r"-?[1-9][0-9]{0,18}|0")  # a longer one has more than 64 bits

Table = dict[str, dict[str, int]]  # by key, the number of each text
# By key and value, what wrote it: a write that didn't fail, if there is one.
Written = dict[str, dict[Value, SourceOperation]]


def settled(value: Any, nulls: AbstractSet[str], numeric_texts: bool = False, alike: bool = False) -> Value:
    """A value of the source as null, a whole number, or the text by which EDN writes it.

    With `numeric_texts`, for sources whose values are all texts, a text of a whole number is that number.
    With `alike`, values that are spelled alike are one value, of whatever kind they are.
    """
    if value is None or (nulls and spelled(value) in nulls):
        return None
    if alike:
        value, numeric_texts = bare(value), True
    if type(value) is str and numeric_texts and _WHOLE.fullmatch(value):
        value = int(value)
    if type(value) is int and LEAST_VALUE <= value <= GREATEST_VALUE:
        return value
    return edn.write(value)


def initial_value(word: str, form: str, alike: bool = False) -> Value:
    """The value that `--initial` names: null, a whole number, a keyword, a text in quotes, or else a text.

    True and false are such values where a source has them, and texts in a source whose values are all texts.
    """
    if word in ("null", "nil"):
        return None
    value: Any = word
    if re.fullmatch(r':[^\s,"]+|"(?:[^"\\]|\\.)*"', word):
        return settled(unsettled(word), frozenset(), alike=alike)
    if word in ("true", "false") and form not in ALL_TEXTS:
        value = word == "true"
    return settled(value, frozenset(), True, alike)


def unsettled(value: Value) -> Any:
    """A settled value as its source has it: a text is EDN."""
    return next(edn.values([value]))[1] if type(value) is str else value


def readable(texts: Iterable[str]) -> dict[str, str]:
    """A form for each value that EDN wrote: a text without its quotes, unless two would then be alike.

    It serves as a register's name, and as a value in the map. Two values never get one form: if they would,
    all texts keep their quotes. An empty text always does.
    """
    forms = {text: _unquoted(text) for text in texts}
    return forms if len(set(forms.values())) == len(forms) else {text: text for text in forms}


def _unquoted(text: str) -> str:
    if text[:1] != '"' or text == '""':
        return text
    return str(unsettled(text)) if "\\" in text else text[1:-1]


class _Numbers:
    """The numbers of one register's texts: by first appearance, and none that the register has itself."""

    def __init__(self) -> None:
        self.taken: set[int] = set()  # the register's own whole numbers
        self.texts: dict[str, int] = {}
        self.last = 0

    def number(self, text: str) -> int:
        known = self.texts.get(text)
        if known is not None:
            return known
        self.last += 1
        while self.last in self.taken:
            self.last += 1
        self.texts[text] = self.last
        return self.last


def number_texts(operations: Iterable[SourceOperation]) -> Table:
    """Gives each text a number, register by register, and says which."""
    held = list(operations)
    numbers = {operation.key: _Numbers() for operation in held if str in map(type, operation.values)}
    mixed = [operation for operation in held if operation.key in numbers]
    for operation in mixed:
        for value in operation.values:
            if type(value) is int:
                numbers[operation.key].taken.add(value)
    for operation in mixed:
        if type(operation.expected) is str:
            operation.expected = numbers[operation.key].number(operation.expected)
        if type(operation.value) is str:
            operation.value = numbers[operation.key].number(operation.value)
        if type(operation.old) is str:
            operation.old = numbers[operation.key].number(operation.old)
    return {key: mine.texts for key, mine in numbers.items()}


def all_written(operations: Iterable[SourceOperation]) -> Written:
    """What is written to each register, by writes and by each cas that didn't miss. Raises Refused."""
    written: Written = {}
    for operation in operations:
        if operation.kind in ("read", DELETE) or operation.clears:
            continue
        if operation.value is None and operation.version is None:
            raise Refused(f"a {operation.kind} of null to {shown(operation.key)}: only the initial value is "
                          "null. If it deletes, say --ops WORD=delete of its word (delete-if if it deletes "
                          "one value alone); or name fewer spellings of null with --null", operation.line)
        if operation.missed:
            continue
        known = written.setdefault(operation.key, {})
        before = known.setdefault(operation.value, operation)
        if before.ending == "fail":
            known[operation.value] = operation
    return written


def repeats(operations: Iterable[SourceOperation]) -> bool:
    """Whether some register is written a value twice, be it by a write that failed."""
    seen: set[tuple[str, Value]] = set()
    for operation in operations:
        if operation.kind == "write":
            if (operation.key, operation.value) in seen:
                return True
            seen.add((operation.key, operation.value))
    return False


def shown(value: Value) -> str:
    """A value of the source for a person, a text without its quotes."""
    if value is None:
        return "null"
    return _unquoted(value) if isinstance(value, str) else str(value)
