"""The JSON values of a text: one a line, or the elements of one array, each with its line."""
import itertools
import json
import re
from decimal import Decimal
from typing import Any, Iterable, Iterator

from regkit.convert import edn
from regkit.convert.model import Refused


def _no_constant(word: str) -> None:
    raise ValueError(f"{word} is no JSON")


def _object(members: list[tuple[str, Any]]) -> dict[str, Any]:
    made = dict(members)
    if len(made) < len(members):
        names = [name for name, _ in members]
        twice = next(name for name in names if names.count(name) > 1)
        raise ValueError(f"an object has the member {twice} twice")
    return made


# Numbers with a fraction stay as exact as they are written: they may be times.
_DECODER = json.JSONDecoder(parse_float=Decimal, parse_constant=_no_constant, object_pairs_hook=_object)
# Objects of JSON, or an array of them, and not maps of EDN; and what may yet be either.
_BEGINS = re.compile(r'\s*(?:\[\s*)?(?:\{\s*(?:"|\}\s*$)|\]\s*$)')
_UNDECIDED = re.compile(r"\s*(?:\[\s*)?(?:\{\s*)?")


def as_edn(value: Any) -> Any:
    """A value of JSON with vectors for its lists, and keywords for the names in its objects."""
    if type(value) is list:
        return tuple(map(as_edn, value))
    if type(value) is dict:
        return edn.Map((edn.Keyword(":" + name), as_edn(member)) for name, member in value.items())
    return value


def is_json(lines: Iterable[str]) -> tuple[bool, Iterable[str]]:
    """Whether a source is objects of JSON, by its first lines; and all its lines."""
    rest = iter(lines)
    text, held = "", []
    while _UNDECIDED.fullmatch(text):
        line = next(rest, None)
        if line is None:
            break
        held.append(line)
        text += line
    return bool(_BEGINS.match(text)), itertools.chain(held, rest)


def json_values(lines: Iterable[str]) -> Iterator[tuple[int, Any]]:
    """Each value with the number of its line. Raises Refused."""
    numbered = enumerate(lines, 1)
    for number, line in numbered:
        if not line.strip():
            continue
        if line.lstrip().startswith("["):
            yield from _elements([line, *(more for _, more in numbered)], number)
            return
        yield number, _decoded(line, number)


def decoded(text: str) -> Any:
    """The value of a text. Raises ValueError, or RecursionError if it is too deep."""
    return _DECODER.decode(text)


def _decoded(text: str, line: int) -> Any:
    try:
        return decoded(text)
    except (ValueError, RecursionError) as error:
        raise Refused(f"not JSON: {error}", line) from None


def _elements(lines: list[str], line: int) -> Iterator[tuple[int, Any]]:
    """The elements of an array that begins on a line, and is all that there is."""
    text = "".join(lines)
    seen = at = text.index("[") + 1
    while True:
        at = _past_blanks(text, at)
        line, seen = line + text.count("\n", seen, at), at
        if text[at:at + 1] == "]":
            break
        try:
            value, at = _DECODER.raw_decode(text, at)
        except (ValueError, RecursionError) as error:
            raise Refused(f"not JSON: {error}", line) from None
        yield line, value
        at = _past_blanks(text, at)
        if text[at:at + 1] == ",":
            at += 1
        elif text[at:at + 1] != "]":
            raise Refused("not JSON: an array without its end", line + text.count("\n", seen, at))
    if text[at + 1:].strip():
        raise Refused("not JSON: there is something behind the array", line)


def _past_blanks(text: str, at: int) -> int:
    while text[at:at + 1] in (" ", "\t", "\r", "\n"):
        at += 1
    return at
