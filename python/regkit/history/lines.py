"""The lines of a history as JSON objects. It says nothing of what the objects mean."""
import json
import math
import re
from typing import Any, Iterator

from regkit.base.limits import MAX_DEPTH

BLANK = b" \t\r"
Event = dict[str, Any]
_MINUS_ZERO = re.compile(r"(?<![^:,\[\s])-0")  # where a number may stand, and not in a name such as worker-0


class NotJson(ValueError):
    """A line that isn't JSON, as the checker reads it."""


def numbered_lines(history: bytes) -> Iterator[tuple[int, bytes]]:
    """Each line that isn't blank, without its line feed, with its number from 1."""
    for number, line in enumerate(history.split(b"\n"), 1):
        if line.strip(BLANK):
            yield number, line


def _no_constant(word: str) -> None:
    raise NotJson(word)


def _finite(text: str) -> float:
    near = float(text)
    if math.isinf(near):
        raise NotJson("a number too large for a float")
    return near


def _whole(text: str) -> Any:
    near = _finite(text)
    return near if text == "-0" else int(text)


class _Members(tuple[tuple[str, Any], ...]):
    """The members of an object, those of one name too."""


_decoder = json.JSONDecoder(parse_constant=_no_constant, parse_float=_finite)
_careful_decoder = json.JSONDecoder(parse_constant=_no_constant, parse_float=_finite, parse_int=_whole,
                                    object_pairs_hook=_Members)


def json_of(line: bytes) -> Any:
    """The JSON value of a line. Raises NotJson. Of members with one name the last counts."""
    try:
        text = line.decode("utf-8")
        if len(text) > 2 * MAX_DEPTH or "\\u" in text or "-0" in text and _MINUS_ZERO.search(text):
            return _checked(_careful_decoder.decode(text), MAX_DEPTH)
        return _decoder.decode(text)
    except (ValueError, RecursionError) as error:
        raise NotJson(str(error)) from error


def _checked(value: Any, depth: int) -> Any:
    """Refuses what only the checker's JSON reader refuses: deep nesting, and half of a surrogate pair."""
    if type(value) is str:
        value.encode("utf-8")
    if type(value) not in (list, _Members):
        return value
    if depth == 0:
        raise NotJson("nested too deep")
    if type(value) is list:
        return [_checked(part, depth - 1) for part in value]
    return {_checked(key, depth): _checked(part, depth - 1) for key, part in value}


def events(history: bytes) -> Iterator[tuple[int, Event]]:
    """The objects of an accepted history, each with the number of its line."""
    for number, line in numbered_lines(history):
        yield number, json_of(line)
