"""The lines of a report, as they were written, and how a claim that doesn't hold is said."""
import json
from typing import Any, Callable, NoReturn, Optional, Sequence

Row = dict[str, Any]
Lines = list[int]  # operations, each by the line of its call


class Wrong(Exception):
    """A claim of the report that doesn't hold, in words."""


class Unreadable(Wrong):
    """What should be a report isn't one, or says nothing that could be checked."""


def need(holds: bool, why: str) -> None:
    if not holds:
        raise Wrong(why)


def read_rows(report: bytes) -> list[Row]:
    """The lines of a report: those of registers, then the summary. Raises Unreadable."""
    try:
        *rows, end = [_row(line) for line in report.decode("utf-8").split("\n")]
    except (ValueError, RecursionError) as error:
        raise Unreadable(f"this is no report of regcheck: {error}") from error
    lines = [row for row in rows if row is not None]
    if end is not None or len(lines) < len(rows) or not lines:  # after the last line feed there is nothing
        raise Unreadable("this is no report of regcheck: it is empty, or was cut short, or has an empty line")
    if "registers" not in lines[-1]:
        raise Unreadable("this is no report of regcheck: its last line isn't a summary")
    return lines


def _object(pairs: Sequence[tuple[str, Any]]) -> Row:
    keys = [key for key, _ in pairs]
    if len(keys) != len(set(keys)):
        raise ValueError(f"a key stands twice among {', '.join(keys)}")
    return dict(pairs)


def _not_whole(text: str) -> NoReturn:
    raise ValueError(f"{text} is not a whole number")


_decoder = json.JSONDecoder(object_pairs_hook=_object, parse_float=_not_whole, parse_constant=_not_whole)


def _row(line: str) -> Optional[Row]:
    """None of an empty line."""
    if not line:
        return None
    row = _decoder.decode(line)
    if type(row) is not dict:
        raise ValueError(f"a line that isn't an object: {line[:60]}")
    return row


def lines_of(row: Row, key: str) -> Lines:
    """A list of line numbers. In Python `true` equals 1, so its type is looked at too."""
    lines: Lines = row[key]
    need(type(lines) is list and set(map(type, lines)) <= {int}, f"`{key}` is not a list of lines")
    return lines


def is_number(value: Any, expected: int) -> bool:
    return type(value) is int and value == expected


def with_name(name: str, check: Callable[..., None], *parts: Any) -> None:
    """Makes a check of one register, and puts its name before what is wrong."""
    try:
        check(*parts)
    except Wrong as wrong:
        raise Wrong(f"register {json.dumps(name)}: {wrong}") from None
