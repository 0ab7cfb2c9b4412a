"""Tables and JSON objects: a row for each operation, or in a table also one for each event.

    process,op,register,value,start,end,outcome
    alice,write,k,v1,10,20,ok

A cas has `from` and `to` in place of `value`, and `ok`, true or false, which says whether it took place. In
place of `value` there may be `input`, what was asked, and `output`, what was answered; in place of `start` or
of `end` a `duration`. An empty end, or an outcome of unknown or info, is an unknown outcome: the operation
stays pending.

    time,process,event,op,register,value
    10,alice,call,write,k,v1
    20,alice,reply,write,k,

The rows of events are paired (event_rows). Names of columns may be of any case.
"""
import csv
from itertools import chain
from typing import Any, Iterable, Iterator, Optional, Sequence

from regkit.convert.columns import COLUMNS, HEADER, OBJECT, Used, known_columns, missing, used_columns
from regkit.convert.event_rows import operations_of
from regkit.convert.json_values import json_values
from regkit.convert.members import Known
from regkit.convert.model import Choices, Refused, Source, WrongWords, folded
from regkit.convert.rows import ABSENT, Row, Rows
from regkit.words.phrases import counted

_DELIMITERS = ",;\t|"


def from_csv(lines: Iterable[str], choices: Choices) -> Source:
    """The rows of a table whose first row names the columns."""
    rest = iter(lines)
    first = next(rest, "")
    delimiter = choices.delimiter or _delimiter_of(first)
    reader = csv.reader(chain([first], rest), strict=True, delimiter=delimiter)
    try:
        header = [name.strip() for name in next(reader, [])]
        used = used_columns(header, choices.columns, HEADER, 1)
        rows = _table_rows(_numbered(reader, len(header)), header, used, choices)
        return _source(operations_of(rows, used, choices) if used.is_events else rows, choices)
    except csv.Error as error:
        raise Refused(f"not CSV: {error}", reader.line_num) from None


def from_objects(lines: Iterable[str], choices: Choices) -> Source:
    """JSON objects, one a line or in one array."""
    return _source(_json_rows(lines, choices), choices)


def names_columns(line: str) -> int:
    """How many names of columns a line has, as the first row of a table may."""
    return known_columns(_names(line, _delimiter_of(line)))


def _names(line: str, delimiter: str) -> list[str]:
    return [name.strip().strip('"') for name in line.split(delimiter)]


def _delimiter_of(header: str) -> str:
    """The delimiter by which the header has most names of columns, else most names."""
    def found(delimiter: str) -> tuple[int, int]:
        names = _names(header, delimiter)
        return known_columns(names), len(names)

    return max(_DELIMITERS, key=found)


def _numbered(reader: Any, width: int) -> Iterator[tuple[int, list[str]]]:
    """The rows of a table, each with its line. Raises Refused for one that isn't as wide as the header."""
    line = reader.line_num + 1
    for row in reader:
        if row and len(row) != width:
            raise Refused(f"the row has {counted(len(row), 'field')}, and the header {width}: put a field "
                          "that has the delimiter in double quotes, or say with --delimiter what it "
                          "is", line)
        if row:
            yield line, row
        line = reader.line_num + 1


def _table_rows(numbered: Iterable[tuple[int, list[str]]], header: Sequence[str], used: Used,
                choices: Choices) -> Iterator[Row]:
    if used.is_events and choices.versions is not None:
        raise WrongWords("--versions and --revisions are for rows of operations, and the table has a row for "
                         "each event: give each operation one row")
    known = Known(choices, "csv", [*used.names.values(), *_version_of(choices)], "column")
    folds = [folded(name) for name in header]
    places = [header.index(used.names[column]) if column in used.names else None for column in COLUMNS]
    for line, row in numbered:
        if not known.seen:  # the columns of the first row are those of all
            known.check(dict(zip(header, row)), line)
        members = dict(zip(folds, row)) if _needs_members(choices) else {}
        yield Row(line, members, used, *[ABSENT if place is None else row[place] for place in places])


def _json_rows(lines: Iterable[str], choices: Choices) -> Iterator[Row]:
    uses: dict[tuple[str, ...], tuple[Used, Known, list[Optional[str]]]] = {}  # by the members of an object
    for line, row in json_values(lines):
        if not isinstance(row, dict):
            raise Refused('no operation: an object such as {"process":1,"op":"read",..} is expected', line)
        names = tuple(row)
        if names not in uses:
            used = used_columns(names, choices.columns, OBJECT, line)
            uses[names] = (used, Known(choices, "operations", [*used.names.values(), *_version_of(choices)]),
                           [used.names.get(column) for column in COLUMNS])
        used, known, members_of = uses[names]
        known.check(row, line)
        for column in ("process", "op"):
            if row[used.names[column]] is None:
                raise Refused(missing(column, choices.columns, names, OBJECT), line)
        members = {folded(name): value for name, value in row.items()} if _needs_members(choices) else {}
        yield Row(line, members, used, *[ABSENT if name is None else row[name] for name in members_of])


def _needs_members(choices: Choices) -> bool:
    """Whether the options ask for a column that has no meaning by itself."""
    return bool(choices.ok_when) or choices.versions is not None


def _version_of(choices: Choices) -> list[str]:
    return [each for each in (choices.versions, choices.new_revisions) if each is not None]


def _source(rows: Iterable[Row], choices: Choices) -> Source:
    taken = Rows(choices)
    for row in rows:
        taken.take(row)
    return taken.source()
