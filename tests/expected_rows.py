"""The rows of tests/expected: histories, and what a program has to answer to each. A row is

    == NAME
    the history
    -- STATUS [OPTION ..]
    the answer: standard output, or standard error if the history is refused

A line of the history is an event in short form (tests/rows.py), a text in double quotes as JSON writes it,
which has no line end but its own, or else the line itself. A line `~ {..}` of the answer stands for a line
of the report that has these members, and maybe others; so do the objects in it."""
import json
import pathlib
import re
from typing import Any, Iterator, NamedTuple, Tuple

import reference
import rows

FOLDER = pathlib.Path(__file__).resolve().parent / "expected"
SHORT = re.compile(r"p\d+ ")


class Row(NamedTuple):
    name: str
    history: bytes
    options: Tuple[str, ...]
    status: int
    answer: Tuple[str, ...]


def input_line(line: str) -> bytes:
    if SHORT.match(line):
        return rows.history(line)
    if not line.startswith('"'):
        return line.encode() + b"\n"
    text: str = json.loads(line)
    return text.encode()


def read_row(text: str) -> Row:
    name, *lines = text.strip("\n").split("\n")
    middle = next(number for number, line in enumerate(lines) if line.startswith("-- "))
    status, *options = lines[middle].split()[1:]
    history = b"".join(map(input_line, lines[:middle]))
    return Row(name, history, tuple(options), int(status), tuple(lines[middle + 1:]))


def read_rows(folder: pathlib.Path = FOLDER) -> Iterator[Row]:
    for path in sorted(folder.glob("*.txt")):
        for text in path.read_text(encoding="utf-8").split("== ")[1:]:
            row = read_row(text)
            yield row._replace(name=f"{path.stem}: {row.name}")


def has_members(found: Any, wanted: Any) -> bool:
    if not isinstance(wanted, dict) or not isinstance(found, dict):
        return reference.same(found, wanted)
    return all(key in found and has_members(found[key], value) for key, value in wanted.items())


def is_as_expected(want: str, have: str) -> bool:
    if not want.startswith("~ "):
        return want == have
    try:
        return has_members(json.loads(have), json.loads(want[2:]))
    except ValueError:
        return False
