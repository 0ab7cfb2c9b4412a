"""A history with its report of levels, as everything here looks at it."""
from bisect import bisect_left
from typing import NamedTuple

from regkit.checker.levels import Levels
from regkit.checker.report import Row
from regkit.history.lines import numbered_lines
from regkit.history.operations import History, Operation


class Places:
    """The places of lines among the events: blank lines have none."""

    def __init__(self, data: bytes, history: History) -> None:
        no_blanks = history.last_line == history.events
        self._lines = None if no_blanks else [number for number, _ in numbered_lines(data)]

    def between(self, first: int, last: int) -> int:
        """How many events after one line another comes."""
        if self._lines is None:
            return last - first
        return bisect_left(self._lines, last) - bisect_left(self._lines, first)


class Subject(NamedTuple):
    """A history, the report of its levels, and the places of its lines."""

    history: History
    levels: Levels
    places: Places

    def operation(self, row: Row, line: int) -> Operation:
        """The operation of a line that a register's line of the report names."""
        return self.history.operation(row["register"], line)

    def first(self, key: str) -> Row:
        """Of the registers whose lines have an old read under a key, the one where it came first."""
        rows = [row for row in self.levels.rows if key in row]
        return min(rows, key=lambda row: int(row[key]["read"]))
