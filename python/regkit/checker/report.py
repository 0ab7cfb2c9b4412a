"""A report of `regcheck` or `regsearch`, as it was written."""
import json
import re
from typing import Any

Row = dict[str, Any]
ATOMIC_ROW = b'{"atomic":"yes",'  # how the line of an atomic register begins
ORDER = b'"order":['


class Report:
    """The lines of the registers, by order of first call, and the summary. docs/format.md says what each
    key is."""

    def __init__(self, rows: list[Row], summary: Row) -> None:
        self.rows = rows
        self.summary = summary

    @property
    def atomic(self) -> bool:
        return bool(self.summary["atomic"] == "yes")

    @property
    def unknown(self) -> list[Row]:
        """The lines of the registers that a search gave up."""
        return [row for row in self.rows if row["atomic"] == "unknown"]

    @property
    def by_search(self) -> bool:
        """Whether it is a report of regsearch, by the line of a register."""
        return any("cas" in row for row in self.rows)

    @property
    def faulty(self) -> list[Row]:
        """The lines of the registers that aren't atomic."""
        return [row for row in self.rows if row["atomic"] == "no"]


def read_report(data: bytes) -> Report:
    """Raises ValueError if the bytes aren't a report."""
    rows = [json.loads(line) for line in data.splitlines() if line.strip()]
    are_lines = all(isinstance(row, dict) and "atomic" in row for row in rows)
    if not rows or not are_lines or "registers" not in rows[-1]:
        raise ValueError("it doesn't end with a summary, as a report of regcheck does")
    return Report(rows[:-1], rows[-1])


def read_verdict(data: bytes) -> Report:
    """The same with the lines of the faulty and unknown registers alone, and a summary without its order. The
    numbers of an order are nearly all of a report, and a verdict doesn't need them."""
    last = data.rfind(b"\n", 0, len(data) - 1) + 1
    faulty, begin = [], 0
    while begin < last:
        end = data.find(b"\n", begin) + 1
        if not data.startswith(ATOMIC_ROW, begin):
            faulty.append(data[begin:end])
        begin = end
    begin = data.find(ORDER, last)
    end = data.find(b"],", begin) if begin >= 0 else -1
    summary = data[last:] if end < 0 else data[last:begin] + data[end + 2:]
    return read_report(b"".join([*faulty, summary]))


def number_behind(line: bytes, key: bytes) -> int:
    """The number after the last such key. No register's name can hold it: there its quotes are escaped."""
    place = line.rfind(key)
    found = re.match(rb"\d+", line[place + len(key):place + len(key) + 20]) if place >= 0 else None
    return int(found[0]) if found else 0


def least_completed_reads(written: bytes) -> int:
    """At least how many reads were completed: of each register all but as many as operations are pending."""
    return sum(max(0, number_behind(line, b'"reads":') - number_behind(line, b'"pending":'))
               for line in written.splitlines()[:-1])
