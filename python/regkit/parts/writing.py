"""Writes the lines of a part, and what keeps their numbers in the whole history."""
import os
import pathlib
from array import array
from contextlib import suppress
from itertools import chain, repeat
from operator import add, mul, sub
from typing import Iterable, NamedTuple, Union

from regkit.parts.folder import MAP, file_of

BUFFER = 1 << 16  # bytes that a part collects before they are written
LINE_FEEDS = [b"\n" * count for count in range(256)]


class Plan(NamedTuple):
    """What to split, where to, and how."""

    name: str  # of the history
    directory: str
    parts: int
    lines: str  # BLANK or MAP
    for_levels: bool = False  # whether the parts are for reglevel


class PartWriter:
    """Writes the lines of one part. A file is open only while it is written, so a thousand parts need no
    thousand open files."""

    def __init__(self, plan: Plan, part: int) -> None:
        self.history = file_of(plan.directory, part, "jsonl")
        self.map = file_of(plan.directory, part, "lines")
        self.writes = file_of(plan.directory, part, "writes")  # there until all lines are read
        self.by_map = plan.lines == MAP
        self.size = 0  # of the file
        self.own = 0  # bytes of its own lines
        self._last = 1
        self._lines = bytearray()
        self._numbers = bytearray()
        for path in self.paths():
            open(path, "xb").close()

    def paths(self) -> list[pathlib.Path]:
        return [self.history, self.map] if self.by_map else [self.history]

    def put(self, first: int, indexes: list[int], lines: list[bytes]) -> None:
        """Adds those of the lines that have these indexes. The first line has number `first` in the whole."""
        if not indexes:
            return
        chosen = map(lines.__getitem__, indexes)
        if self.by_map:
            text = b"\n".join(chosen) + b"\n"
            self._numbers += b"%12d\n" * len(indexes) % tuple(map(add, indexes, repeat(first)))
            self.own += len(text)
        else:
            self._pass_over(first + indexes[0] - self._last)
            self._last = first + indexes[-1]
            text = b"".join(with_gaps(indexes, chosen))
            self.own += len(text) - (indexes[-1] - indexes[0]) + len(indexes)
        self._lines += text
        if len(self._lines) >= BUFFER:
            self.flush()

    def _pass_over(self, lines: int) -> None:
        """Ends as many lines, a buffer of them at a time."""
        while lines > BUFFER:
            self._lines += b"\n" * BUFFER
            self.flush()
            lines -= BUFFER
        self._lines += b"\n" * lines

    def flush(self) -> None:
        append(self.history, self._lines)
        self.size += len(self._lines)
        self._lines.clear()
        if self.by_map:
            append(self.map, self._numbers)
            self._numbers.clear()

    def close(self) -> None:
        if self.own and not self.by_map:
            self._lines += b"\n"
        self.flush()

    def keep(self, writes: "array[int]") -> None:
        """Keeps many hashes on the disk."""
        if len(writes) * writes.itemsize >= BUFFER:
            append(self.writes, writes)
            del writes[:]

    def repeats(self, writes: "array[int]") -> bool:
        """Whether a hash occurs twice, among those that were kept and these. They are kept no longer."""
        if self.writes.exists():
            writes.frombytes(self.writes.read_bytes())
            os.remove(self.writes)
        return len(set(writes)) < len(writes)

    def remove(self) -> None:
        for path in (*self.paths(), self.writes):
            with suppress(OSError):
                os.remove(path)


def with_gaps(indexes: list[int], chosen: Iterable[bytes]) -> list[bytes]:
    """Each line with the line feeds before it that are there since the one before."""
    pieces = [b""] * (2 * len(indexes))
    pieces[1::2] = chosen
    steps = list(map(sub, indexes, chain(indexes[:1], indexes)))
    try:
        pieces[::2] = map(LINE_FEEDS.__getitem__, steps)
    except IndexError:
        pieces[::2] = map(mul, repeat(b"\n"), steps)
    return pieces


def append(path: pathlib.Path, data: "Union[bytearray, array[int]]") -> None:
    with open(path, "ab") as out:
        out.write(data)
