"""What texts and lists were made of: a base that was put whole, and what was appended to it one by one.

A text that can be made in two ways doesn't tell which. One that can be made in no way is a value that nobody
made. Both kinds are sequences, of characters or of numbered elements, so one count serves both.
"""
from typing import AbstractSet, Iterable, Iterator, Optional, Union

Whole = Union[str, tuple[int, ...]]  # a text, or a list whose elements are numbered
_BASE = -1  # in place of the position before the last element


class Trunk:
    """The longest of some sequences that begin alike. Each of them is its beginning up to a position."""

    def __init__(self, whole: Whole, bases: Iterable[Whole], elements: AbstractSet[Whole]) -> None:
        self.whole = whole
        self.ways = [0] * (len(whole) + 1)  # by position, in how many ways it can be made, or 2 for more
        self._before = [_BASE] * (len(whole) + 1)
        self.ends: set[int] = set()  # of the sequences that it has
        self.walked: set[int] = set()
        for base in bases:
            if whole[:len(base)] == base:
                self.ways[len(base)] += 1
        self._count(elements)

    def _count(self, elements: AbstractSet[Whole]) -> None:
        lengths = sorted(set(map(len, elements)))
        for at in range(len(self.whole)):
            if self.ways[at]:
                for end in (at + length for length in lengths if at + length <= len(self.whole)):
                    if self.whole[at:end] in elements:
                        self.ways[end] = min(2, self.ways[end] + self.ways[at])
                        self._before[end] = at

    def walk(self, end: int) -> Iterator[tuple[int, int]]:
        """Where each element begins and ends up to a position that can be made in one way, the last first.

        What an earlier walk gave isn't given again.
        """
        while end not in self.walked:
            self.walked.add(end)
            before = self._before[end]
            if before == _BASE:
                return
            yield before, end
            end = before


class Trunks:
    """Sequences, each with the trunk of which it is a beginning."""

    def __init__(self, wholes: Iterable[Whole], bases: AbstractSet[Whole],
                 elements: AbstractSet[Whole]) -> None:
        self.all: list[Trunk] = []
        self._of: dict[Whole, Trunk] = {}
        last: Optional[Trunk] = None
        # In this order a sequence comes behind those that it begins, and all between them begin with it too.
        for whole in sorted(set(wholes), reverse=True):
            if last is None or last.whole[:len(whole)] != whole:
                last = Trunk(whole, bases, elements)
                self.all.append(last)
            last.ends.add(len(whole))
            self._of[whole] = last

    def of(self, whole: Whole) -> Trunk:
        return self._of[whole]
