"""Whether it is clear by revisions in which order the values of a key came, though deletes are in between.

A block is a put that asks for no revision, with the puts that follow each other from it by revision. Two
blocks may have come in either order if all that names the one overlaps all that names the other. If both
begin and end alike, they can be exchanged in any legal order, and nobody else sees a difference: so there is
a legal order in which revisions go up. Else the source is refused.
"""
import bisect
import itertools
from typing import Iterable, NamedTuple

from regkit.convert.model import CAS, DELETE, Refused, SourceOperation
from regkit.convert.revision_order import Order, Span
from regkit.convert.values import shown


class _Deletes:
    """The deletes of a key that take any value away."""

    def __init__(self, operations: Iterable[SourceOperation], spans: dict[SourceOperation, Span]) -> None:
        found = sorted(spans[each] for each in operations
                       if each.kind == DELETE and each.ending != "fail" and each.found is not False)
        self._calls: list[float] = [span.call for span in found]
        self._ends: list[float] = list(itertools.accumulate((span.end for span in found), max))

    def are_between(self, one: Span, other: Span) -> bool:
        """Whether one may have taken effect behind one operation and before another."""
        begun = bisect.bisect_left(self._calls, other.end)
        return begun > 0 and self._ends[begun - 1] > one.call


class _Block(NamedTuple):
    first: SourceOperation  # the put that begins it
    revision: int  # that this one gave
    begun: int  # when the last of what names its revisions had begun
    ended: float  # when the first of it ended
    is_cleared: bool  # whether a delete by revision ends it
    is_sensed: bool  # whether something asked for one of its revisions, and may not have met it

    def is_like(self, other: "_Block") -> bool:
        return self._shape() == other._shape()

    def _shape(self) -> tuple[object, ...]:
        return self.first.version, self.first.kind == DELETE, self.is_cleared


class Blocks:
    """The blocks of one key."""

    def __init__(self, operations: list[SourceOperation], order: Order,
                 spans: dict[SourceOperation, Span]) -> None:
        self._order, self._operations, self._spans = order, operations, spans
        self._deletes = _Deletes((each for each in operations if each not in order.given), spans)
        self._cleared = {each.version for each in operations if each.clears and each.ending != "fail" and
                         not each.missed}
        self._sensed = {each.version for each in operations if _may_miss(each)}
        self._givers = {revision: each for each, revision in order.given.items()}
        self._unseen = min((spans[each].call for each in operations if _is_unseen(each, order)), default=None)

    def settle(self) -> None:
        """Lets puts ask for the revision before their own, if nothing else can have come before them. Raises
        Refused if it isn't clear in which order two blocks came, and that matters."""
        if any(revision not in self._givers for revision in self._order.revisions):
            return  # a revision that nobody gave: so there is no legal order
        for revision, following in zip(self._order.revisions, self._order.revisions[1:]):
            self._join(revision, following)
        self._deletes = _Deletes(self._operations, self._spans)
        parts = self._parts()
        if self._order.faults:
            self._refuse_hidden(parts)
            return
        blocks = self._made(parts)
        for place, block in enumerate(blocks):
            for other in itertools.takewhile(lambda each: each.begun < block.ended, blocks[place + 1:]):
                self._refuse_unclear(block, other)

    def _join(self, revision: int, following: int) -> None:
        """Lets a change ask for the revision before its own, or for none behind a delete, if it met that."""
        change, before = self._givers[following], self._givers[revision]
        begins, ends = self._order.span(before), self._order.span(change)
        if change.version is not None or self._deletes.are_between(begins, ends):
            return
        if before.kind == DELETE or before.clears:
            if change.kind != DELETE and (self._unseen is None or self._unseen > ends.end):
                change.version = 0
        elif revision not in self._cleared and revision not in self._sensed:
            change.version = revision
            if change.kind == DELETE:
                change.kind, change.value, change.clears, change.found = CAS, None, True, None

    def _parts(self) -> list[list[int]]:
        """The revisions of each block."""
        parts: list[list[int]] = []
        for revision in self._order.revisions:
            if parts and self._givers[revision].version == parts[-1][-1]:
                parts[-1].append(revision)
            else:
                parts.append([revision])
        return parts

    def _refuse_hidden(self, parts: list[list[int]]) -> None:
        """Raises Refused if no fault is one that the history will show."""
        of_part = {revision: place for place, part in enumerate(parts) for revision in part}
        if not any(of_part[each.smaller] == of_part[each.greater] for each in self._order.faults):
            raise self._order.faults[0].why

    def _made(self, parts: list[list[int]]) -> list[_Block]:
        of_part = {revision: place for place, part in enumerate(parts) for revision in part}
        spans: list[list[Span]] = [[] for _ in parts]
        for each, named in self._order.named.items():
            spans[of_part[named[-1]]].append(self._order.span(each))
        return [_Block(self._givers[part[0]], part[0], max(span.call for span in own),
                       min(span.end for span in own), self._is_cleared(part[-1]),
                       not self._sensed.isdisjoint(part)) for part, own in zip(parts, spans)]

    def _is_cleared(self, revision: int) -> bool:
        return revision in self._cleared or self._givers[revision].clears

    def _refuse_unclear(self, block: _Block, other: _Block) -> None:
        if block.is_like(other) and not block.is_sensed and not other.is_sensed:
            return
        begins, ends = self._order.span(other.first), self._order.span(block.first)
        takes_away = other.is_cleared or other.first.kind == DELETE
        if block.first.version == 0 and not takes_away and not self._deletes.are_between(begins, ends):
            return  # nothing can have taken the other value away before this one was created
        raise Refused(f"this put gave the revision {other.revision} of {shown(other.first.key)} while the "
                      f"one of line {block.first.line} gave {block.revision}, and a delete came between them "
                      "or behind both: a history can't say which of the two came first, and here it may "
                      "matter. Let deletes that found a value tell the revision that they gave, too, or leave "
                      "out such keys with --ops WORD=other --skip-key", other.first.line)


def _is_unseen(operation: SourceOperation, order: Order) -> bool:
    """Whether an operation may have put a value where there was none, and nobody knows its revision."""
    is_unknown = operation.ending in (None, "crash") and operation not in order.given
    return operation.kind == "write" and is_unknown and not operation.version


def _may_miss(operation: SourceOperation) -> bool:
    """Whether an operation asked for a revision and found another one, or may have deleted it."""
    if operation.kind == "read" or not operation.version:
        return False
    is_unknown = operation.ending in (None, "crash") and operation.clears
    return is_unknown or (operation.missed and operation.told_version is None)
