"""The order that revisions tell: what names a smaller one came before what names a greater one.

Operations that overlap become shorter by it: a call moves behind all calls of what came before, and a reply
before all replies of what came after.
"""
import itertools
from typing import Callable, Iterable, Iterator, NamedTuple, Optional

from regkit.convert.model import Refused, Source, SourceOperation
from regkit.convert.values import shown

Bounds = dict[SourceOperation, SourceOperation]
_BACK = ("so revisions don't go up. If they are those of this key, the store is at fault, but no history of "
         "a register says so")


class Span(NamedTuple):
    """When an operation is open, by places in the source."""

    call: int
    end: float  # infinite if it has no reply


def spans_of(source: Source) -> dict[SourceOperation, Span]:
    spans: dict[SourceOperation, Span] = {}
    for place, (each, is_call) in enumerate(source.moments()):
        if is_call:
            spans[each] = Span(place, float("inf"))
        elif each.ending == "reply":
            spans[each] = Span(spans[each].call, place)
    return spans


def named_by(operation: SourceOperation, given: Optional[int] = None) -> set[int]:
    """The revisions that an operation certainly met or gave, which may be a put that gave one."""
    took_place = given is not None or (operation.ending == "reply" and not operation.missed)
    met = operation.version if took_place else None
    told = operation.told_version if operation.ending == "reply" else None
    return {each for each in (met, told, given) if each}


class Fault(NamedTuple):
    """Two revisions that came in the wrong order. If puts follow each other from the one to the other by
    revision, a history shows that."""

    smaller: int
    greater: int
    why: Refused


class Order:
    """The operations of one key that name revisions. If there are faults, nothing becomes shorter.

    `given` has the puts that certainly took place, with their revisions. `named` has the revisions that each
    operation met or gave, the smaller one first."""

    def __init__(self, operations: Iterable[SourceOperation], given: dict[SourceOperation, int],
                 spans: dict[SourceOperation, Span]) -> None:
        self.given, self._spans = given, spans
        self.named = {each: sorted(found) for each in operations
                      if (found := named_by(each, given.get(each)))}
        self.revisions = sorted({revision for found in self.named.values() for revision in found})
        self._places = {revision: place for place, revision in enumerate(self.revisions)}
        ranked = sorted(self.named, key=self._rank)
        self.calls = self._bounds(ranked, lambda each: spans[each].call)  # by operation, whose bounds its own
        self.ends = self._bounds(ranked[::-1], lambda each: -spans[each].end)
        self.faults = [fault for each in ranked for fault in self._faults_of(each)]
        if self.faults:
            self.calls, self.ends = {}, {}

    def _rank(self, operation: SourceOperation) -> int:
        """The smaller it is, the earlier the operation came. A put by version comes between its revisions."""
        named = self.named[operation]
        return self._places[named[0]] + self._places[named[-1]]

    def _bounds(self, ranked: list[SourceOperation], late: Callable[[SourceOperation], float]) -> Bounds:
        """By operation, itself or the latest of those before it."""
        bounds: Bounds = {}
        latest: Optional[SourceOperation] = None
        for _, group in itertools.groupby(ranked, self._rank):
            equals = list(group)
            for each in equals:
                bounds[each] = each if latest is None else max(each, latest, key=late)
            latest = max((bounds[each] for each in equals), key=late)
        return bounds

    def _faults_of(self, operation: SourceOperation) -> Iterator[Fault]:
        met, gave = self.named[operation][0], self.named[operation][-1]
        for between in self.revisions[self._places[met] + 1:self._places[gave]][:1]:
            yield Fault(met, between, Refused(
                f"this {operation.kind} of {shown(operation.key)} met the revision {met} and gave {gave}, "
                f"and the key had the revision {between} too: {_BACK}", operation.line))
        late, early = self.calls[operation], self.ends[operation]
        if self._spans[early].end < self._spans[late].call:
            smaller, greater = self.named[late][-1], self.named[early][-1]
            yield Fault(smaller, greater, Refused(
                f"this {late.kind} of {shown(late.key)} names the revision {smaller}, and what named "
                f"{greater}, at line {early.line}, had ended before it began: {_BACK}", late.line))

    def span(self, operation: SourceOperation) -> Span:
        """When an operation that names revisions is open, once it is shorter."""
        call, end = self.calls.get(operation, operation), self.ends.get(operation, operation)
        return Span(self._spans[call].call, self._spans[end].end)


def shorten(source: Source, orders: Iterable[Order], spans: dict[SourceOperation, Span]) -> None:
    """Moves the calls and the replies of a source to where their orders say."""
    calls: Bounds = {}
    ends: Bounds = {}
    for order in orders:
        calls.update(order.calls)
        ends.update(order.ends)
    placed: list[tuple[float, int, SourceOperation]] = []
    for place, (each, is_call) in enumerate(source.moments()):
        bound = (calls if is_call else ends).get(each, each)
        if bound is each or (each.ending != "reply" and (not is_call or each.ending is not None)):
            placed.append((place, 0, each))
        elif is_call:
            placed.append((spans[bound].call, 1, each))
            each.time = bound.time
        else:
            placed.append((spans[bound].end, -1, each))
            each.end_time = bound.end_time
    source.steps = [each for _, _, each in sorted(placed, key=lambda step: step[:2])]
