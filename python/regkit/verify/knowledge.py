"""Who knows of what: the operations of all registers, and what each learns of at once.

An operation learns of what its session called before it, and a completed read of the write whose value it
gave. It knows of these, and of all that they know of. So of each session it knows the first few operations,
and a number is enough to say how many: that is what a clock is.
"""
from collections import Counter, deque
from typing import Iterator, Optional

from regkit.verify.operations import History, Operation, initial_write

Clock = list[int]  # of each session, how many of its operations are known


class Whole:
    """The operations of all registers. An initial write learns of nothing, and everybody knows of it."""

    def __init__(self, history: History) -> None:
        self.initial = {name: initial_write(name) for name in history.registers}
        self.calls = sorted((a for own in history.registers.values() for a in own), key=lambda a: a.line)
        self.by_line = {a.line: a for a in self.calls}
        self.source_of: dict[int, Optional[Operation]] = {}  # of completed reads; None of an unwritten value
        self.before: dict[int, Optional[Operation]] = {}  # what the session of a call called last before it
        written = {(a.register, a.value): a for a in self.calls if a.is_write}
        written.update({(name, None): write for name, write in self.initial.items()})
        latest: dict[Optional[int], Operation] = {}
        for a in self.calls:
            self.before[a.line] = latest.get(a.process)
            latest[a.process] = a
            if not a.is_write and a.completed:
                self.source_of[a.line] = written.get((a.register, a.value))
        self.number_of = {process: number for number, process in enumerate(latest)}  # of each session

    @property
    def sessions(self) -> int:
        return len(self.number_of)

    def learnt(self, a: Operation) -> Iterator[Operation]:
        """What a call learns of at once, as far as it isn't what its session called still earlier, or an
        initial write."""
        for b in (self.before[a.line], self.source_of.get(a.line)):
            if b is not None and b.line:
                yield b

    def kept_writes(self) -> list[Operation]:
        """Those that were completed or read, without the initial ones."""
        read = {source.line for source in self.source_of.values() if source is not None}
        return [a for a in self.calls if a.is_write and (a.completed or a.line in read)]

    def knows(self, b: Operation, a: Operation) -> bool:
        """Whether b, a call, knows of a: looked for from b on backwards."""
        if not a.line:
            return True
        ahead, seen = [b], set()
        while ahead:
            for c in self.learnt(ahead.pop()):
                if c is a:
                    return True
                if c.line not in seen:
                    seen.add(c.line)
                    ahead.append(c)
        return False


def by_knowledge(whole: Whole) -> Optional[list[Operation]]:
    """The calls, each behind all that it learns of. None if one would have to know of itself."""
    waits = {a.line: sum(1 for _ in whole.learnt(a)) for a in whole.calls}
    tells: dict[int, list[Operation]] = {}
    for a in whole.calls:
        for b in whole.learnt(a):
            tells.setdefault(b.line, []).append(a)
    ready = deque(a for a in whole.calls if not waits[a.line])
    order = []
    while ready:
        b = ready.popleft()
        order.append(b)
        for a in tells.get(b.line, ()):
            waits[a.line] -= 1
            if not waits[a.line]:
                ready.append(a)
    return order if len(order) == len(whole.calls) else None


def joined(one: Clock, other: Clock) -> Clock:
    """What either knows."""
    return [own if own > theirs else theirs for own, theirs in zip(one, other)]


def clocks_of(whole: Whole, order: list[Operation]) -> Iterator[tuple[Operation, Clock, dict[int, Clock]]]:
    """Each call of such an order with its clock, in which it counts itself, and the clocks of all that it
    learns of. A clock is held until the last call that learns of its own."""
    left = Counter(b.line for a in order for b in whole.learnt(a))
    clocks: dict[int, Clock] = {}
    counts = [0] * whole.sessions
    for a in order:
        learnt = list(whole.learnt(a))
        held = [clocks[b.line] for b in learnt]
        clock = joined(held[0], held[-1]) if held else [0] * whole.sessions
        own = whole.number_of[a.process]
        counts[own] += 1
        clock[own] = counts[own]
        clocks[a.line] = clock
        yield a, clock, clocks
        for b in (*learnt, a):
            if b is not a:
                left[b.line] -= 1
            if not left[b.line]:
                clocks.pop(b.line, None)
