"""Which values a register may have while the reply that no order explains is waited for, and by what.

It tries all orders of a few operations, and gives up where they are too many: it only helps to explain what
`regsearch` found."""
from typing import NamedTuple, Optional, Sequence

from regkit.explain.shrinking import Kept
from regkit.history.operations import Operation

MOST_STEPS = 300_000


class State(NamedTuple):
    """Where an order may have come. Calls are named by their lines."""

    by: int  # the call whose value the register has; 0 is none yet
    done: frozenset[int]  # the calls that took effect
    seen: frozenset[int]  # those whose values the register had since the call in question began
    is_taken: bool  # whether that call took effect


class Reached(NamedTuple):
    """What may be while the call is open. Each operation is named by its line; 0 is the initial null."""

    values: list[int]  # whose values, in the orders that give all replies before
    taken: list[int]  # on whose value it may take effect; no such order gives all the replies before
    broken: Optional[Operation]  # the call whose reply none of those orders gives


class Moment(NamedTuple):
    """A call or a reply, and what the register may have from then until the next one."""

    line: int
    call: Operation
    values: list[Optional[int]]  # none after the reply that no order gives

    @property
    def is_call(self) -> bool:
        return self.line == self.call.line


class TooMany(Exception):
    """There are too many orders."""


class Orders:
    """All orders of some operations, line by line."""

    def __init__(self, kept: Sequence[Kept], call: Operation) -> None:
        self.by_line = {each.call.line: each.call for each in kept}
        self.guards = {each.call.line: each.call.guard if each.replied else each.call.asks for each in kept}
        self.call = call
        self.steps = 0
        self.taken: set[int] = set()  # on whose value the call in question may take effect
        self.opened: list[Operation] = []
        self.states = {State(0, frozenset(), frozenset(), False)}

    def meet(self, line: int, call: Operation) -> None:
        """Comes to a call, or to a reply: only the states in which its call took effect give that."""
        if line == call.line:
            self.opened.append(call)
            return
        self.states = {state for state in self.states if call.line in state.done}
        self.opened.remove(call)

    def watch(self) -> None:
        """Begins to look which values the register has: the call in question begins."""
        self.states = {state._replace(seen=frozenset({state.by})) for state in self.states}

    def go_on(self) -> None:
        """Adds all that the open calls may do. Raises TooMany."""
        ahead = list(self.states)
        while ahead:
            state = ahead.pop()
            for call in self.opened:
                self.steps += 1
                if call.line in state.done or not self.suits(call, state.by):
                    continue
                now = self.after(state, call)
                if now not in self.states:
                    self.states.add(now)
                    ahead.append(now)
            if self.steps > MOST_STEPS:
                raise TooMany

    def after(self, state: State, call: Operation) -> State:
        """The state after a call took effect."""
        by, is_taken = call.line if call.writes else state.by, state.is_taken
        if call is self.call:
            self.taken.add(state.by)
            is_taken = True
        sees = self.call in self.opened and not is_taken
        return State(by, state.done | {call.line}, state.seen | {by} if sees else state.seen, is_taken)

    def suits(self, call: Operation, by: int) -> bool:
        """Whether a call may take effect on the value of a write."""
        guard = self.guards[call.line]
        return guard is None or guard.allows(self.value(by))

    def value(self, line: int) -> Optional[int]:
        return self.by_line[line].value if line else None

    def values(self) -> list[Optional[int]]:
        """The values that the register may have now, null first."""
        return sorted({self.value(state.by) for state in self.states},
                      key=lambda value: (value is not None, value or 0))

    def is_taken(self) -> bool:
        """Whether the call in question may have taken effect."""
        return any(state.is_taken for state in self.states)


def events_of(kept: Sequence[Kept]) -> list[tuple[int, Operation]]:
    """The calls and the replies that count, by line."""
    events = [(each.call.line, each.call) for each in kept]
    events += [(each.call.end_line or 0, each.call) for each in kept if each.replied]
    return sorted(events, key=lambda event: event[0])


def moments(kept: Sequence[Kept], call: Operation, reply: int) -> Optional[list[Moment]]:
    """What may be at each moment up to the reply of a call. None if there are too many orders."""
    orders, found = Orders(kept, call), []
    try:
        for line, each in events_of(kept):
            orders.meet(line, each)
            orders.go_on()
            found.append(Moment(line, each, orders.values()))
            if line == reply:
                break
    except TooMany:
        return None
    return found


def reached(kept: Sequence[Kept], call: Operation, reply: int) -> Optional[Reached]:
    """What may be before the reply of a call. None if there are too many orders."""
    orders, broken = Orders(kept, call), None
    try:
        for line, each in events_of(kept):
            if line == reply:
                break
            was_taken = orders.is_taken()
            orders.meet(line, each)
            if line == call.line:
                orders.watch()
            if was_taken and not orders.is_taken():
                broken = each
            orders.go_on()
    except TooMany:
        return None
    values = {by for state in orders.states if not state.is_taken for by in state.seen}
    return Reached(sorted(values), sorted(orders.taken), broken)
