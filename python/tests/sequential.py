"""Stores of one key that do one thing after another, their random histories, and a slow judge of these.

A store is a function from its state and what is asked to what may come of it: next states with answers. A
history is judged by trying all orders of its operations on the store, and all that may come of them. So the
judge shares nothing with `regkit convert`.
"""
import pathlib
import random
import sys
from typing import Any, Callable, Dict, Iterable, List, NamedTuple, Optional, Set, Tuple

sys.path.insert(0, str(pathlib.Path(__file__).parents[2] / "tests"))
import reference  # noqa: E402
import search_judge  # noqa: E402

Asked = Tuple[str, Any]  # an operation, and what it gives
State = Any  # hashable
Store = Callable[[State, Asked], List[Tuple[State, Any]]]


class Done(NamedTuple):
    """An operation, with times that no other has."""

    client: int
    asked: Asked
    answer: Any
    start: int
    end: Optional[int]  # None if its outcome is unknown
    outcome: str  # ok, fail or unknown


class _Open:
    """A call that is open."""

    def __init__(self, client: int, asked: Asked, start: int) -> None:
        self.client, self.asked, self.start = client, asked, start
        self.answer: Any = None
        self.is_effective = False

    def ended(self, end: Optional[int], outcome: str) -> Done:
        answer = self.answer if outcome == "ok" else None
        return Done(self.client, self.asked, answer, self.start, end, outcome)


def history_of(chance: random.Random, store: Store, state: State,
               ask: Callable[[State], Asked]) -> List[Done]:
    """Clients ask, take effect at one moment and get their answers, but for some that fail or get none.

    `ask` says what is asked next, and may look at the state.
    """
    clients = list(range(chance.randrange(1, 5)))
    running: Dict[int, _Open] = {}
    lost: List[_Open] = []  # calls of unknown outcome, which may take effect later
    done: List[Done] = []
    for time in range(chance.randrange(6, 26)):
        place = chance.randrange(len(clients))
        client = clients[place]
        call = running.get(client)
        if lost and chance.random() < 0.15:
            state, _ = chance.choice(store(state, lost.pop(chance.randrange(len(lost))).asked))
        if call is None:
            running[client] = _Open(client, ask(state), time)
        elif not call.is_effective and chance.random() < 0.85:
            call.is_effective = True
            state, call.answer = chance.choice(store(state, call.asked))
        else:
            del running[client]
            if call.is_effective and chance.random() < 0.85:
                done.append(call.ended(time, "ok"))
            elif not call.is_effective and chance.random() < 0.4:
                done.append(call.ended(time, "fail"))
            else:
                done.append(call.ended(None, "unknown"))
                lost += [] if call.is_effective else [call]
                clients[place] = max(clients) + 1
    done += [call.ended(None, "unknown") for call in running.values()]
    return sorted(done, key=lambda each: each.start)


def is_linearizable(done: Iterable[Done], store: Store, state: State) -> bool:
    """Whether some order of the operations gives each answer. One of unknown outcome may be left out."""
    held = [each for each in done if each.outcome != "fail"]
    needed = sum(1 << at for at, each in enumerate(held) if each.outcome == "ok")
    before = [sum(1 << at for at, other in enumerate(held)
                  if other.end is not None and other.end < each.start) for each in held]
    tried: Set[Tuple[int, State]] = set()

    def rest(taken: int, state: State) -> bool:
        if needed & ~taken == 0:
            return True
        if (taken, state) in tried:
            return False
        tried.add((taken, state))
        for at, each in enumerate(held):
            if not taken >> at & 1 and not before[at] & ~taken:
                if any(rest(taken | 1 << at, after) for after, answer in store(state, each.asked)
                       if each.outcome != "ok" or answer == each.answer):
                    return True
        return False

    return rest(0, state)


def moments(done: Iterable[Done]) -> List[Tuple[bool, Done]]:
    """Calls and ends in the order of time: whether it is the call, and of which operation."""
    events = [(each.start, True, each) for each in done]
    events += [(each.end, False, each) for each in done if each.end is not None]
    return [(is_call, each) for _, is_call, each in sorted(events, key=lambda event: event[0])]


def is_atomic(history: str) -> bool:
    """Whether each register of a converted history has a legal order, by the judge of `regsearch`."""
    registers = search_judge.registers_of(reference.events_of(history.encode(), search_judge.OPTIONS))
    return all(search_judge.legal_order(operations) is not None for operations in registers.values())
