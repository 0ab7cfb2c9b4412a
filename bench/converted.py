"""The lines that `regkit convert` makes of appends, of puts by version and of increments.

It knows the whole history, so it knows which value each operation met. An append that no read shows is a
write of a value that nobody asks for. What has no reply is left out if nobody saw what it would have made."""
from typing import Callable, Dict, Iterator, List, NamedTuple, Optional, Protocol, Set, Tuple

from mixes import Value, shown

VALUES = 5  # that are put by version


class Called(Protocol):
    """A call of a simulated client, and what it found when it took effect."""

    op: str
    expected: Value  # of a put, the one that made the version for which it asks
    new: Value  # a number of its own
    found: Value
    is_done: bool
    crashes: bool

    def takes_place(self) -> bool: ...

    def left(self) -> Value: ...


class Said(NamedTuple):
    """An event of a run."""

    process: int
    call: Called
    is_call: bool


class Act(NamedTuple):
    """What an operation becomes: its op, and the members of its call and of its reply."""

    op: str
    asked: str
    told: str


Acts = Callable[[Called], Optional[Act]]
Pair = Tuple[int, int]  # a version, and a value


def read(value: Value) -> Act:
    return Act("read", "", f',"value":{shown(value)}')


def cas(met: Value, left: Value, took_place: bool = True) -> Act:
    return Act("cas", f',"from":{shown(met)},"to":{left}', f',"ok":{"true" if took_place else "false"}')


def appends(calls: List[Called]) -> Acts:
    """A list is named by its last element."""
    before = {call.new: call.found for call in calls if call.op == "append" and call.is_done}
    seen: Set[Value] = {None}
    for call in calls:
        element = call.found if call.op == "read" and not call.crashes else None
        while element not in seen:
            seen.add(element)
            element = before[element]

    def act(call: Called) -> Optional[Act]:
        if call.op == "read":
            return read(call.found)
        if call.new in seen:
            return cas(call.found, call.new)
        return None if call.crashes else Act("write", f',"value":{call.new}', "")

    return act


def versions(calls: List[Called]) -> Acts:
    """A value of the history is a version with its value."""
    version: Dict[Value, int] = {None: 0}
    for call in calls:
        if call.op == "put" and call.is_done and call.takes_place():
            version[call.new] = version[call.expected] + 1
    seen: Dict[int, Pair] = {}
    for call in sorted(calls, key=lambda call: call.op == "read"):
        if not call.crashes and (call.op == "read" or call.takes_place()):
            pair = pair_of(call.found if call.op == "read" else call.new, version)
            seen.setdefault(pair[0], pair)
    numbers: Dict[Pair, int] = {}

    def number(pair: Pair) -> Value:
        return numbers.setdefault(pair, len(numbers) + 1) if pair[0] else None

    def one_of(version: int) -> Pair:
        return seen.get(version, (version, VALUES))

    def act(call: Called) -> Optional[Act]:
        if call.op == "read":
            return read(number(pair_of(call.found, version)))
        asked = version.get(call.expected, 0)
        met, pair = one_of(asked), (asked + 1, (call.new or 0) % VALUES)
        if not call.crashes:
            return cas(number(met), number(pair), call.takes_place())
        can_be = seen.get(asked + 1, pair) == pair
        return cas(number(met), number(one_of(asked + 1))) if can_be else None

    return act


def pair_of(put: Value, version: Dict[Value, int]) -> Pair:
    return version[put], (put or 0) % VALUES


def increments(_: List[Called]) -> Acts:
    return lambda call: read(call.found) if call.op == "read" else cas(call.found, call.left())


ACTS: Dict[str, Callable[[List[Called]], Acts]] = {
    "append": appends, "versions": versions, "incr": increments}


def lines(mix: str, said: List[Said]) -> Iterator[str]:
    act = ACTS[mix]([each.call for each in said if each.is_call])
    for process, call, is_call in said:
        found = act(call)
        if found is not None and is_call:
            yield (f'{{"process":{process},"event":"call","op":"{found.op}","register":"x"{found.asked}}}\n')
        elif found is not None:
            yield f'{{"process":{process},"event":"reply"{found.told}}}\n'
