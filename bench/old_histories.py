#!/usr/bin/env python3
"""Histories of registers with distinct values, whose reads may be old, as docs/format.md describes them.

    bench/old_histories.py behind                          1,000,000 events
    bench/old_histories.py any --events 100000 --seed 7

A store is simulated whose clients call at random, reads as often as writes. A write takes effect at its
reply, and a read gives one of the values that its register has had by then.

| Kind | Registers | Processes | What a read gives |
|---|---|---|---|
| `fresh` | 16 | 16 | the newest value: the history is atomic |
| `behind` | 16 | 16 | a value of up to 8 writes ago, but none before one that its session wrote or read |
| `any` | 16 | 16 | any value of up to 8 writes ago |
| `one` | 1 | 16 | the same |
| `registers` | as many as calls | 16 | null |
| `processes` | 16 | as many as calls | any value of up to 8 writes ago |
| `fresh64` | 16 | 64 | the newest value |
| `timeouts` | 16 | one for 50 calls | the newest value |
| `prefix` | 16 | 16 | the newest of those that its session knows of, which miss up to 128 writes |
| `prefix64` | 16 | 64 | the same |
| `stale` | 1 | 16 | the first value, whatever was written since |
| `reverse` | 1 | 2 | each value once, after all are written, the newest first |

In `timeouts` one call in 50 has no effect and gets no reply, and its client goes on under a new number. In
`prefix` a session knows of the first writes of all registers, up to some place that never goes back. So the
history is causal, as are `fresh`, `fresh64`, `timeouts`, `registers` and `processes`.

The same words give the same bytes, in each version of Python."""
import argparse
import sys
from bisect import bisect_right
from itertools import islice
from typing import Callable, Dict, Iterator, List, NamedTuple, Optional, Tuple

from register_histories import Chance

OLDEST = 8  # writes that a read may be behind
OLDEST_OF_ALL = 128  # of all registers together
MANY = 0  # as many as there are calls

# Of the newest value and the one that the session knows, by their numbers: the one that a read gives. The
# value 0 is null.
Reading = Callable[[Chance, int, int], int]


def newest(_chance: Chance, latest: int, _known: int) -> int:
    return latest


def one_behind(chance: Chance, latest: int, known: int) -> int:
    return max(known, latest - chance.below(OLDEST + 1))


def any_behind(chance: Chance, latest: int, _known: int) -> int:
    return max(0, latest - chance.below(OLDEST + 1))


def the_first(_chance: Chance, latest: int, _known: int) -> int:
    return min(1, latest)


class Shape(NamedTuple):
    registers: int
    processes: int
    reading: Reading
    timeouts: int = 0  # one call in so many gets no reply


SHAPES = {"fresh": Shape(16, 16, newest), "behind": Shape(16, 16, one_behind),
          "any": Shape(16, 16, any_behind), "one": Shape(1, 16, any_behind),
          "registers": Shape(MANY, 16, newest), "processes": Shape(16, MANY, any_behind),
          "stale": Shape(1, 16, the_first), "fresh64": Shape(16, 64, newest),
          "timeouts": Shape(16, 16, newest, 50)}
PREFIXES = {"prefix": Shape(16, 16, newest), "prefix64": Shape(16, 64, newest)}
KINDS = [*SHAPES, *PREFIXES, "reverse"]
AT_ONCE = 16  # clients, if each call is of another process


def called(process: int, register: int, value: Optional[int]) -> str:
    op = f'"write","register":"k{register}","value":{value}' if value else f'"read","register":"k{register}"'
    return f'{{"process":{process},"event":"call","op":{op}}}\n'


def replied(process: int, value: Optional[str]) -> str:
    told = "" if value is None else f',"value":{value}'
    return f'{{"process":{process},"event":"reply"{told}}}\n'


class Client:
    def __init__(self, process: int) -> None:
        self.process = process
        self.call: Optional[Tuple[int, int]] = None  # the register, and the value of a write or 0
        self.known: Dict[int, int] = {}  # the place of the newest value of each register that it knows


class Run:
    """Clients that call until there are as many events as were asked for."""

    def __init__(self, shape: Shape, calls: int, chance: Chance) -> None:
        self.shape, self.calls, self.chance = shape, calls, chance
        self.clients = [Client(number) for number in range(shape.processes or AT_ONCE)]
        self.named = len(self.clients)  # how many numbers of processes were used
        self.called = 0
        self.written: Dict[int, int] = {}  # how many writes of each register were called
        self.values: Dict[int, List[int]] = {}  # the values of each register, by when they took effect

    def lines(self) -> Iterator[str]:
        working = list(self.clients)
        while working:
            client = working[self.chance.below(len(working))]
            if client.call is not None:
                if self.shape.timeouts and self.chance.one_in(self.shape.timeouts):
                    self.time_out(client)
                else:
                    yield self.reply(client)
            elif self.called < self.calls:
                yield self.call(client)
            else:
                working.remove(client)

    def call(self, client: Client) -> str:
        register = self.chance.below(self.shape.registers) if self.shape.registers else self.called
        if not self.shape.processes:
            client.process = self.called
            client.known = {}
        self.called += 1
        value = 0
        if self.chance.one_in(2):
            value = self.written[register] = self.written.get(register, 0) + 1
        client.call = (register, value)
        return called(client.process, register, value)

    def time_out(self, client: Client) -> None:
        """The call stays pending."""
        client.call, client.process = None, self.named
        client.known = {}
        self.named += 1

    def reply(self, client: Client) -> str:
        assert client.call is not None
        register, value = client.call
        values = self.values.setdefault(register, [0])
        client.call = None
        if value:
            values.append(value)
            client.known[register] = len(values) - 1
            return replied(client.process, None)
        place = self.shape.reading(self.chance, len(values) - 1, client.known.get(register, 0))
        client.known[register] = place
        return replied(client.process, str(values[place] or "null"))


class PrefixRun(Run):
    """In which each session knows of the first writes of all registers, up to some place."""

    def __init__(self, shape: Shape, calls: int, chance: Chance) -> None:
        super().__init__(shape, calls, chance)
        self.writes = 0  # that took effect
        self.places: Dict[int, List[int]] = {}  # of the writes of each register, among all
        self.seen: Dict[int, int] = {}  # of each process, how many writes it knows of

    def reply(self, client: Client) -> str:
        assert client.call is not None
        register, value = client.call
        if value:
            self.writes += 1
            self.places.setdefault(register, []).append(self.writes)
            self.seen[client.process] = self.writes
            return super().reply(client)
        latest = self.writes - self.chance.below(OLDEST_OF_ALL + 1)
        seen = self.seen[client.process] = max(self.seen.get(client.process, 0), latest)
        place = bisect_right(self.places.get(register, []), seen)
        client.call = None
        return replied(client.process, str(self.values.setdefault(register, [0])[place] or "null"))


def reverse(calls: int) -> Iterator[str]:
    """All values are written, and then read by another session, the newest first."""
    for value in range(1, calls // 2 + 1):
        yield called(0, 0, value)
        yield replied(0, None)
    for value in range(calls // 2, 0, -1):
        yield called(1, 0, None)
        yield replied(1, str(value))


def history(kind: str, events: int, seed: int) -> Iterator[str]:
    if kind == "reverse":
        return reverse(events // 2)
    chance = Chance(f"{seed} {kind} {events}")
    if kind in PREFIXES:
        return PrefixRun(PREFIXES[kind], events // 2, chance).lines()
    if SHAPES[kind].timeouts:  # then there are more calls than replies
        return islice(Run(SHAPES[kind], events, chance).lines(), events)
    return Run(SHAPES[kind], events // 2, chance).lines()


def main() -> int:
    form = argparse.RawDescriptionHelpFormatter
    words = argparse.ArgumentParser(description=__doc__, formatter_class=form)
    words.add_argument("kind", choices=KINDS, metavar="KIND", help=", ".join(KINDS))
    words.add_argument("--events", type=int, default=1_000_000, help="how many lines; default 1000000")
    words.add_argument("--seed", type=int, default=1, help="default 1")
    asked = words.parse_args()
    sys.stdout.writelines(history(asked.kind, asked.events, asked.seed))
    return 0


if __name__ == "__main__":
    sys.exit(main())
