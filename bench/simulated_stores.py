#!/usr/bin/env python3
"""Histories of simulated stores, with the times of their lines in nanoseconds (docs/format.md has the form).

    bench/simulated_stores.py leader-sticky --events 100000 --seed 2 > history.jsonl

Sixteen clients call 16 registers, and 3 calls in 10 write. A message takes 0.08 to 0.4 ms, and copies follow
after some ms.

| Store | What it is |
|---|---|
| `linear` | one copy |
| `sync` | a leader; a write ends when all copies have it; any copy is read |
| `quorum` | three copies, writes and reads of two, no write-back |
| `leader-session` | followers that lag; a session keeps to one, with a token of what it has seen |
| `leader-split` | the same without tokens, but no session both reads and writes |
| `leader-own` | any follower, with a token of the session's own writes |
| `leader-sticky` | each session keeps to a follower, without a token |
| `leader-roam` | any follower |
| `per-key` | as `leader-session`, but each key is replicated by itself |
| `causal` | three leaders, causal delivery, the last write wins by Lamport clocks |
| `skew` | one copy, the last write wins by the clients' clocks, which differ by 5 ms at most |
| `cache` | a cache beside one copy, which late readers fill with old values |
| `eventual` | three copies, any one is read and written, the last write wins |
| `failover` | a leader in whose place a lagging follower comes each 300 ms |

The same words give the same bytes, in each version of Python."""
import argparse
import heapq
import json
import math
import sys
from typing import Any, Callable, Dict, Generator, Iterator, List, NamedTuple, Optional, Tuple, Type

from register_histories import Chance

US, MS = 1_000, 1_000_000
CLIENTS, REGISTERS, COPIES, WRITES = 16, 16, 3, 30
Value = Optional[int]
Stamp = Tuple[int, int]
Served = Generator[int, None, Value]  # yields when it goes on, and returns what a read gave
NEVER: Stamp = (-1, -1)


class Times(Chance):
    """Random times."""

    def unit(self) -> float:
        return (self.below(1 << 53) + 0.5) / (1 << 53)

    def between(self, least: int, most: int) -> int:
        return least + int(self.unit() * (most - least))

    def around(self, mean: int) -> int:
        return int(-math.log(self.unit()) * mean)

    def hop(self) -> int:
        return self.between(80 * US, 400 * US)


class Ask(NamedTuple):
    """A call. A read has no value."""

    client: int
    register: int
    value: Value


class Copy:
    """What a server holds."""

    def __init__(self) -> None:
        self.values: List[Value] = [None] * REGISTERS
        self.stamps: List[Stamp] = [NEVER] * REGISTERS

    def put(self, register: int, value: Value, stamp: Stamp) -> None:
        """The greatest stamp wins."""
        if stamp > self.stamps[register]:
            self.values[register], self.stamps[register] = value, stamp


class Store:
    """`now` is the time, and `send` lets something happen later."""

    def __init__(self, chance: Times, send: Callable[[int, Callable[[], None]], None]) -> None:
        self.chance, self.send, self.now = chance, send, 0
        self.copies = [Copy() for _ in range(COPIES)]

    @property
    def one(self) -> Copy:
        return self.copies[0]

    def later(self) -> int:
        return self.now + self.chance.hop()

    def serve(self, ask: Ask) -> Served:
        yield self.later()
        value = self.take_effect(ask)
        yield self.later()
        return value

    def take_effect(self, ask: Ask) -> Value:
        """In one copy."""
        if ask.value is None:
            return self.one.values[ask.register]
        self.one.values[ask.register] = ask.value
        return None


# ---- A leader and followers


class Follower(Copy):
    """It has taken the first few writes of the leader's log."""

    def __init__(self) -> None:
        super().__init__()
        self.taken = 0
        self.due: Optional[int] = None  # when it takes the next one, once that is known
        self.least = 0  # it takes none before


class Leader(Store):
    is_sticky, has_own_token, has_seen_token = False, False, False

    def __init__(self, chance: Times, send: Callable[[int, Callable[[], None]], None]) -> None:
        super().__init__(chance, send)
        self.log: List[Tuple[int, int, int]] = []
        self.followers = [Follower() for _ in range(COPIES)]
        self.tokens = [0] * CLIENTS

    def catch_up(self, follower: Follower) -> None:
        while follower.taken < len(self.log):
            time, register, value = self.log[follower.taken]
            if follower.due is None:
                stalled = time + 50 * MS if self.chance.one_in(2000) else 0
                lag = 500 * US + self.chance.around(2 * MS)
                follower.due = follower.least = max(follower.least, time + lag, stalled)
            if follower.due > self.now:
                return
            follower.values[register] = value
            follower.taken, follower.due = follower.taken + 1, None

    def take_effect(self, ask: Ask) -> Value:
        if ask.value is not None:
            self.log.append((self.now, ask.register, ask.value))
            self.tokens[ask.client] = len(self.log)
            return super().take_effect(ask)
        return self.read(ask)

    def read(self, ask: Ask) -> Value:
        place = ask.client % COPIES if self.is_sticky else self.chance.below(COPIES)
        follower = self.followers[place]
        self.catch_up(follower)
        has_token = self.has_own_token or self.has_seen_token
        if not has_token or follower.taken >= self.tokens[ask.client]:
            return follower.values[ask.register]
        if self.has_seen_token:
            self.tokens[ask.client] = len(self.log)
        return super().take_effect(ask)


class Sticky(Leader):
    is_sticky = True


class Session(Sticky):
    has_seen_token = True


class Own(Leader):
    has_own_token = True


class Failover(Leader):
    """The leader alone is read."""

    failing = 300 * MS

    def read(self, ask: Ask) -> Value:
        return Store.take_effect(self, ask)

    def take_effect(self, ask: Ask) -> Value:
        if self.now > self.failing:
            self.failing = self.now + 300 * MS
            follower = self.followers[self.chance.below(COPIES)]
            self.catch_up(follower)
            del self.log[follower.taken:]
            self.one.values = list(follower.values)
            for other in self.followers:
                other.values, other.taken = list(follower.values), follower.taken
                other.due, other.least = None, follower.least
        return super().take_effect(ask)


class Sync(Store):
    """A write ends when all copies have it."""

    def __init__(self, chance: Times, send: Callable[[int, Callable[[], None]], None]) -> None:
        super().__init__(chance, send)
        self.writes, self.last = 0, [0] * COPIES

    def serve(self, ask: Ask) -> Served:
        yield self.later()
        if ask.value is None:
            value = self.copies[self.chance.below(COPIES)].values[ask.register]
            yield self.later()
            return value
        self.writes += 1
        for place, copy in enumerate(self.copies):
            slow = self.chance.around(2 * MS) if self.chance.one_in(10) else 0
            due = self.now + self.chance.between(50 * US, 400 * US) + slow
            self.last[place] = max(self.last[place] + 1, due)
            put(self, self.last[place], copy, ask, (self.writes, 0))
        yield max(self.last) + self.chance.hop()
        return None


def put(store: Store, when: int, copy: Copy, ask: Ask, stamp: Stamp) -> None:
    store.send(when, lambda: copy.put(ask.register, ask.value, stamp))


# ---- One copy


class Skew(Store):
    """The last write wins, by the clients' clocks."""

    def __init__(self, chance: Times, send: Callable[[int, Callable[[], None]], None]) -> None:
        super().__init__(chance, send)
        self.ahead = [chance.between(-5 * MS, 5 * MS) for _ in range(CLIENTS)]

    def serve(self, ask: Ask) -> Served:
        stamp = 10 * MS + self.now + self.ahead[ask.client], ask.client
        yield self.later()
        value = self.one.values[ask.register]
        if ask.value is not None:
            self.one.put(ask.register, ask.value, stamp)
        yield self.later()
        return value


class Cache(Store):
    """A write deletes what the cache has. A reader who finds nothing there fills it, and may be late."""

    def __init__(self, chance: Times, send: Callable[[int, Callable[[], None]], None]) -> None:
        super().__init__(chance, send)
        self.cached: Dict[int, Tuple[Value, int]] = {}  # with the time until which it is there

    def serve(self, ask: Ask) -> Served:
        yield self.later()
        value: Value = None
        if ask.value is not None:
            self.one.values[ask.register] = ask.value
            yield self.later()
            self.cached.pop(ask.register, None)
        else:
            value, until = self.cached.get(ask.register, (None, 0))
            if until <= self.now:
                yield self.later()
                value = self.one.values[ask.register]
                yield self.later()
                yield self.later() + (2 * MS if self.chance.one_in(50) else 0)
                self.cached[ask.register] = value, self.now + 30 * MS
        yield self.later()
        return value


# ---- Several copies that are written


class Quorum(Store):
    """Two of three copies, without write-back."""

    def serve(self, ask: Ask) -> Served:
        skipped = self.chance.below(COPIES)
        others = [copy for place, copy in enumerate(self.copies) if place != skipped]
        yield self.later()
        if ask.value is None:
            first, second = others[0], others[1]
            value, stamp = first.values[ask.register], first.stamps[ask.register]
            yield self.now + self.chance.hop() // 8
            if second.stamps[ask.register] > stamp:
                value = second.values[ask.register]
            yield self.later()
            return value
        newest = max(copy.stamps[ask.register] for copy in others)[0]
        arrivals = []
        for copy in self.copies:
            slow = self.chance.around(3 * MS) if self.chance.one_in(4) else 0
            arrivals.append(self.later() + slow)
            put(self, arrivals[-1], copy, ask, (newest + 1, ask.client))
        yield sorted(arrivals)[1] + self.chance.hop()
        return None


class Eventual(Store):
    """Any copy is read and written, and tells the others. The last write wins, by the copies' clocks."""

    def __init__(self, chance: Times, send: Callable[[int, Callable[[], None]], None]) -> None:
        super().__init__(chance, send)
        self.ahead = [chance.between(-200 * US, 200 * US) for _ in range(COPIES)]

    def serve(self, ask: Ask) -> Served:
        place = self.chance.below(COPIES)
        yield self.later()
        if ask.value is not None:
            stamp = MS + self.now + self.ahead[place], place
            self.copies[place].put(ask.register, ask.value, stamp)
            for other in self.copies:
                put(self, self.now + 300 * US + self.chance.around(2 * MS), other, ask, stamp)
        value = self.copies[place].values[ask.register]
        yield self.later()
        return value


class PerKey(Store):
    """Each key has a leader, and followers that hear of each key by itself. A session keeps to a copy, and
    waits there for its own writes."""

    def __init__(self, chance: Times, send: Callable[[int, Callable[[], None]], None]) -> None:
        super().__init__(chance, send)
        self.last: Dict[Tuple[int, int], int] = {}  # when a copy hears of a key's latest write

    def serve(self, ask: Ask) -> Served:
        place = ask.client % COPIES
        yield self.later()
        if ask.value is None:
            value = self.copies[place].values[ask.register]
            yield self.later()
            return value
        home = ask.register % COPIES
        stamp = self.copies[home].stamps[ask.register][0] + 1, 0
        self.copies[home].put(ask.register, ask.value, stamp)
        own = self.now
        for other in set(range(COPIES)) - {home}:
            due = self.now + 300 * US + self.chance.around(2 * MS)
            due = self.last[other, ask.register] = max(due, self.last.get((other, ask.register), 0) + 1)
            put(self, due, self.copies[other], ask, stamp)
            own = due if other == place else own
        yield own + self.chance.hop()
        return None


class Message(NamedTuple):
    """A write, with how many writes of each copy its own had when it took it."""

    ask: Ask
    stamp: Stamp
    known: List[int]


class Causal(Store):
    """Three leaders. A copy takes a write once it has all that the writer's copy had."""

    def __init__(self, chance: Times, send: Callable[[int, Callable[[], None]], None]) -> None:
        super().__init__(chance, send)
        self.lamport = [0] * COPIES
        self.known = [[0] * COPIES for _ in range(COPIES)]
        self.waiting: List[List[List[Message]]] = [[[] for _ in range(COPIES)] for _ in range(COPIES)]

    def serve(self, ask: Ask) -> Served:
        own = ask.client % COPIES
        yield self.now + self.chance.hop() // 4
        if ask.value is not None:
            self.lamport[own] += 1
            message = Message(ask, (self.lamport[own], own), list(self.known[own]))
            self.known[own][own] += 1
            self.copies[own].put(ask.register, ask.value, message.stamp)
            for other in set(range(COPIES)) - {own}:
                self.post(other, own, message)
        value = self.copies[own].values[ask.register]
        yield self.now + self.chance.hop() // 4
        return value

    def post(self, to: int, own: int, message: Message) -> None:
        def arrive() -> None:
            self.waiting[to][own].append(message)
            self.waiting[to][own].sort(key=lambda other: other.known[own])
            while any(self.take_first(to, place) for place in range(COPIES)):
                pass

        self.send(self.now + MS + self.chance.around(4 * MS), arrive)

    def take_first(self, to: int, own: int) -> bool:
        """Takes the first message of a copy if it is its turn."""
        if not self.waiting[to][own]:
            return False
        message, known = self.waiting[to][own][0], self.known[to]
        if message.known[own] != known[own] or any(had > has for had, has in zip(message.known, known)):
            return False
        del self.waiting[to][own][0]
        known[own] += 1
        self.lamport[to] = max(self.lamport[to], message.stamp[0])
        self.copies[to].put(message.ask.register, message.ask.value, message.stamp)
        return True


STORES: Dict[str, Type[Store]] = {
    "linear": Store, "sync": Sync, "quorum": Quorum, "leader-session": Session, "leader-split": Sticky,
    "leader-own": Own, "leader-sticky": Sticky, "leader-roam": Leader, "per-key": PerKey, "causal": Causal,
    "skew": Skew, "cache": Cache, "eventual": Eventual, "failover": Failover}


# ---- What clients do


class Simulation:
    """Clients that call a store, and what happens when."""

    def __init__(self, kind: str, seed: int) -> None:
        self.kind, self.chance = kind, Times(f"{kind} {seed}")
        self.ahead: List[Tuple[int, int, Callable[[], None]]] = []
        self.sent = 0
        self.lines: List[str] = []
        self.written = [0] * REGISTERS
        self.store = STORES[kind](self.chance, self.send)
        for client in range(CLIENTS):
            self.call_later(client, self.chance.around(MS))

    def send(self, when: int, act: Callable[[], None]) -> None:
        heapq.heappush(self.ahead, (max(when, self.store.now + 1) if self.sent else when, self.sent, act))
        self.sent += 1

    def call_later(self, client: int, when: int) -> None:
        self.send(when, lambda: self.call(client))

    def call(self, client: int) -> None:
        register = self.chance.below(REGISTERS)
        writes = self.chance.below(100) < WRITES
        if self.kind == "leader-split":
            writes = client * 100 < WRITES * CLIENTS
        value = None
        if writes:
            value = self.written[register] = self.written[register] + 1
        self.tell(client, event="call", op="write" if writes else "read", register=f"k{register}",
                  **({"value": value} if writes else {}))
        ask = Ask(client, register, value)
        self.send(self.store.now + 1, lambda: self.go_on(ask, self.store.serve(ask)))

    def go_on(self, ask: Ask, served: Served) -> None:
        try:
            self.send(next(served), lambda: self.go_on(ask, served))
        except StopIteration as done:
            self.tell(ask.client, event="reply", **({"value": done.value} if ask.value is None else {}))
            self.call_later(ask.client, self.store.now + 1 + self.chance.around(300 * US))

    def tell(self, client: int, **members: Any) -> None:
        told = {"process": client, **members, "time": self.store.now}
        self.lines.append(json.dumps(told, separators=(",", ":")) + "\n")

    def run(self, events: int) -> Iterator[str]:
        told = 0
        while told < events:
            self.store.now, _, act = heapq.heappop(self.ahead)
            act()
            for line in self.lines[:events - told]:
                yield line
                told += 1
            self.lines.clear()


def history(kind: str, events: int, seed: int) -> Iterator[str]:
    return Simulation(kind, seed).run(events)


def main() -> int:
    form = argparse.RawDescriptionHelpFormatter
    words = argparse.ArgumentParser(description=__doc__, formatter_class=form)
    words.add_argument("store", choices=STORES, metavar="STORE", help=", ".join(STORES))
    words.add_argument("--events", type=int, default=100_000, help="how many lines; default 100000")
    words.add_argument("--seed", type=int, default=1, help="default 1")
    asked = words.parse_args()
    sys.stdout.writelines(history(asked.store, asked.events, asked.seed))
    return 0


if __name__ == "__main__":
    sys.exit(main())
