#!/usr/bin/env python3
"""Histories of registers with repeated values, cas and crashed calls, as docs/format.md describes them.

    bench/register_histories.py                                        10,000 events of 10 processes
    bench/register_histories.py --events 100000 --cas 1/3 --crashed 100 --kind stale --seed 7
    bench/register_histories.py --keys 5 --values 100 --processes 60 --shape bursts --kind split
    bench/register_histories.py --mix kv --crashed 100
    bench/register_histories.py --mix append --crashed 100

A store is simulated whose clients call at random. A call takes effect at a random moment before its reply.
The calls are reads and writes, as many of each, or with `--cas 1/3` reads, writes and cas. With
`--mix create` they are reads, deletes and puts if absent, and with `--mix kv` all that a key-value store does
to one key. With `--mix append`, `versions` and `incr` they are reads and appends, puts by version or
increments with results, as a conversion has them. By default they are of one register and write five values.

Crashed calls are changes, spread evenly over the history. Nobody answers them, and their clients go
on under new numbers. A third of them takes effect at once, a third some time later, and a third never.

| Kind | What is wrong with it |
|---|---|
| `right` | nothing |
| `stale` | in the second half, one client's reads come from a copy that stays behind |
| `lost` | in the second half, one cas of four looks at a value of some time ago (only with cas or a mix) |
| `unwritten` | in the second half, one read gives a value that nobody writes |
| `early` | in the second half, one read gives a value that is first written at the end |
| `dropped` | in the second half, one write of fifty is answered and not made |
| `twice` | in the second half, one write of fifty is made a second time, some time later |
| `aborted` | in the second half, one write or cas of fifty is made, and its client is told that it failed |
| `split` | for a tenth of the calls, half of the clients have a copy of their own, which is then given up |

| Shape | When clients call |
|---|---|
| `even` | at any time |
| `bursts` | all of them call before any is answered, and all are answered before any calls again |
| `long` | at any time, and one call is open for a third of the run |

A faulty history may be atomic in spite of its faults, above all with crashed calls, which may explain them;
those of the kinds `unwritten` and `early` never are. The same words give the same bytes, in each version of
Python."""
import argparse
import collections
import random
import sys
from typing import Deque, Dict, Iterator, List, NamedTuple, Optional, Type

import converted
from mixes import CONVERTED, MIXES, NULL_ASKED, OPERATIONS, Value

VALUES = 5
EVENTS_OF_EARLY = 2  # the write of that value at the end, for the kind early
SHAPES = ["even", "bursts", "long"]
CAS_SHARES = {"0": ["read", "write"], "1/3": ["read", "write", "cas"]}
# Turns of clients, on average, until one of the crashed calls that are to take effect later does.
TURNS_UNTIL_LATE = 40
# How far behind a wrong answer is, in operations of each client.
STALE_BY = 8
LOST_BY = 3
LOST_CAS = 4  # one cas of these looks at an old value
RARE = 50  # one call of these meets with a fault of another kind
# How many turns of its client a long call waits on average until it takes effect.
TURNS_OF_LONG = 50


class Cell(NamedTuple):
    """What a history is to be like."""

    events: int
    processes: int
    cas: str  # the share of calls that are cas, a key of CAS_SHARES
    crashed: int
    kind: str  # a key of STORES
    keys: int = 1
    values: int = VALUES  # those from this one on are nobody's
    shape: str = "even"  # of SHAPES
    mix: str = ""  # in place of the share of cas, a key of MIXES

    def is_plain(self) -> bool:
        return self[5:] == (1, VALUES, "even", "")

    def seeds(self) -> str:
        """What random numbers depend on beside the seed."""
        return " ".join(map(str, self[:5] if self.is_plain() else self if self.mix else self[:-1]))

    def ops(self) -> List[str]:
        """The operations of the calls, each as often as it is called."""
        return MIXES[self.mix] if self.mix else CAS_SHARES[self.cas]


class Chance:
    """Random numbers by a seed. `random.random` alone is the same in each version of Python."""

    def __init__(self, seed: str) -> None:
        self._random = random.Random(seed).random

    def below(self, bound: int) -> int:
        return int(self._random() * bound)

    def one_in(self, count: int) -> bool:
        return self.below(count) == 0


class Call:
    """A call, and what it found when it took effect."""

    def __init__(self, client: int, op: str, expected: Value, new: Value) -> None:
        self.client, self.op = client, op
        self.operation = OPERATIONS[op]
        self.expected = expected  # what a cas compares with
        self.new = None if self.operation.clears else new  # what a change writes
        self.key = 0
        self.crashes = False
        self.until = 0  # a long call isn't answered before so many calls
        self.is_done = False
        self.is_aborted = False
        self.found: Value = None

    def takes_place(self) -> bool:
        return self.operation.takes_place(self.found, self.expected)

    def left(self) -> Value:
        """What it leaves, if it takes place."""
        return self.operation.left(self.found, self.new)


class Store:
    """A register that makes no mistake."""

    def __init__(self, cell: Cell, chance: Chance) -> None:
        self.cell, self.chance = cell, chance
        self.value: Value = None
        self.is_second_half = False
        self.is_split = False

    def seen_by(self, _call: Call) -> Value:
        return self.value

    def is_rare(self, call: Call) -> bool:
        """Whether a fault is due in a write, or in a change of a mix that took place."""
        may_be = call.takes_place() if self.cell.mix else call.op == "write"
        return may_be and self.chance.one_in(RARE)

    def take_effect(self, call: Call) -> None:
        call.is_done = True
        call.found = self.seen_by(call)
        if call.takes_place():
            self.value = call.left()


class RememberingStore(Store):
    """A register that also knows the values after the last operations of each client."""

    operations = 0

    def __init__(self, cell: Cell, chance: Chance) -> None:
        super().__init__(cell, chance)
        self.past: Deque[Value] = collections.deque([None], self.operations * cell.processes + 1)

    def take_effect(self, call: Call) -> None:
        super().take_effect(call)
        self.past.append(self.value)


class StaleStore(RememberingStore):
    operations = STALE_BY

    def seen_by(self, call: Call) -> Value:
        is_stale = self.is_second_half and call.op == "read" and call.client == 0
        return self.past[0] if is_stale else self.value


class LostStore(RememberingStore):
    operations = LOST_BY

    def seen_by(self, call: Call) -> Value:
        is_stale = self.is_second_half and call.operation.looks and self.chance.one_in(LOST_CAS)
        return self.past[0] if is_stale else self.value


class InventingStore(Store):
    """A register that once gives a value which nobody has written."""

    has_invented = False

    def seen_by(self, call: Call) -> Value:
        if self.has_invented or not self.is_second_half or call.op != "read":
            return self.value
        self.has_invented = True
        return self.cell.values


class DroppingStore(Store):
    """A register that doesn't make some writes."""

    def take_effect(self, call: Call) -> None:
        before = self.value
        super().take_effect(call)
        if self.is_second_half and self.is_rare(call):
            self.value = before


class RepeatingStore(Store):
    """A register that makes some writes once more, some time later."""

    def __init__(self, cell: Cell, chance: Chance) -> None:
        super().__init__(cell, chance)
        self.again: List[Value] = []

    def take_effect(self, call: Call) -> None:
        if self.again and self.chance.one_in(TURNS_UNTIL_LATE):
            self.value = self.again.pop()
        super().take_effect(call)
        if self.is_second_half and self.is_rare(call):
            self.again.append(call.new)


class AbortingStore(Store):
    """A register that makes some changes and says that it didn't."""

    def take_effect(self, call: Call) -> None:
        super().take_effect(call)
        call.is_aborted = self.is_second_half and call.op != "read" and self.chance.one_in(RARE)


class SplitStore(Store):
    """A register of which every other client has a copy of its own for a time."""

    copy: Value = None

    def take_effect(self, call: Call) -> None:
        if not self.is_split:
            self.copy = self.value
        has_copy = self.is_split and call.client % 2
        if has_copy:
            self.value, self.copy = self.copy, self.value
        super().take_effect(call)
        if has_copy:
            self.value, self.copy = self.copy, self.value


STORES: Dict[str, Type[Store]] = {
    "right": Store,
    "stale": StaleStore,
    "lost": LostStore,
    "unwritten": InventingStore,
    "early": InventingStore,
    "dropped": DroppingStore,
    "twice": RepeatingStore,
    "aborted": AbortingStore,
    "split": SplitStore,
}


class Client:
    def __init__(self, process: int) -> None:
        self.process = process
        self.call: Optional[Call] = None

    def called(self, call: Call) -> str:
        self.call = call
        name = f"x{call.key}" if call.key else "x"
        word, asked = call.operation.word, call.operation.asked(call.expected, call.new)
        return f'{{"process":{self.process},"event":"call","op":"{word}","register":"{name}"{asked}}}\n'

    def answered(self, call: Call) -> str:
        self.call = None
        if call.is_aborted:
            return f'{{"process":{self.process},"event":"fail"}}\n'
        told = call.operation.told(call.found, call.takes_place())
        return f'{{"process":{self.process},"event":"reply"{told}}}\n'

    def left(self, next_process: int) -> None:
        """Goes on under a new number."""
        self.call = None
        self.process = next_process


class Run:
    """Clients that call stores until there are as many events as were asked for."""

    def __init__(self, cell: Cell, seed: int) -> None:
        self.cell = cell
        self.chance = Chance(f"{seed} {cell.seeds()}")
        self.stores = [STORES[cell.kind](cell, self.chance) for _ in range(cell.keys)]
        self.clients = [Client(number) for number in range(cell.processes)]
        self.processes = cell.processes
        # Each call is an event, and each that doesn't crash has a reply.
        events = cell.events - (EVENTS_OF_EARLY if cell.kind == "early" else 0)
        self.calls = (events + cell.crashed) // 2
        self.called = 0
        self.open = 0
        self.late: List[Call] = []  # crashed calls that take effect some time later
        self.is_calling = True  # and not answering, in bursts
        self.has_long = cell.shape != "long"

    def lines(self) -> Iterator[str]:
        while self.called < self.calls or self.open:
            if self.late and self.chance.one_in(TURNS_UNTIL_LATE):
                self.take_effect(self.late.pop(self.chance.below(len(self.late))))
            number = self.chance.below(len(self.clients))
            if not self.rests(self.clients[number]):
                yield from self.turn(number)
        if self.cell.kind == "early":
            last = Call(0, "write", 0, self.cell.values)
            yield self.clients[0].called(last)
            yield self.clients[0].answered(last)

    def take_effect(self, call: Call) -> None:
        self.stores[call.key].take_effect(call)

    def rests(self, client: Client) -> bool:
        """Whether a client waits for the others, in bursts."""
        if self.open == len(self.clients) or self.called == self.calls:
            self.is_calling = False
        elif self.open == 0:
            self.is_calling = True
        return self.cell.shape == "bursts" and (client.call is None) != self.is_calling

    def turn(self, number: int) -> Iterator[str]:
        client = self.clients[number]
        call = client.call
        if call is None:
            if self.called < self.calls:
                self.open += 1
                yield client.called(self.next_call(number))
        elif call.crashes:
            self.open -= 1
            self.crash(call)
            client.left(self.processes)
            self.processes += 1
        elif self.is_answered(call):
            self.open -= 1
            yield client.answered(call)

    def next_call(self, client: int) -> Call:
        crashed, values = self.cell.crashed, self.cell.values
        crashes = (self.called + 1) * crashed // self.calls > self.called * crashed // self.calls
        self.called += 1
        for store in self.stores:
            store.is_second_half = 2 * self.called > self.calls
            store.is_split = 5 * self.calls < 10 * self.called < 6 * self.calls
        ops = self.cell.ops()
        changes = [op for op in ops if op != "read"]
        offered = changes if crashes else ops
        op = offered[self.chance.below(len(offered))]
        call = Call(client, op, self.expected(values), self.chance.below(values))
        call.crashes = crashes
        if self.cell.keys > 1:
            call.key = self.chance.below(self.cell.keys)
        if not self.has_long and not crashes and 3 * self.called > self.calls:
            self.has_long, call.until = True, 2 * self.calls // 3
        return call

    def expected(self, values: int) -> Value:
        """What a cas asks for."""
        return None if self.cell.mix and self.chance.one_in(NULL_ASKED) else self.chance.below(values)

    def crash(self, call: Call) -> None:
        effect = self.chance.below(3)
        if effect == 0:
            self.take_effect(call)
        elif effect == 1:
            self.late.append(call)

    def is_answered(self, call: Call) -> bool:
        """Whether the client gets its answer in this turn. Half of the calls take effect a turn earlier."""
        if self.called < call.until:
            if not call.is_done and self.chance.one_in(TURNS_OF_LONG):
                self.take_effect(call)
            return False
        if call.is_done:
            return True
        self.take_effect(call)
        return self.chance.one_in(2)


class NotingClient(Client):
    """Notes what is said in place of a line, and knows the value that it saw last."""

    def __init__(self, process: int, said: List[converted.Said]) -> None:
        super().__init__(process)
        self.said = said
        self.seen: Value = None

    def called(self, call: Call) -> str:
        self.call = call
        self.said.append(converted.Said(self.process, call, True))
        return ""

    def answered(self, call: Call) -> str:
        self.call = None
        self.said.append(converted.Said(self.process, call, False))
        self.seen = call.left() if call.takes_place() else call.found
        return ""


class ConvertedRun(Run):
    """The same with the operations of a mix that is converted."""

    def __init__(self, cell: Cell, seed: int) -> None:
        super().__init__(cell, seed)
        self.said: List[converted.Said] = []
        self.noting = [NotingClient(number, self.said) for number in range(cell.processes)]
        self.clients = [*self.noting]

    def next_call(self, client: int) -> Call:
        call = super().next_call(client)
        call.expected, call.new = self.noting[client].seen, self.called
        return call

    def lines(self) -> Iterator[str]:
        for _ in super().lines():
            pass
        yield from converted.lines(self.cell.mix, self.said)


def complaint(cell: Cell) -> Optional[str]:
    """Why there is no such history."""
    if cell.mix in CONVERTED and (cell.kind not in ("right", "stale", "lost") or cell.keys > 1):
        return f"a history of {cell.mix} is of one key, and right, stale or lost"
    if cell.mix == "incr" and cell.crashed:
        return "a conversion refuses increments of unknown outcome"
    least = EVENTS_OF_EARLY if cell.kind == "early" else 0
    if cell.kind == "lost" and cell.cas == "0" and not cell.mix:
        return "a history of the kind lost needs --cas 1/3 or a mix"
    if min(cell.keys, cell.values) < 1:
        return "a history has a key and a value at least"
    if cell.processes < 1 or cell.crashed < 0 or cell.events < least + cell.crashed:
        size = f"{cell.events} events, {cell.processes} processes and {cell.crashed} crashed calls"
        return f"no history of the kind {cell.kind} has {size}"
    if (cell.events + cell.crashed) % 2:
        return "the events and the crashed calls have to be an even number together"
    return None


def history(cell: Cell, seed: int) -> Iterator[str]:
    """The lines of a history; ValueError if there is no such history."""
    why = complaint(cell)
    if why:
        raise ValueError(why)
    return (ConvertedRun if cell.mix in CONVERTED else Run)(cell, seed).lines()


def main() -> int:
    form = argparse.RawDescriptionHelpFormatter
    words = argparse.ArgumentParser(description=__doc__, formatter_class=form)
    words.add_argument("--events", type=int, default=10000, help="how many lines; default 10000")
    words.add_argument("--processes", type=int, default=10, help="clients at one time; default 10")
    words.add_argument("--cas", choices=list(CAS_SHARES), default="0", help="the share of cas; default 0")
    words.add_argument("--crashed", type=int, default=0, help="calls that nobody answers; default 0")
    words.add_argument("--kind", choices=list(STORES), default="right", help="see above; default right")
    words.add_argument("--keys", type=int, default=1, help="registers; default 1")
    words.add_argument("--values", type=int, default=VALUES, help=f"that calls write; default {VALUES}")
    words.add_argument("--shape", choices=SHAPES, default="even", help="see above; default even")
    words.add_argument("--mix", choices=list(MIXES), default="", help="see above; default reads and writes")
    words.add_argument("--seed", type=int, default=1, help="default 1")
    asked = words.parse_args()
    cell = Cell(asked.events, asked.processes, asked.cas, asked.crashed, asked.kind,
                asked.keys, asked.values, asked.shape, asked.mix)
    try:
        sys.stdout.writelines(history(cell, asked.seed))
    except ValueError as error:
        words.error(str(error))
    return 0


if __name__ == "__main__":
    sys.exit(main())
