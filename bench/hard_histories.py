#!/usr/bin/env python3
"""Histories that are hard for the search of regsearch, as docs/format.md describes them.

    bench/hard_histories.py led                          one register
    bench/hard_histories.py led --registers 16 --seed 7  16 registers, with other random choices

Each kind is a function below, and its first sentence says why it is hard. The words are those of
docs/proofs.md, section 5: a configuration is a value and the open calls that have not taken effect, as a set
of slots; a step is what the bound of a search counts, once for each word of 64 slots. The registers of a
history are of one kind, and each has its share of the events and bytes that an input may have. A history is
hard before its end, and then it need not be atomic. The same words give the same bytes."""
import argparse
import itertools
import sys
from typing import Callable, Dict, Iterator, List, NamedTuple, Tuple

from register_histories import Cell, Chance, Run

MOST_EVENTS = 1 << 20
MOST_BYTES = 1 << 26
WORD = 64  # slots of a word
WIDEST = 16_384  # the most slots of a register
RIVALS = 1_024  # the most calls that are looked at for one that goes first


class Register:
    """The lines of one register. Each call is by a process of its own, but for those of `wrote` and
    `changed`, beside which that process has no others."""

    def __init__(self, name: str, process: int) -> None:
        self.name = name
        self.alone = process
        self.process = process
        self.lines: List[str] = []

    def _called(self, process: int, op: str, values: str) -> int:
        start = f'{{"process":{process},"event":"call","op":"{op}","register":"{self.name}"'
        self.lines.append(f"{start}{values}}}\n")
        return process

    def _replied(self, process: int, answer: str) -> None:
        self.lines.append(f'{{"process":{process},"event":"reply"{answer}}}\n')

    def _new(self) -> int:
        self.process += 1
        return self.process

    def read(self) -> int:
        return self._called(self._new(), "read", "")

    def write(self, value: int) -> int:
        return self._called(self._new(), "write", f',"value":{value}')

    def cas(self, old: int, new: int) -> int:
        return self._called(self._new(), "cas", f',"from":{old},"to":{new}')

    def gave(self, process: int, value: int) -> None:
        self._replied(process, f',"value":{value}')

    def done(self, process: int) -> None:
        self._replied(process, "")

    def took_place(self, *processes: int) -> None:
        for process in processes:
            self._replied(process, ',"ok":true')

    def missed(self, process: int) -> None:
        self._replied(process, ',"ok":false')

    def wrote(self, value: int) -> None:
        """A write and its reply."""
        self.done(self._called(self.alone, "write", f',"value":{value}'))

    def changed(self, old: int, new: int) -> None:
        """A cas and its reply: it took place."""
        self.took_place(self._called(self.alone, "cas", f',"from":{old},"to":{new}'))


class Size:
    """How many events a register is to have at most."""

    def __init__(self, register: Register, events: int) -> None:
        self.register, self.events = register, events

    def turns(self, events: int, left_over: int = 0) -> range:
        """Turns of so many events each, so that some events are left over."""
        return range((self.events - len(self.register.lines) - left_over) // events)


# ---- calls that change alike


def copies(register: Register, size: Size, _chance: Chance) -> None:
    """Some 16,000 crashed cas that change alike are tried at each reply, and one of them goes first."""
    register.wrote(0)
    for _ in range(min(WIDEST - 2, size.events // 2)):
        register.cas(0, 1)
    for _ in size.turns(2):
        register.changed(1, 0)


def led(register: Register, size: Size, _chance: Chance) -> None:
    """Each of a thousand cas that change alike looks at half of the others until it finds one that goes
    first, since they reply in the reverse order of their calls; and no change is remembered, for which steps
    would be spent."""
    register.wrote(0)
    calls = [register.cas(0, 1) for _ in range(min(RIVALS - 2, size.events // 4))]
    for _ in size.turns(2, len(calls)):
        register.wrote(0)
    register.took_place(*reversed(calls))


def led_crashed(register: Register, size: Size, _chance: Chance) -> None:
    """As `led`, with crashed calls: the first one goes first, so they get their slots in reverse order."""
    register.wrote(0)
    for held in reversed([register.write(0) for _ in range(min(RIVALS - 4, size.events // 5))]):
        register.done(held)
        register.cas(0, 1)
    register.cas(1, 2)
    register.cas(4, 3)
    for _ in size.turns(2, 2):
        register.wrote(0)
    register.gave(register.read(), 3)


def led_apart(register: Register, size: Size, _chance: Chance) -> None:
    """As `led`, and the operations that are looked at lie 12,288 bytes apart, so that few of them fit in a
    cache."""
    register.wrote(0)
    calls = []
    for _ in range(RIVALS - 2):
        calls.append(register.cas(0, 1))
        for _ in range(min(511, size.events // 2 // RIVALS)):
            register.read()
    for _ in range(8):  # one more configuration each
        register.wrote(0)
    for _ in size.turns(4, len(calls)):
        register.changed(0, 2)
        register.wrote(0)
    register.took_place(*reversed(calls))


def unlike(register: Register, size: Size, _chance: Chance) -> None:
    """Each of a thousand cas from one value looks at all others, and none goes first."""
    register.wrote(0)
    calls = [register.cas(0, value) for value in range(1, min(RIVALS - 2, size.events // 4))]
    for _ in size.turns(4, len(calls)):
        register.changed(0, RIVALS)
        register.wrote(0)
    register.took_place(*calls)


# ---- many configurations


def asked_writes(register: Register, size: Size, _chance: Chance) -> None:
    """Each of many open writes leaves a value that a crashed cas asks for, so each is tried after each, and
    what comes of it is there already."""
    register.wrote(0)
    values = range(2, 2 + min(8_000, size.events // 6))
    writes = [register.write(value) for value in values]
    for value in values:
        register.cas(value, 1)
    for _ in size.turns(2, len(writes)):
        register.wrote(0)
    for write in writes:
        register.done(write)


def zero_replies(register: Register, size: Size, _chance: Chance) -> None:
    """Among thousands of configurations calls reply that took effect in each, so that no configuration
    changes, and all are copied."""
    register.wrote(0)
    forced, wide = 1_500, 2_500
    fan = [register.cas(forced, forced + place) for place in range(1, wide + 1)]
    for taken, _ in zip(range(1, wide), size.turns(2 * forced + 6, wide)):
        chain = [register.cas(value, value + 1) for value in range(forced)]
        register.gave(register.read(), forced)
        register.missed(register.cas(forced, 0))
        register.took_place(*chain)
        register.changed(forced + taken, 0)
    register.took_place(*fan)


def concurrent_cas(register: Register, size: Size, chance: Chance) -> None:
    """Of sixty cas at once, some of which took place, thousands of sets can have taken effect, and they are
    compared with one another."""
    concurrent(register, size, chance, Clients(60, 6, ["cas", "miss", "miss", "miss"]))


def concurrent_calls(register: Register, size: Size, chance: Chance) -> None:
    """Two thousand calls are open at once."""
    concurrent(register, size, chance, Clients(2_000, 5, ["read", "write", "cas", "miss"]))


class Clients(NamedTuple):
    at_once: int
    values: int
    ops: List[str]


class Timed(NamedTuple):
    """A call that takes effect at one value and leaves it or another."""

    begin: int
    end: int
    op: str
    value: int
    other: int

    def call(self, register: Register) -> int:
        if self.op == "read":
            return register.read()
        if self.op == "write":
            return register.write(self.other)
        values = self.value, self.other
        return register.cas(*(values if self.op == "cas" else reversed(values)))

    def reply(self, register: Register, process: int) -> None:
        if self.op == "read":
            register.gave(process, self.value)
        elif self.op == "write":
            register.done(process)
        elif self.op == "cas":
            register.took_place(process)
        else:
            register.missed(process)


def concurrent(register: Register, size: Size, chance: Chance, clients: Clients) -> None:
    """Calls take effect one after another. Each is open long before and after, so that as many are open at
    once as there are clients."""
    register.wrote(0)
    value, calls = 0, []
    for turn in size.turns(2):
        op, other = clients.ops[chance.below(len(clients.ops))], chance.below(clients.values - 1)
        begin, end = (1000 * turn + sign * chance.below(1000 * clients.at_once) for sign in (-1, 1))
        calls.append(Timed(begin, end, op, value, other + (other >= value)))
        value = calls[-1].other if op in ("write", "cas") else value
    begins = ((call.begin, number, True) for number, call in enumerate(calls))
    ends = ((call.end, number, False) for number, call in enumerate(calls))
    processes: Dict[int, int] = {}
    for _, number, is_call in sorted([*begins, *ends]):
        if is_call:
            processes[number] = calls[number].call(register)
        else:
            calls[number].reply(register, processes[number])


def subsets(register: Register, size: Size, _chance: Chance) -> None:
    """Any of thirteen cas took effect, one by one, so that each reply makes 61,440 configurations of thirteen
    values, and thousands of each value are compared."""
    register.wrote(0)
    calls = [register.cas(0, value) for value in range(1, 14)]
    for _ in size.turns(2, len(calls)):
        register.wrote(0)
    register.took_place(*calls)


def scanned_looks(register: Register, size: Size, _chance: Chance) -> None:
    """Reads take no slot, since they suit twenty thousand configurations, but each of these is looked at."""
    register.wrote(0)
    calls = [register.cas(0, value) for value in range(1, 51)]
    for _ in range(3):  # up to three of the cas took effect
        register.wrote(0)
    for _ in size.turns(2, len(calls)):
        register.gave(register.read(), 0)
    register.took_place(*calls)


def random_calls(register: Register, size: Size, chance: Chance) -> None:
    """Thirty clients of whose calls a thousand crash and some cas are lost, as in bench/search: no narrow
    stage finds an order, and the exact one is too wide."""
    events = min(size.events, 100_000) // 20 * 20
    run = Run(Cell(events, 30, "1/3", min(1_000, events // 10), "lost"), chance.below(1 << 30))
    for client in run.clients:
        client.process += register.process
    run.processes += register.process
    name = f'"register":"{register.name}"'
    register.lines += (line.replace('"register":"x"', name) for line in run.lines())
    register.process = run.processes


# ---- wide sets


NEVER = 9_000  # a value that the register hasn't before the end


class Wide:
    """Reads that wait for the end, so that sets have 256 words, and cas from 0 to each of many values."""

    def __init__(self, register: Register, size: Size) -> None:
        self.register = register
        self.reads = [register.read() for _ in range(min(8_200, size.events // 6))]
        self.fan = range(10, 10 + min(8_000, size.events // 6))
        self.calls: List[int] = []

    def fan_out(self) -> None:
        self.calls += [self.register.cas(0, value) for value in self.fan]

    def eightfold(self) -> List[int]:
        """Of seven cas that change alike none took effect, or one, or two, and so on."""
        alike = [self.register.cas(0, 1) for _ in range(7)]
        for _ in alike:
            self.register.wrote(0)
        return alike

    def events_of_end(self) -> int:
        return len(self.reads) + len(self.calls) + 2

    def end(self) -> None:
        self.register.wrote(NEVER)
        for read in self.reads:
            self.register.gave(read, NEVER)
        self.register.took_place(*self.calls)


def most_memory(register: Register, size: Size, _chance: Chance) -> None:
    """Three lists of 64,000 configurations with sets of 256 words, tables by value of 256 MB, as many changes
    to remember as the steps allow, and operations to keep until the end."""
    for _ in range(size.events - 320_000):
        register.read()
    for value in range(NEVER, NEVER + min(122_000, (size.events - 60_000) // 2)):
        register.wrote(value)
    register.wrote(0)
    wide = Wide(register, size)
    alike = wide.eightfold()
    wide.fan_out()
    widen_lists(register, wide.fan)
    register.took_place(*alike)
    for _ in size.turns(4, wide.events_of_end()):
        register.changed(0, 2)
        register.wrote(0)
    wide.end()


def widen_lists(register: Register, fan: range) -> None:
    """Before the reply of a read all cas are tried, and one of them helps. Each cas explains that another one
    missed; and two more that missed keep all configurations but a few."""
    helps = register.cas(0, 2)
    register.gave(register.read(), 2)
    register.took_place(helps)
    register.wrote(0)
    for value in (0, *fan[:2]):
        register.missed(register.cas(value, 3))
    register.changed(fan[2], 0)


def wide_replies(register: Register, size: Size, _chance: Chance) -> None:
    """Each reply copies 64,000 configurations of four kilobytes, to drop a few of them."""
    register.wrote(0)
    wide = Wide(register, size)
    wide.calls += wide.eightfold()
    wide.fan_out()
    register.missed(register.cas(0, 2))
    for value, _ in zip(wide.fan, size.turns(2, wide.events_of_end())):
        register.missed(register.cas(value, 2))
    wide.end()


def wide_fan(register: Register, size: Size, _chance: Chance) -> None:
    """At one reply a configuration becomes 8,000 of four kilobytes, and at the next one all but one of them
    are gone over in vain."""
    register.wrote(0)
    wide = Wide(register, size)
    wide.fan_out()
    for value, _ in zip(wide.fan, size.turns(4, wide.events_of_end())):
        register.missed(register.cas(0, 2))
        register.changed(value, 0)
    wide.end()


def beam(register: Register, size: Size, narrow: bool) -> None:
    """As `wide_fan`, and a crashed cas calls for stages, in which beams are chosen."""
    register.wrote(0)
    register.cas(NEVER, NEVER + 1)
    wide = Wide(register, size)
    if narrow:
        wide.reads += [register.read() for _ in range(min(7_500, size.events // 6))]
        wide.fan = wide.fan[:600]
    wide.fan_out()
    values = itertools.count(wide.fan[-1] + 1)
    for _, at in zip(size.turns(6, wide.events_of_end()), itertools.count()):
        register.missed(register.cas(0, 2))
        register.changed(wide.fan[0] + at, 0)
        register.took_place(wide.calls[at])
        wide.calls.append(register.cas(0, next(values)))
    wide.calls = wide.calls[-len(wide.fan):]
    wide.end()


def owing(register: Register, size: Size, _chance: Chance) -> None:
    """Each reply leaves six hundred configurations of different values, of which a beam is chosen by what
    each of them owes: more than sixteen thousand calls."""
    beam(register, size, True)


def beam_among_wide(register: Register, size: Size, _chance: Chance) -> None:
    """A beam is chosen among eight thousand configurations of 256 words, again and again."""
    beam(register, size, False)


def late_knot(register: Register, size: Size, _chance: Chance) -> None:
    """A single configuration of 256 words is copied at each of half a million writes, for which few steps are
    spent, and each stage goes over them again, since only the last reply has no explanation; and thousands of
    reads last as long, as in `long_reads`."""
    register.wrote(0)
    reads = [register.read() for _ in range(min(16_000, size.events // 4))]
    fan = range(1, min(4_130, size.events // 4))
    values = itertools.cycle(range(10_000, 10_000 + 120_000))
    for _ in size.turns(2, len(reads) + len(fan) + 12):
        register.wrote(next(values))
    register.wrote(NEVER)
    for read in reads:
        register.gave(read, NEVER)
    register.wrote(0)
    for value in fan:
        register.cas(0, value)
    register.cas(NEVER, NEVER + 1)
    miss = register.cas(0, 1)
    register.gave(register.read(), NEVER + 1)
    register.missed(miss)


def long_reads(register: Register, size: Size, _chance: Chance) -> None:
    """Thousands of reads last from the first write to the last, whose value they give, so that the place of
    each in the order is looked for among all changes."""
    register.wrote(0)
    reads = [register.read() for _ in range(min(WIDEST - 2, size.events // 4))]
    for turn in size.turns(2, len(reads) + 2):
        register.wrote(turn % 2)
    register.wrote(2)
    for read in reads:
        register.gave(read, 2)


def long_misses(register: Register, size: Size, _chance: Chance) -> None:
    """As `long_reads`, with cas that miss: the value of all changes but the last is theirs. Reads, misses and
    writes of other values lie among them, whose places are found at once."""
    register.wrote(0)
    calls = [register.cas(0, 1) for _ in range(min(WIDEST - 2, size.events // 4))]
    for _ in size.turns(2, len(calls) + 2):
        register.wrote(0)
    register.wrote(2)
    for call in calls:
        register.missed(call)


def long_reads_and_asked_writes(register: Register, size: Size, _chance: Chance) -> None:
    """Nearly all steps are spent as in `asked_writes`, while long reads make sets wide, and then there is an
    order, in which the place of each read is looked for as in `long_reads`."""
    register.wrote(0)
    reads = [register.read() for _ in range(min(16_000, size.events // 4))]
    for turn in size.turns(2, len(reads) + 4_000):
        register.wrote(turn % 2)
    writes = [register.write(value) for value in range(100, 220)]
    for value in range(100, 220):
        register.cas(value, 2)
    for _ in range(1_200):
        register.wrote(0)
    for write in writes:
        register.done(write)
    register.wrote(NEVER)
    for read in reads:
        register.gave(read, NEVER)


def zones(register: Register, size: Size, _chance: Chance) -> None:
    """No value repeats, and too many calls are open for a search, so that zones decide; and as the fault that
    they find isn't the first one, they go over nearly all events again and again."""
    values = itertools.count()
    first = next(values)
    register.wrote(first)
    writes = [register.write(next(values)) for _ in range(min(WIDEST + WORD, size.events // 8))]
    for _ in size.turns(4, len(writes) + 20):
        value = next(values)
        register.wrote(value)
        register.gave(register.read(), value)
    stale = next(values)
    register.wrote(stale)
    register.wrote(next(values))
    register.gave(register.read(), stale)
    register.gave(register.read(), first)
    for write in writes:
        register.done(write)


# ---- one order at a time


def remembered(register: Register, size: Size, _chance: Chance) -> None:
    """After many events millions of sets of crashed writes may be remembered that were tried in vain, and
    each step of the search depth first looks among them."""
    crashed = max(13, size.events.bit_length() - 2)
    for turn in size.turns(2, crashed + 5):
        register.wrote(turn)
    register.wrote(0)
    for value in range(1, crashed + 1):
        register.write(value)
    register.cas(102, 101)
    register.gave(register.read(), 101)


def small(register: Register, size: Size, chance: Chance) -> None:
    """As `remembered`, with so few events that there can be 50,000 registers."""
    remembered(register, size, chance)


def alone(register: Register, _size: Size, _chance: Chance) -> None:
    """There may be a million registers with a call each, and what is done for a register costs more than
    that."""
    register.read()


def quiet_runs(register: Register, size: Size, _chance: Chance) -> None:
    """Thousands of times 32 cas are open at once, and 32 writes let any of them take effect; then all is
    quiet. So each run is as hard as `subsets`, and none helps another."""
    for _ in size.turns(4 * 32):
        calls = [register.cas(0, value) for value in range(1, 33)]
        for _ in calls:
            register.wrote(0)
        register.took_place(*calls)


# ---- lines


def long_names(register: Register, size: Size, _chance: Chance) -> None:
    """The names of registers have 255 bytes, and differ in the last ones alone."""
    register.name = register.name.rjust(255, "n")
    for turn in size.turns(2):
        register.wrote(turn)


def deep_lines(register: Register, size: Size, _chance: Chance) -> None:
    """Each line has lists in lists, a hundred deep, and a long name in which each byte is written as
    six."""
    register.name = "".join(f"\\u{ord(letter):04x}" for letter in register.name.rjust(255, "n"))
    for turn in size.turns(2):
        register.wrote(turn % 2)
    deep = ',"z":[' + ",".join(["[" * 100 + "]" * 100] * 200) + "]}\n"
    register.lines = [line.replace("}\n", deep) for line in register.lines]


# ---- whole histories


class Kind(NamedTuple):
    write: Callable[[Register, Size, Chance], None]
    events: int = MOST_EVENTS  # of a register, at most


KINDS: Dict[str, Kind] = {
    "copies": Kind(copies, 30_000),
    "led": Kind(led, 6_000),
    "led-crashed": Kind(led_crashed),
    "led-apart": Kind(led_apart),
    "unlike": Kind(unlike, 150_000),
    "asked-writes": Kind(asked_writes, 48_000),
    "zero-replies": Kind(zero_replies, 200_000),
    "60-cas": Kind(concurrent_cas, 100_000),
    "2000-calls": Kind(concurrent_calls, 100_000),
    "subsets": Kind(subsets, 150),
    "scanned-looks": Kind(scanned_looks, 600_000),
    "random-calls": Kind(random_calls, 100_000),
    "most-memory": Kind(most_memory),
    "wide-replies": Kind(wide_replies, 40_000),
    "wide-fan": Kind(wide_fan, 60_000),
    "owing": Kind(owing),
    "beam-among-wide": Kind(beam_among_wide),
    "late-knot": Kind(late_knot),
    "long-reads": Kind(long_reads),
    "long-misses": Kind(long_misses),
    "long-reads-asked": Kind(long_reads_and_asked_writes),
    "zones": Kind(zones),
    "remembered": Kind(remembered),
    "small": Kind(small, 18),
    "alone": Kind(alone, 1),
    "quiet-runs": Kind(quiet_runs),
    "long-names": Kind(long_names, 2),
    "deep-lines": Kind(deep_lines, 1_600),
}


def lines(name: str, number: int, process: int, events: int, seed: int) -> List[str]:
    """Those of one register of a history."""
    register = Register(str(number), process)
    KINDS[name].write(register, Size(register, events), Chance(f"{seed} {number} {name}"))
    return register.lines


def events_of_each(name: str, registers: int, seed: int) -> int:
    """As many events as a kind takes, or as fit in an input; ValueError if it takes more."""
    events = min(KINDS[name].events, MOST_EVENTS // registers)
    longest = lines(name, registers, MOST_EVENTS - events, events, seed)
    if registers * len(longest) > MOST_EVENTS:
        raise ValueError(f"{registers} registers of the kind {name} have more than {MOST_EVENTS} events")
    taken = registers * sum(map(len, longest))
    return events if taken <= MOST_BYTES else events * MOST_BYTES // taken


def history(name: str, registers: int, seed: int) -> Iterator[str]:
    """The lines of a history of so many registers."""
    events = events_of_each(name, registers, seed)
    process = 0
    for number in range(1, registers + 1):
        written = lines(name, number, process, events, seed)
        process += len(written)
        yield from written


def main() -> int:
    form = argparse.RawDescriptionHelpFormatter
    words = argparse.ArgumentParser(description=__doc__, formatter_class=form)
    words.add_argument("kind", choices=list(KINDS), metavar="KIND", help=", ".join(KINDS))
    words.add_argument("--registers", type=int, default=1, help="default 1")
    words.add_argument("--seed", type=int, default=1, help="default 1")
    asked = words.parse_args()
    if asked.registers < 1:
        words.error("--registers has to be 1 or more")
    try:
        sys.stdout.writelines(history(asked.kind, asked.registers, asked.seed))
    except ValueError as error:
        words.error(str(error))
    return 0


if __name__ == "__main__":
    sys.exit(main())
