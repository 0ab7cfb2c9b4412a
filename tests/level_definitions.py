"""What the levels mean, the old reads, lost writes and the gap of a register, by their definitions alone:
orders are found by trying all, and all else by looking at every pair.

The operations are those of tests/reference.py: a register's `writes` begin with the initial one, its `reads`
are completed, and times count events. A level of a register is what a legal order has to keep: which of two
operations must come before the other. `causal` is of all registers together.
"""
from typing import Callable, Dict, FrozenSet, List, NamedTuple, Optional, Sequence, Set, Tuple

from reference import Operation, Register, precedes

Value = Optional[int]
Must = Callable[[Operation, Operation], bool]  # whether the first must come before the second


def is_write(a: Operation) -> bool:
    return a.op == "write"


def comes_first(a: Operation, b: Operation) -> bool:
    """Whether a is called before b in a session. The initial write comes before all that somebody called."""
    if a.process is None:
        return b.process is not None
    return a.process == b.process and a.call < b.call


def must_in_session(a: Operation, b: Operation) -> bool:
    return precedes(a, b) and (is_write(b) or comes_first(a, b))


def must_for_own_writes(a: Operation, b: Operation) -> bool:
    return precedes(a, b) and (is_write(b) or (comes_first(a, b) and is_write(a)))


def must_for_monotonic(a: Operation, b: Operation) -> bool:
    return precedes(a, b) and (is_write(b) or (comes_first(a, b) and not is_write(a)))


def must_in_sequence(a: Operation, b: Operation) -> bool:
    return precedes(a, b) and comes_first(a, b)


def must_within(age: int) -> Must:
    """That of reads which may be less than so many events old."""
    return lambda a, b: precedes(a, b) and (is_write(b) or a.reply + age <= b.call)


# The levels that an order keeps, from the strongest on. `regular` is none of them.
MUST: Dict[str, Must] = {"atomic": precedes, "session": must_in_session, "own_writes": must_for_own_writes,
                         "monotonic": must_for_monotonic, "sequential": must_in_sequence}


# ---- legal orders


def legal_order(register: Register, must: Must) -> Optional[List[Operation]]:
    """An order of all that is completed and of some pending writes, in which nothing stands after what it
    must come before, and each read gives the value of the nearest write before it. A pending read is left
    out: without it an order stays legal. What is pending precedes nothing, so nothing waits for it."""
    operations = [*register.writes, *register.reads]
    needed = sum(1 << at for at, a in enumerate(operations) if not a.pending)
    before = [sum(1 << at for at, b in enumerate(operations) if must(b, a)) for a in operations]
    tried: Set[Tuple[int, Optional[Operation]]] = set()

    def rest(done: int, latest: Optional[Operation]) -> Optional[List[Operation]]:
        """What may follow the operations that are done, of which this is the latest write."""
        if needed & ~done == 0:
            return []
        tried.add((done, latest))
        for at, a in enumerate(operations):
            if done >> at & 1 or before[at] & ~done:
                continue
            if not is_write(a) and (latest is None or latest.value != a.value):
                continue
            now = (done | 1 << at, a if is_write(a) else latest)
            found = None if now in tried else rest(*now)
            if found is not None:
                return [a, *found]
        return None

    return rest(0, None)


def has_order(register: Register, must: Must) -> bool:
    return legal_order(register, must) is not None


def why_not_legal(register: Register, must: Must, order: Sequence[Operation]) -> Optional[str]:
    """None if this is a legal order as above. Pending reads may stand in it, and mean nothing."""
    if len(set(order)) != len(order):
        return "an operation stands in it twice"
    missing = [a.line for a in register.all if not a.pending and a not in order]
    if missing:
        return f"lines {missing} aren't in it"
    for at, a in enumerate(order):
        for b in order[:at]:
            if must(a, b):
                return f"line {b.line} stands before line {a.line}, which must come before it"
        writes = [b for b in order[:at] if is_write(b)]
        if a in register.reads and (not writes or writes[-1].value != a.value):
            return f"line {a.line} doesn't give the nearest write's value"
    return None


# ---- clusters


def cluster(register: Register, value: Value) -> List[Operation]:
    """The write of a value, if there is one, and all completed reads of it."""
    return [a for a in register.all if a.value == value and (is_write(a) or not a.pending)]


def first_to_reply(register: Register, value: Value) -> Operation:
    return min(cluster(register, value), key=lambda a: a.reply)


def kept_writes(register: Register) -> List[Operation]:
    """The writes that are completed, or whose values are read."""
    return [w for w in register.writes if not w.pending or any(r.value == w.value for r in register.reads)]


# ---- reads that no order explains


def unwritten(register: Register) -> List[Operation]:
    return [r for r in register.reads if register.write_of(r.value) is None]


def early(register: Register, must: Must = precedes) -> List[Tuple[Operation, Operation]]:
    """Reads that must come before the writes of their values, with these writes."""
    return [(r, w) for r in register.reads for w in register.writes if r.value == w.value and must(r, w)]


# ---- old reads


class OldAfter(NamedTuple):
    """What shows that a read is old."""

    earlier: Operation  # it comes earlier, and had the value of
    newer: Operation  # this write, which is newer than the value that the read gave


class Kind(NamedTuple):
    """A kind of old reads."""

    comes_earlier: Must
    by_a_read: bool  # whether what comes earlier read the newer value, or wrote it
    rank: Callable[[OldAfter], int]  # of what shows that a read is old, the report has one of the least rank


def first_to_end(shown: OldAfter) -> int:
    return shown.earlier.reply


def newest(shown: OldAfter) -> int:
    return -shown.newer.call


KINDS = {"stale": Kind(precedes, False, first_to_end), "own": Kind(comes_first, False, newest),
         "back": Kind(comes_first, True, newest), "inverted": Kind(precedes, True, first_to_end)}


def is_older(register: Register, value: Value, w: Operation) -> bool:
    """Whether some operation of the value's cluster precedes w."""
    return any(precedes(a, w) for a in cluster(register, value))


def shown_old(register: Register, kind: Kind, read: Operation) -> List[OldAfter]:
    """All that shows the read to be old."""
    return [OldAfter(e, w) for e in (register.reads if kind.by_a_read else register.writes)
            for w in register.writes
            if e.value == w.value and kind.comes_earlier(e, read) and is_older(register, read.value, w)]


def old_reads(register: Register, kind: Kind) -> Dict[Operation, List[OldAfter]]:
    """The old reads of a kind by their calls, each with what shows that, in the order of rank."""
    shown = {read: sorted(shown_old(register, kind, read), key=kind.rank) for read in register.reads}
    return {read: shown[read] for read in sorted(shown, key=lambda read: read.call) if shown[read]}


# ---- lost writes, and the gap


def is_lost(register: Register, w: Operation) -> bool:
    """Completed, and then read past: there are later reads, and all of them gave older values."""
    later = [r for r in register.reads if precedes(w, r)]
    return not w.pending and later != [] and all(is_older(register, r.value, w) for r in later)


def lost_writes(register: Register) -> List[Operation]:
    return sorted((w for w in register.writes if is_lost(register, w)), key=lambda w: w.call)


def gap(register: Register) -> Optional[int]:
    """None if the register, which is clean, is atomic. Else the greatest age such that reads which are less
    than so many events old don't explain it."""
    if has_order(register, precedes):
        return None
    age = 1
    while not has_order(register, must_within(age + 1)):
        age += 1
    return age


# ---- cycles


def links(register: Register, must: Must, v: Operation, w: Operation) -> List[Tuple[Operation, Operation]]:
    """What of v's cluster must come before what of w's, which is another."""
    if v == w:
        return []
    return [(a, b) for a in cluster(register, v.value) for b in cluster(register, w.value) if must(a, b)]


# ---- causal, of all operations: those of each register with its initial write


def is_source(w: Operation, r: Operation) -> bool:
    """Whether a completed read gives the value that the write wrote to its register."""
    is_read = not is_write(r) and not r.pending
    return is_write(w) and is_read and (w.register, w.value) == (r.register, r.value)


def learns(a: Operation, b: Operation) -> bool:
    """Whether b learns of a at once: a comes first in its session, or b gives the value that a wrote."""
    return comes_first(a, b) or is_source(a, b)


class Known:
    """The operations of a history, and which know of which: of all that they learn of at once, and of what
    that knows."""

    def __init__(self, operations: Sequence[Operation]) -> None:
        self.operations = list(operations)
        self.known_by = {b: frozenset(a for a in operations if learns(a, b)) for b in operations}
        while True:
            more = {b: known.union(*(self.known_by[a] for a in known)) for b, known in self.known_by.items()}
            if more == self.known_by:
                break
            self.known_by = more
        self.reads = [r for r in operations if not is_write(r) and not r.pending]
        self.writes = [w for w in operations if is_write(w)]
        self.kept = [w for w in self.writes if not w.pending or any(is_source(w, r) for r in self.reads)]

    def writes_known_by(self, r: Operation) -> FrozenSet[Operation]:
        """The writes of the register of r that r knows of."""
        return frozenset(w for w in self.known_by[r] if is_write(w) and w.register == r.register)

    def unwritten(self) -> List[Operation]:
        return [r for r in self.reads if not any(is_source(w, r) for w in self.writes)]


def causal_order(known: Known) -> Optional[List[Operation]]:
    """The kept writes, each behind those that it knows of, so that of the writes of its register that a read
    knows of, that of its value stands last."""
    if known.unwritten():
        return None
    before = {w: set(known.known_by[w]) & set(known.kept) for w in known.kept}
    for r in known.reads:
        for w in filter(lambda w: is_source(w, r), known.kept):
            before[w] |= known.writes_known_by(r) - {w}
    tried: Set[FrozenSet[Operation]] = set()

    def rest(done: FrozenSet[Operation]) -> Optional[List[Operation]]:
        if len(done) == len(known.kept):
            return []
        tried.add(done)
        for w in known.kept:
            if w not in done and before[w] <= done and done | {w} not in tried:
                found = rest(done | {w})
                if found is not None:
                    return [w, *found]
        return None

    return rest(frozenset())


def why_not_causal(known: Known, order: Sequence[Operation]) -> Optional[str]:
    """None if this is an order as above."""
    if len(set(order)) != len(order) or set(order) != set(known.kept):
        return "it hasn't each kept write once"
    for at, w in enumerate(order):
        for v in order[at:]:
            if v in known.known_by[w]:
                return f"line {w.line} knows of line {v.line}, which doesn't stand before it"
    for r in known.reads:
        last = [w for w in order if w in known.writes_known_by(r)][-1:]
        if not last or not is_source(last[0], r):
            return f"line {r.line} doesn't give the last write that it knows of"
    return None


# ---- the steps of a cycle that rules out each such order


def is_process_step(a: Operation, b: Operation) -> bool:
    return a.process is not None and comes_first(a, b)


def is_initial_step(a: Operation, b: Operation) -> bool:
    return a.process is None and comes_first(a, b)


def is_hidden_by(known: Known, a: Operation, b: Operation, r: Operation) -> bool:
    """Whether r gives the value of b although it knows of a, another write of its register."""
    return a != b and is_source(b, r) and a in known.writes_known_by(r)


def is_way(way: Sequence[Operation]) -> bool:
    """Whether each operation learns of the one before it, and there are two or more."""
    return len(way) > 1 and all(learns(a, b) for a, b in zip(way, way[1:]))
