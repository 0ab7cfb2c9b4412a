"""What a report of reglevel claims of `causal`, which is of all registers together.

A yes is an order of the writes, in which each stands behind those that it knows of, and each read gives the
last write of its register that it knows of. A no is a read of a value that nobody wrote, or a cycle: each of
its operations has to come before the next, and the last before the first. Where the report gives no order, an
order is built, and checked like any other.
"""
from bisect import bisect_right
from typing import Any, NamedTuple, Sequence

from regkit.verify.clusters import sorted_nodes
from regkit.verify.knowledge import Whole, by_knowledge, clocks_of
from regkit.verify.operations import History, Operation
from regkit.verify.rows import Row, Wrong, is_number, lines_of, need

KEYS = ("causal", "causal_fault", "causal_order")
MOST_WORK = 1 << 27  # sessions times operations: beyond it an order isn't checked, as that would take minutes
GIVEN_UP = 1 << 25  # what reglevel says to be unknown has more


def check_causal(history: History, lines: Sequence[Row], summary: Row, joined: bool) -> bool:
    """Checks what the summary claims. Returns whether that took too long for a yes. Raises Wrong."""
    if joined and not any(key in summary for key in KEYS):
        return False
    verdict = summary.get("causal")
    need(verdict in ("yes", "no", "unknown"), "`causal` is neither yes, no nor unknown")
    need(("causal_fault" in summary) == (verdict == "no"), "`causal_fault` is there if `causal` is no")
    if lines and verdict == "yes":  # then each register is sequential: it has an order if that was asked for
        need(("causal_order" in summary) == ("order" in lines[0]),
             "`causal_order` is there if the registers have their orders")
    need(verdict == "yes" or "causal_order" not in summary, "`causal_order` is there if `causal` is yes")
    whole = Whole(history)
    if verdict == "unknown":
        size = (whole.sessions + 2) * (len(whole.calls) + len(whole.initial))
        need(size > GIVEN_UP, "`causal` is unknown, and the history isn't so large")
    if verdict == "no":
        check_fault(whole, summary["causal_fault"])
    return verdict == "yes" and not check_yes(whole, summary)


# ---- A yes


def check_yes(whole: Whole, summary: Row) -> bool:
    """Returns whether it was checked."""
    if whole.sessions * len(whole.calls) > MOST_WORK:
        return False
    order = by_knowledge(whole)
    need(order is not None, "`causal` is yes, and an operation would have to know of itself")
    assert order is not None
    for read, source in whole.source_of.items():
        need(source is not None, f"`causal` is yes, and nobody wrote the value of line {read}")
    writes = lines_of(summary, "causal_order") if "causal_order" in summary else built(whole, order)
    try:
        check_order(whole, order, writes)
    except Wrong as wrong:
        raise Wrong(f"`causal` is yes, and {wrong}") from None
    return True


class Written(NamedTuple):
    """The kept writes of a session to a register: their places in the session, and their lines."""

    places: list[int]
    lines: list[int]

    def last(self, known: int) -> int:
        """The last of the first few operations of the session; 0 if there is none."""
        count = bisect_right(self.places, known)
        return self.lines[count - 1] if count else 0


Writers = dict[str, dict[int, Written]]  # of each register, by the numbers of the sessions


def writers_of(whole: Whole) -> Writers:
    kept = {a.line for a in whole.kept_writes()}
    counts = [0] * whole.sessions
    found: Writers = {name: {} for name in whole.initial}
    for a in whole.calls:
        own = whole.number_of[a.process]
        counts[own] += 1
        if a.line in kept:
            written = found[a.register].setdefault(own, Written([], []))
            written.places.append(counts[own])
            written.lines.append(a.line)
    return found


def check_order(whole: Whole, order: list[Operation], writes: Sequence[int]) -> None:
    """Whether the writes, behind the initial ones, are a causal order. The calls stand in an order in which
    each comes behind all that it learns of."""
    due = {a.line for a in whole.kept_writes()}
    need(len(set(writes)) == len(writes), "its order has a write twice")
    odd = min(due ^ set(writes), default=0)
    need(set(writes) == due, f"its order lacks a write, or has another: line {odd}")
    place = {0: -1, **{line: number for number, line in enumerate(writes)}}
    latest: dict[int, int] = {}  # of each call, the last place of a write that it knows of, or is
    for a in order:
        known = max((latest[b.line] for b in whole.learnt(a)), default=-1)
        if a.line in place:
            need(known < place[a.line], f"line {a.line} stands before a write that it knows of, "
                 f"line {writes[known]}, in its order")
        latest[a.line] = place.get(a.line, known)
    check_reads(whole, order, place)


def check_reads(whole: Whole, order: list[Operation], place: dict[int, int]) -> None:
    """Whether each read gives the last write that it knows of. Of a session that is the last one, since those
    before it stand before it."""
    writers = writers_of(whole)
    for a, clock, clocks in clocks_of(whole, order):
        source = whole.source_of.get(a.line)
        if source is None:
            continue
        beneath = clocks[source.line] if source.line else [0] * whole.sessions
        for session, written in writers[a.register].items():
            if clock[session] > beneath[session]:  # its source stands behind the others, since it knows them
                last = written.last(clock[session])
                need(place[last] <= place[source.line],
                     f"the read of line {a.line} gives line {source.line}, and knows of line {last}, which "
                     "stands behind it in its order")


def built(whole: Whole, order: list[Operation]) -> list[int]:
    """An order of the kept writes: each behind what it learns of, and behind the writes that must have been
    older than it, since a read gave it and knew of them. Nothing rests on how, since it is checked."""
    number = {a.line: place for place, a in enumerate(order)}
    edges: dict[int, list[int]] = {}
    for a in order:
        for b in whole.learnt(a):
            edges.setdefault(number[b.line], []).append(number[a.line])
    writers = writers_of(whole)
    for a, clock, _ in clocks_of(whole, order):
        source = whole.source_of.get(a.line)
        for session, written in writers[a.register].items() if source is not None else ():
            last = written.last(clock[session])
            if source is not None and source.line and last not in (0, source.line):
                edges.setdefault(number[last], []).append(number[source.line])
    found = sorted_nodes(len(order), edges)
    if found is None:
        raise Wrong("`causal` is yes, and each order of its writes breaks it")
    kept = {a.line for a in whole.kept_writes()}
    return [order[node].line for node in found if order[node].line in kept]


# ---- A no


def check_fault(whole: Whole, fault: Any) -> None:
    """Which of several true faults is named isn't checked."""
    need(type(fault) is dict, "`causal_fault` is not an object")
    if fault.get("kind") == "unwritten":
        need(set(fault) == {"kind", "read"}, "the keys of `causal_fault` are not kind, read")
        read = call_of(whole, fault["read"])
        need(whole.source_of.get(read.line, read) is None,
             f"line {read.line} is no read of a value that nobody wrote")
        return
    need(fault.get("kind") == "cycle", "`causal_fault` is of no kind that there is")
    need(set(fault) == {"kind", "steps"}, "the keys of `causal_fault` are not kind, steps")
    steps = fault["steps"]
    need(type(steps) is list and steps != [], "`causal_fault` has no steps")
    ends = [end_of(whole, step) for step in steps]
    for a, b, step in zip([ends[-1], *ends], ends, steps):
        need(is_number(step["from"], a.line), f"a step begins at line {a.line}, where the one before it ends")
        check_step(whole, step, a, b)


def call_of(whole: Whole, line: Any) -> Operation:
    need(type(line) is int and line in whole.by_line, f"{line!r} in `causal_fault` is not the line of a call")
    return whole.by_line[line]


def end_of(whole: Whole, step: Any) -> Operation:
    """Where a step leads: line 0 is the initial write of the register of the read that gave its value."""
    keys = {"process": {"from", "to", "why"}, "read": {"from", "to", "why"}, "initial": {"from", "to", "why"},
            "hidden": {"from", "read", "to", "why"}}
    why = step.get("why") if type(step) is dict else None
    need(type(why) is str and why in keys, "a step of `causal_fault` has no reason that there is")
    assert type(why) is str
    due = keys[why] | ({"knew"} & set(step) if why == "hidden" else set())
    need(set(step) == due, f"the keys of a step are not {', '.join(sorted(due))}")
    if why == "hidden" and is_number(step["to"], 0):
        return whole.initial[call_of(whole, step["read"]).register]
    return call_of(whole, step["to"])


def check_step(whole: Whole, step: Row, a: Operation, b: Operation) -> None:
    """Whether a has to come before b for the reason that the step gives."""
    why = step["why"]
    if why == "process":
        need(a.line != 0 and a.process == b.process and a.line < b.line,
             f"line {a.line} doesn't come before line {b.line} in a session")
    elif why == "read":
        need(is_source(whole, a, b), f"line {b.line} doesn't give the value of line {a.line}")
    elif why == "initial":
        need(a.line == 0, f"line {a.line} is no initial write")
    else:
        check_hidden(whole, step, a, b)


def is_source(whole: Whole, a: Operation, b: Operation) -> bool:
    return whole.source_of.get(b.line) is a


def check_hidden(whole: Whole, step: Row, a: Operation, b: Operation) -> None:
    """A read gave the value of b although it knew of a, another write of its register."""
    read = call_of(whole, step["read"])
    need(is_source(whole, b, read), f"line {read.line} doesn't give the value of line {b.line}")
    need(a.is_write and a.register == read.register and a is not b,
         f"line {a.line} is not another write to the register of line {read.line}")
    if "knew" in step:
        check_way(whole, lines_of(step, "knew"), a, read)
    else:
        need(whole.knows(read, a), f"line {read.line} doesn't know of line {a.line}")


def check_way(whole: Whole, lines: list[int], a: Operation, read: Operation) -> None:
    """From a to the read, where each learns of the one before it."""
    need(len(lines) > 1 and lines[0] == a.line and lines[-1] == read.line,
         f"`knew` doesn't lead from line {a.line} to line {read.line}")
    way = [a, *(call_of(whole, line) for line in lines[1:])]
    for before, after in zip(way, way[1:]):
        in_session = before.process == after.process and before.line < after.line
        need(not before.line or in_session or is_source(whole, before, after),
             f"line {after.line} doesn't learn of line {before.line}, which stands before it in `knew`")
