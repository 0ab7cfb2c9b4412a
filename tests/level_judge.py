#!/usr/bin/env python3
"""What reglevel has to answer, straight from the definitions (tests/level_definitions.py).

    tests/level_judge.py answer HISTORY                 a right report, or the refusal; the exit status
    tests/level_judge.py judge HISTORY STATUS REPORT    whether an answer is right: status 0, or 1

Options of the program, such as `--require session`, may follow the history or the report.

Lines are read and refused as in tests/reference.py, which also has the operations. Everything that is
determined of a report has to be as it is in the judge's own. Of the rest, each claim has to be true: an order
is legal and keeps its level, each step of a cycle is one that the level asks for, and so is each half of the
conflict that shows a gap. All orders are tried, so there should be few operations. `-` is standard input.
"""
import argparse
import collections
import itertools
import sys
from typing import Any, Deque, Dict, Iterator, List, NamedTuple, Optional, Sequence, Tuple

import judging
import level_definitions as levels
import reference
from judging import Ended, Row, Wrong, compare, rows_in, wrong
from level_definitions import MUST, Known, Must, OldAfter
from reference import Operation, Register

OPTIONS = reference.Options()
LEVELS = ["atomic", "regular", "session", "own_writes", "monotonic", "sequential"]  # of a register
REQUIRED = [*LEVELS, "causal"]
TOLD_ALWAYS = ["atomic", "regular", "session", "sequential"]
HALVES = ["own_writes", "monotonic"]  # of the session
COUNTS = [*levels.KINDS, "lost"]


class Asked(NamedTuple):
    """What a program is told by its options."""

    require: str
    stale: bool
    orders: bool


def asked_by(options: Sequence[str]) -> Asked:
    parser = argparse.ArgumentParser(allow_abbrev=False)
    parser.add_argument("--require", choices=REQUIRED, default="atomic")
    parser.add_argument("--stale", action="store_true")
    parser.add_argument("--orders", action="store_true")
    known, _ = parser.parse_known_args(options)
    return Asked(known.require, known.stale, known.orders)


def lines_of(operations: Sequence[Operation]) -> List[int]:
    return [a.line for a in operations]


def yes_or_no(holds: bool) -> str:
    return "yes" if holds else "no"


# ---- evidence that no order keeps a level


def steps_from(register: Register, must: Must, v: Operation) -> Iterator[Tuple[Operation, List[int]]]:
    """The writes whose clusters v's must come before, each with a step that shows it."""
    for w in levels.kept_writes(register):
        links = levels.links(register, must, v, w)
        if links:
            yield w, lines_of(links[0])


def cycle(register: Register, must: Must) -> Optional[Row]:
    """A shortest cycle of clusters, each of which must come before the next."""
    for length in range(1, len(register.writes) + 1):
        for v in levels.kept_writes(register):
            found = walk(register, must, [v], length)
            if found is not None:
                return {"kind": "cycle", "steps": found[1], "writes": found[0]}
    return None


def walk(register: Register, must: Must, path: List[Operation],
         length: int) -> Optional[Tuple[List[int], List[List[int]]]]:
    """The writes and the steps of a walk of this length from the end of the path to its beginning, through
    no write twice."""
    for w, step in steps_from(register, must, path[-1]):
        if length == 1 and w == path[0]:
            return [path[-1].line], [step]
        if length > 1 and w not in path:
            rest = walk(register, must, [*path, w], length - 1)
            if rest is not None:
                return [path[-1].line, *rest[0]], [step, *rest[1]]
    return None


def level_fault(register: Register, must: Must) -> Row:
    """Why a register without an order for a level has none."""
    for read in levels.unwritten(register):
        return {"kind": "unwritten", "read": read.line}
    for read, write in levels.early(register, must):
        return {"kind": "early", "read": read.line, "write": write.line}
    found = cycle(register, must)
    assert found is not None, "neither an order nor evidence that there is none"
    return found


# ---- a right line of a register


def freshness(register: Register, asked: Asked) -> Row:
    """What a line says of the age of the values that reads gave."""
    for read in levels.unwritten(register):
        return {"regular": "no", "unwritten": read.line}
    for read, write in levels.early(register):
        return {"regular": "no", "early": {"read": read.line, "write": write.line}}
    row: Row = {}
    for name, kind in levels.KINDS.items():
        old = levels.old_reads(register, kind)
        row[name] = len(old)
        if old:
            read = next(iter(old))
            row[f"{name}_read"] = old_read(register, kind, read, old[read][0])
        if name == "stale" and asked.stale:
            row["stale_reads"] = [[read.line, shown[0].newer.line] for read, shown in old.items()]
    lost = levels.lost_writes(register)
    row.update({"regular": yes_or_no(row["stale"] == 0), "lost": len(lost)})
    if lost:
        row["lost_write"] = lost[0].line
    return {**row, **gap_of(register)}


def old_read(register: Register, kind: levels.Kind, read: Operation, shown: OldAfter) -> Row:
    row = {"newer": shown.newer.line, "read": read.line,
           "seen": levels.first_to_reply(register, read.value).line}
    return {"earlier": shown.earlier.line, **row} if kind.by_a_read else row


def gap_of(register: Register) -> Row:
    """The gap, with two clusters of which each must come before the other if reads have to be younger."""
    events = levels.gap(register)
    if events is None:
        return {}
    must = levels.must_within(events)
    for v, w in itertools.combinations(levels.kept_writes(register), 2):
        steps = [levels.links(register, must, v, w), levels.links(register, must, w, v)]
        if all(steps):
            first, second = (min(step, key=lambda link: link[0].reply) for step in steps)
            return {"gap": {"events": events, "writes": lines_of([v, w]), "first": lines_of(first),
                            "second": lines_of(second)}}
    raise AssertionError("no two clusters conflict at the gap")


def guarantees(register: Register, asked: Asked) -> Row:
    """Which levels hold but for `regular`; why others don't; and an order for the strongest that holds."""
    orders = {level: levels.legal_order(register, must) for level, must in MUST.items()}
    told = [level for level in MUST if level in TOLD_ALWAYS or orders["session"] is None]
    row: Row = {level: yes_or_no(orders[level] is not None) for level in told}
    both = all(orders[half] is not None for half in HALVES)
    for level in told:
        if orders[level] is None and level != "atomic" and (level != "session" or both):
            row[f"{level}_fault"] = level_fault(register, MUST[level])
    if asked.orders:
        row.update(strongest_of(orders))
    return row


def strongest_of(orders: Dict[str, Optional[List[Operation]]]) -> Row:
    for level, order in orders.items():
        if order is not None:
            return {"order": [a.line for a in order if a.line], "order_of": level}
    return {}


def row_of(register: Register, asked: Asked) -> Row:
    called = register.called
    counts = {"reads": sum(not levels.is_write(a) for a in called), "register": register.name,
              "writes": sum(map(levels.is_write, called)), "pending": sum(a.pending for a in called)}
    return {**counts, **freshness(register, asked), **guarantees(register, asked)}


# ---- causal, of the whole


def operations_of(whole: reference.Whole) -> List[Operation]:
    return [a for register in whole.registers for a in register.all]


def way_to(known: Known, a: Operation, r: Operation) -> List[Operation]:
    """A shortest way by which r, which knows of a, learnt of it."""
    ways: Deque[List[Operation]] = collections.deque([[r]])
    while True:
        way = ways.popleft()
        if levels.learns(a, way[0]):
            return [a, *way]
        ways.extend([b, *way] for b in known.operations if levels.learns(b, way[0]))


def causal_steps(known: Known, a: Operation) -> Iterator[Tuple[Operation, Row]]:
    """What a comes before, each with the step that says why. Of reasons there may be several."""
    for b in known.operations:
        ends = {"from": a.line, "to": b.line}
        if levels.is_process_step(a, b):
            yield b, {**ends, "why": "process"}
        if levels.is_source(a, b):
            yield b, {**ends, "why": "read"}
        if levels.is_initial_step(a, b):
            yield b, {**ends, "why": "initial"}
        for r in known.reads:
            if levels.is_hidden_by(known, a, b, r):
                knew = lines_of(way_to(known, a, r))
                yield b, {**ends, "why": "hidden", "read": r.line, "knew": knew}


def causal_cycle(known: Known) -> List[Row]:
    """The steps of a shortest cycle through any operation."""
    found: List[List[Row]] = []
    for a in known.operations:
        walks: Deque[Tuple[Operation, List[Row]]] = collections.deque([(a, [])])
        seen = set()
        while walks:
            b, steps = walks.popleft()
            if b == a and steps:
                found.append(steps)
                break
            for c, step in causal_steps(known, b):
                if c not in seen:
                    seen.add(c)
                    walks.append((c, [*steps, step]))
    assert found, "neither an order nor evidence that there is none"
    return min(found, key=len)


def causal_of(whole: reference.Whole, asked: Asked) -> Row:
    """What the summary says of it."""
    known = Known(operations_of(whole))
    order = levels.causal_order(known)
    if order is not None:
        told = {"causal_order": [w.line for w in order if w.line]} if asked.orders else {}
        return {"causal": "yes", **told}
    for read in sorted(known.unwritten(), key=lambda read: read.call):
        return {"causal": "no", "causal_fault": {"kind": "unwritten", "read": read.line}}
    return {"causal": "no", "causal_fault": {"kind": "cycle", "steps": causal_cycle(known)}}


# ---- the summary


def says(row: Row, level: str) -> bool:
    """A session that was kept has both of its halves, which then aren't told of."""
    return bool(row.get(level, "yes") == "yes")


def summary_of(rows: Sequence[Row]) -> Row:
    """What is said of the whole, by the lines of the registers."""
    hold = {level: all(says(row, level) for row in rows) for level in LEVELS}
    told = TOLD_ALWAYS if hold["session"] else LEVELS
    unclean = sum("stale" not in row for row in rows)
    summary: Row = {level: yes_or_no(hold[level]) for level in told}
    summary.update({count: sum(row.get(count, 0) for row in rows) for count in COUNTS})
    summary["registers"] = len(rows)
    summary["reads"] = sum(row["reads"] for row in rows)
    summary["operations"] = sum(row["reads"] + row["writes"] for row in rows)
    if unclean:
        summary["unclean"] = unclean
    elif not hold["atomic"]:
        summary["gap"] = max(row["gap"]["events"] for row in rows if "gap" in row)
    return summary


def answer(history: bytes, options: Sequence[str]) -> Ended:
    """A right answer; one of several, if more than one order, cycle or conflict will do."""
    asked = asked_by(options)
    try:
        whole = reference.Whole(history, OPTIONS)
    except reference.Refused as refused:
        return judging.refused(refused, OPTIONS)
    rows = [row_of(register, asked) for register in whole.registers]
    summary = {**summary_of(rows), **causal_of(whole, asked)}
    return Ended(0 if says(summary, asked.require) else 1, reference.report_text([*rows, summary]), b"")


# ---- whether an answer is right


def operations_at(register: Register, lines: Any) -> List[Operation]:
    at = register.by_line
    if not isinstance(lines, list) or not all(type(line) is int and line in at for line in lines):
        wrong(lines, "aren't lines of calls")
    return [at[line] for line in lines]


def members_of(row: Any, names: Sequence[str]) -> List[Any]:
    if not isinstance(row, dict) or sorted(row) != sorted(names):
        wrong(row, "hasn't just", *names)
    return [row[name] for name in names]


def judge_link(register: Register, must: Must, writes: Sequence[Operation], step: Any) -> None:
    """That the cluster of the first write must come before that of the second, as the step shows."""
    v, w = writes
    if not all(write in levels.kept_writes(register) for write in writes):
        wrong(v.line, "or", w.line, "is no write that is completed or read")
    if tuple(operations_at(register, step)) not in levels.links(register, must, v, w):
        wrong(step, "doesn't show that", v.line, "must come before", w.line)


def judge_cycle(register: Register, must: Must, lines: Any, steps: Any) -> None:
    writes = operations_at(register, lines)
    if not writes or not isinstance(steps, list) or len(steps) != len(writes):
        wrong("writes are", lines, "and steps", steps)
    for at, step in enumerate(steps):
        judge_link(register, must, [writes[at], writes[(at + 1) % len(writes)]], step)


def judge_fault(register: Register, must: Must, fault: Any) -> None:
    kind = fault.get("kind") if isinstance(fault, dict) else None
    if kind == "cycle":
        _, lines, steps = members_of(fault, ["kind", "writes", "steps"])
        judge_cycle(register, must, lines, steps)
    elif kind == "early":
        _, read, write = members_of(fault, ["kind", "read", "write"])
        if tuple(operations_at(register, [read, write])) not in levels.early(register, must):
            wrong(read, "need not come before", write)
    elif kind == "unwritten":
        _, line = members_of(fault, ["kind", "read"])
        if operations_at(register, [line])[0] not in levels.unwritten(register):
            wrong(line, "has a write")
    else:
        wrong(fault, "is no fault")


def judge_gap(register: Register, gap: Any, want: Row) -> None:
    """The operation of either cluster that replies first shows that it must come before the other."""
    events, first, second, lines = members_of(gap, ["events", "first", "second", "writes"])
    compare("gap", events, want["events"])
    judge_cycle(register, levels.must_within(events), lines, [first, second])
    for write, step in zip(operations_at(register, lines), [first, second]):
        compare("what replies first", step[0], levels.first_to_reply(register, write.value).line)


def judge_old_read(register: Register, kind: levels.Kind, row: Any, want: Row) -> None:
    """Of a session that goes back, several reads may have given the newest value before."""
    if "earlier" not in want:
        return compare("the first old read", row, want)
    members_of(row, ["earlier", "newer", "read", "seen"])
    compare("the first old read", {**row, "earlier": None}, {**want, "earlier": None})
    earlier, read, newer = operations_at(register, [row["earlier"], row["read"], row["newer"]])
    shown = levels.shown_old(register, kind, read)
    least = min(map(kind.rank, shown))
    if OldAfter(earlier, newer) not in [each for each in shown if kind.rank(each) == least]:
        wrong(row["earlier"], "isn't what shows first that", row["read"], "is old")


def judge_order(register: Register, lines: Any, level: str) -> None:
    order = operations_at(register, lines)
    if register.all[0] in order:
        wrong("the initial write is told of in", lines)
    why = levels.why_not_legal(register, MUST[level], [register.all[0], *order])
    if why:
        wrong(f"order {lines}:", why)


def judge_row(row: Row, register: Register, asked: Asked) -> None:
    want = row_of(register, asked)
    if set(row) != set(want):
        wrong("keys are", *sorted(row), "and not", *sorted(want))
    for key, value in row.items():
        name, _, rest = key.rpartition("_")
        if rest == "fault":
            judge_fault(register, MUST[name], value)
        elif rest == "read" and name in levels.KINDS:
            judge_old_read(register, levels.KINDS[name], value, want[key])
        elif key == "gap":
            judge_gap(register, value, want["gap"])
        elif key != "order":
            compare(key, value, want[key])
    if "order" in row:
        judge_order(register, row["order"], row["order_of"])


def operation_at(known: Known, line: Any) -> Operation:
    """That of a line, which isn't 0: initial writes have no line of their own."""
    found = [a for a in known.operations if type(line) is int and a.line == line != 0]
    if not found:
        wrong(line, "is the line of no call")
    return found[0]


def initial_of(known: Known, register: str) -> Operation:
    return next(w for w in known.writes if w.line == 0 and w.register == register)


def end_of_step(known: Known, step: Any) -> Operation:
    """Where it leads. Line 0 is the initial write of the register that the step is about."""
    if not isinstance(step, dict) or step.get("why") not in ("process", "read", "initial", "hidden"):
        wrong(step, "is no step")
    if step["why"] == "hidden" and reference.same(step.get("to"), 0):
        return initial_of(known, operation_at(known, step.get("read")).register)
    return operation_at(known, step.get("to"))


def judge_hidden(known: Known, a: Operation, b: Operation, step: Row) -> None:
    names = ["from", "read", "to", "why"]
    members_of(step, [*names, "knew"] if "knew" in step else names)
    r = operation_at(known, step["read"])
    if not levels.is_hidden_by(known, a, b, r):
        wrong(r.line, "doesn't give the value of", b.line, "and know of", a.line)
    if "knew" in step:
        lines = step["knew"]
        way = [a, *(operation_at(known, line) for line in lines[1:])] if isinstance(lines, list) else []
        if not levels.is_way(way) or lines[0] != a.line or way[-1] != r:
            wrong(lines, "is no way from", a.line, "to", r.line)


def judge_causal_step(known: Known, a: Operation, b: Operation, step: Row) -> None:
    compare("where a step begins", step.get("from"), a.line)
    if step["why"] == "hidden":
        return judge_hidden(known, a, b, step)
    members_of(step, ["from", "to", "why"])
    is_step = {"process": levels.is_process_step, "read": levels.is_source, "initial": levels.is_initial_step}
    if not is_step[step["why"]](a, b):
        wrong(step, "isn't one of its kind")


def judge_causal_fault(known: Known, fault: Any) -> None:
    kind = fault.get("kind") if isinstance(fault, dict) else None
    if kind == "unwritten":
        _, line = members_of(fault, ["kind", "read"])
        if operation_at(known, line) not in known.unwritten():
            wrong(line, "is no read of a value that nobody wrote")
    elif kind == "cycle":
        _, steps = members_of(fault, ["kind", "steps"])
        if not isinstance(steps, list) or not steps:
            wrong(steps, "are no steps")
        ends = [end_of_step(known, step) for step in steps]
        for a, b, step in zip([ends[-1], *ends], ends, steps):
            judge_causal_step(known, a, b, step)
    else:
        wrong(fault, "is no fault of causal")


def judge_causal(whole: reference.Whole, told: Row, asked: Asked) -> None:
    """It is never unknown: there are few operations."""
    known = Known(operations_of(whole))
    want = causal_of(whole, asked)
    if set(told) != set(want):
        wrong("of causal the keys are", *sorted(told), "and not", *sorted(want))
    compare("causal", told["causal"], want["causal"])
    if "causal_fault" in told:
        judge_causal_fault(known, told["causal_fault"])
    if "causal_order" in told:
        lines = told["causal_order"]
        if not isinstance(lines, list):
            wrong(lines, "is no order")
        initial = [register.all[0] for register in whole.registers]
        why = levels.why_not_causal(known, [*initial, *(operation_at(known, line) for line in lines)])
        if why:
            wrong(f"causal_order {lines}:", why)


def broken_law(rows: Sequence[Row]) -> Optional[str]:
    """The laws that bind causal to the levels of registers, of a report whose verdicts are right."""
    *registers, summary = rows
    if says(summary, "atomic") and not says(summary, "causal"):
        return "an atomic history isn't causal"
    if says(summary, "causal") and not says(summary, "sequential"):
        return "a causal history isn't sequential"
    if len(registers) == 1 and says(summary, "causal") != says(summary, "sequential"):
        return "with one register, causal and sequential are the same"
    return None


def judge_report(ended: Ended, whole: reference.Whole, asked: Asked) -> None:
    rows, registers = rows_in(ended.output), whole.registers
    if len(rows) != len(registers) + 1:
        wrong(len(rows), "lines for", len(registers), "registers")
    for row, register in zip(rows, registers):
        try:
            judge_row(row, register, asked)
        except Wrong as why:
            wrong(f"register {register.name!r}:", why)
    told = {key: value for key, value in rows[-1].items() if key.startswith("causal")}
    judge_causal(whole, told, asked)
    compare("the summary", rows[-1], {**summary_of(rows[:-1]), **told})
    compare("the exit status", ended.status, 0 if says(rows[-1], asked.require) else 1)
    compare("standard error", ended.error.decode("utf-8", "replace"), "")
    law = broken_law(rows)
    if law:
        wrong(law)


def complaint(history: bytes, ended: Ended, options: Sequence[str]) -> Optional[str]:
    """None if the program may end so on this history with these options, else what is wrong."""
    try:
        whole = reference.Whole(history, OPTIONS)
    except reference.Refused as refused:
        want = judging.refused(refused, OPTIONS)
        return None if ended == want else f"it should end so: {want}"
    try:
        judge_report(ended, whole, asked_by(options))
    except Wrong as why:
        return str(why)
    return None


if __name__ == "__main__":
    sys.exit(judging.main(__doc__, answer, complaint))
