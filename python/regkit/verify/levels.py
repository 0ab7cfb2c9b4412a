"""What each key of a report of reglevel claims, and how it is checked. docs/format.md names the keys."""
from typing import Any, Callable, Iterator, Optional, Sequence

from regkit.verify.causal import KEYS, check_causal
from regkit.verify.clusters import check_kept
from regkit.verify.gap import check_gap
from regkit.verify.guarantees import GUARANTEES, Places, check_level_fault, check_order
from regkit.verify.old_reads import Found, Old, find_old
from regkit.verify.operations import History, Operation
from regkit.verify.register import Register
from regkit.verify.rows import Row, Wrong, is_number, lines_of, need, with_name

LEVELS = ("atomic", "regular", "session", "sequential")  # that each line names
HALVES = ("own_writes", "monotonic")  # of a session
BY_STRENGTH = ("atomic", "session", *HALVES, "sequential")  # those that an order keeps
COUNTS = ("stale", "own", "back", "inverted", "lost")


def check_levels_report(history: History, rows: Sequence[Row], places: Places, joined: bool) -> bool:
    """Checks each claim of a report of reglevel. One that was joined may have no gaps, and say nothing of
    causal. Returns whether it would take too long to check that this is yes. Raises Wrong."""
    *lines, summary = rows
    with_gaps = not joined or any("gap" in line for line in lines)
    named = [line.get("register") for line in lines]
    need(named == list(history.registers),
         "the lines aren't those of the registers, in the order of their first calls")
    for line in lines:
        name = line["register"]
        with_name(name, check_line, Register(name, history.registers[name]), line, places, with_gaps)
    check_shown(lines)
    check_summary(lines, summary, with_gaps)
    return check_causal(history, lines, summary, joined)


def check_shown(lines: Sequence[Row]) -> None:
    """What is told only if it was asked for is told of all registers or of none."""
    for key, due in (("order", [line for line in lines if strongest(line)]),
                     ("stale_reads", [line for line in lines if "stale" in line])):
        told = sum(key in line for line in due)
        need(told in (0, len(due)), f"{told} of {len(due)} lines that could have `{key}` have it")


# ---- The summary


def check_summary(lines: Sequence[Row], summary: Row, with_gaps: bool) -> None:
    due: Row = {"registers": len(lines), "reads": total(lines, "reads")}
    due["operations"] = due["reads"] + total(lines, "writes")
    due.update({key: total(lines, key) for key in COUNTS})
    due.update({level: yes_if(all(line[level] == "yes" for line in lines)) for level in LEVELS})
    if due["session"] == "no":
        due.update({half: yes_if(all(line.get(half, "yes") == "yes" for line in lines)) for half in HALVES})
    unclean = sum("stale" not in line for line in lines)
    if unclean:
        due["unclean"] = unclean
    elif due["atomic"] == "no" and with_gaps:
        due["gap"] = max(line["gap"]["events"] for line in lines if "gap" in line)
    for key, value in due.items():
        need(key in summary and same(summary[key], value), f"the summary's `{key}` is {value}")
    others = sorted(set(summary) - set(due) - set(KEYS))
    need(not others, f"the summary has other keys: {', '.join(others)}")


def total(lines: Sequence[Row], key: str) -> int:
    return sum(line.get(key, 0) for line in lines)


def yes_if(holds: bool) -> str:
    return "yes" if holds else "no"


def same(one: Any, other: Any) -> bool:
    """In Python `true` equals 1, so the types are looked at too."""
    return type(one) is type(other) and one == other


# ---- The line of a register


def check_line(register: Register, line: Row, places: Places, with_gaps: bool) -> None:
    counts = {"writes": len(register.writes), "reads": len(register.reads),
              "pending": sum(not a.completed for a in register.operations)}
    for key, count in counts.items():
        need(is_number(line.get(key), count), f"`{key}` is {count}")
    for level in LEVELS:
        need(line.get(level) in ("yes", "no"), f"`{level}` is neither yes nor no")
    due = {"register", *counts, *LEVELS, *due_by_sessions(line), *due_by_reads(register, line)}
    if "order" in line or "order_of" in line:
        due |= {"order", "order_of"}
    if not with_gaps:
        due.discard("gap")
    need(set(line) == due, f"its keys are not {', '.join(sorted(due))}")
    check_guarantees(register, line, places)
    if "gap" in line:
        check_gap(register, line["gap"], places)


def due_by_sessions(line: Row) -> Iterator[str]:
    """The keys of the halves of a session that wasn't kept, and of why a level wasn't."""
    if line["sequential"] == "no":
        yield "sequential_fault"
    if line["session"] == "yes":
        return
    for half in HALVES:
        need(line.get(half) in ("yes", "no"), f"`session` is no, and `{half}` is neither yes nor no")
        yield half
        if line[half] == "no":
            yield f"{half}_fault"
    if all(line[half] == "yes" for half in HALVES):
        yield "session_fault"


def due_by_reads(register: Register, line: Row) -> Iterator[str]:
    """Checks the counts and `regular`, or why there are none; gives the keys of what there is to say."""
    unwritten, early = first_unclean(register)
    if unwritten is None and early is None:
        yield from due_if_clean(register, line)
        return
    need(line["atomic"] == line["regular"] == "no",
         "a read gave a value before it was written, so `atomic` and `regular` are no")
    if unwritten is not None:
        need(is_number(line.get("unwritten"), unwritten.line), f"`unwritten` is line {unwritten.line}")
        yield "unwritten"
    elif early is not None:
        check_object(line, "early", {"read": early.line, "write": register.write_of[early.value].line})
        yield "early"


def first_unclean(register: Register) -> tuple[Optional[Operation], Optional[Operation]]:
    """The first read whose value nobody wrote, and the first that ended before the write of its value."""
    reads, written = register.completed_reads, register.write_of
    unwritten = next((read for read in reads if read.value not in written), None)
    known = [read for read in reads if read.value in written]
    return unwritten, next((read for read in known if read.end < written[read.value].line), None)


def due_if_clean(register: Register, line: Row) -> Iterator[str]:
    found = find_old(register)
    numbers = (len(found.stale), len(found.own), len(found.back), len(found.inverted), len(found.lost))
    for key, number in zip(COUNTS, numbers):
        need(is_number(line.get(key), number), f"`{key}` is {number}")
        yield key
    need(line["regular"] == yes_if(not found.stale), f"`regular` is {yes_if(not found.stale)}, by `stale`")
    yield from check_firsts(register, line, found)
    if line["atomic"] == "no":
        yield "gap"
    if "stale_reads" in line:
        pairs = [[old.read.line, old.newer.line] for old in found.stale]
        need(line["stale_reads"] == pairs, f"`stale_reads` is {pairs}")
        yield "stale_reads"


def check_firsts(register: Register, line: Row, found: Found) -> Iterator[str]:
    """The first read of each kind, and the first lost write; gives their keys."""
    for key, old in (("stale_read", found.stale), ("own_read", found.own)):
        if old:
            check_object(line, key, shown(register, old[0]))
            yield key
    for key, old in (("back_read", found.back), ("inverted_read", found.inverted)):
        if old:
            check_went_back(register, line, key, old[0])
            yield key
    if found.lost:
        first = found.lost[0].line
        need(is_number(line.get("lost_write"), first), f"`lost_write` is line {first}")
        yield "lost_write"


def shown(register: Register, old: Old) -> dict[str, int]:
    """An old read, the newer write, and what had the old value first."""
    value = old.read.value
    had = [a for a in [register.by_line[0], *register.operations]
           if a.value == value and (a.is_write or a.completed)]
    return {"newer": old.newer.line, "read": old.read.line, "seen": min(had, key=lambda a: a.end).line}


def check_object(line: Row, key: str, due: dict[str, int]) -> None:
    told: Any = line.get(key)
    need(type(told) is dict, f"`{key}` is {due}")
    need(set(told) == set(due), f"the keys of `{key}` are not {', '.join(sorted(due))}")
    for part, number in due.items():
        need(is_number(told[part], number), f"`{part}` of `{key}` is line {number}")


def check_went_back(register: Register, line: Row, key: str, old: Old) -> None:
    """Of a session's reads of the newest value any may be named; of reads that precede, the first to end."""
    due = {**shown(register, old), "earlier": old.earlier.line}
    told = line.get(key)
    if key == "back_read" and type(told) is dict and type(told.get("earlier")) is int:
        named = register.by_line.get(told["earlier"])
        if named is not None and is_read_before(named, old):
            due["earlier"] = named.line
    check_object(line, key, due)


def is_read_before(a: Operation, old: Old) -> bool:
    """Whether a read of the newer value is an earlier one of the old read's session."""
    return (not a.is_write and a.completed and a.value == old.newer.value and a.process == old.read.process
            and a.line < old.read.line)


# ---- What orders keep


def strongest(line: Row) -> Optional[str]:
    """The strongest level that a line says was kept, of those that orders keep. None if there is none."""
    return next((level for level in BY_STRENGTH if line.get(level) == "yes"), None)


def check_guarantees(register: Register, line: Row, places: Places) -> None:
    if "order" in line:
        need(line["order_of"] == strongest(line), f"`order_of` is {strongest(line)}")
        with_level(line["order_of"], check_order, register, lines_of(line, "order"),
                   GUARANTEES[line["order_of"]], places)
    for level in built_of(line):
        with_level(level, check_kept, register, GUARANTEES[level], places)
    for level in ("session", *HALVES, "sequential"):
        if f"{level}_fault" in line:
            check_level_fault(register, line[f"{level}_fault"], GUARANTEES[level], places)


def built_of(line: Row) -> Iterator[str]:
    """The levels for which an order is built: those that no order of another level, or of the report, shows.
    An order that keeps `atomic` keeps all, and one of `session` keeps `sequential`, which asks less."""
    kept = [level for level in BY_STRENGTH if line.get(level) == "yes"]
    for level in kept:
        implied = (level != "atomic" and "atomic" in kept) or (level == "sequential" and "session" in kept)
        if not implied and level != line.get("order_of"):
            yield level


def with_level(level: str, check: Callable[..., None], *parts: Any) -> None:
    """Makes a check of a level that is said to be kept, and puts its name before what is wrong."""
    try:
        check(*parts)
    except Wrong as wrong:
        raise Wrong(f"`{level}` is yes, and {wrong}") from None
