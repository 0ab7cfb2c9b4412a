"""Checks each claim of a report against its history, by the definitions alone.

Read this package if you trust neither the proof, nor the compiler, nor the toolchain. It is plain code, and
shares little with the rest of regkit: `regkit/history/lines.py`, which splits a history into lines and reads
JSON, the numbers of `regkit/base/limits.py`, and the guard of `regkit/base/garbage.py`, which saves time.

- `operations.py`: the format of a history, from its bytes to its operations, or the reason to refuse it.
- `rows.py`: the lines of a report.
- `register.py`: the operations of one register, and its levels.
- `orders.py`, `faults.py`: what a yes claims of a register, and what a no does.
- `claims.py`: the whole report of regcheck: what each key claims, and how it is checked.
- `searches.py`: the same of regsearch. A no is searched again, up to a bound.
- `levels.py`: the same of reglevel. `guarantees.py` has what each level asks of an order, `clusters.py` the
  orders that are built where the report gives none, `old_reads.py` the counts, and `gap.py` the gap.
- `causal.py`: what the summary of reglevel says of all registers together. `knowledge.py` has who knows of
  what.

Time is counted in lines. An operation lasts from the line of its call to the line of its reply; one precedes
another if its reply comes before the other's call. Checking n events takes n log n steps; that they are
causal, n times the number of sessions.

What isn't checked:

- the choice: which of several true faults, or of several right orders, the report names;
- the layout: the order of the keys, the spaces between them, and how a name is escaped;
- the recording: whether the lines stand in the order in which things happened.
"""
from typing import NamedTuple, Optional, Sequence

from regkit.base.garbage import many_objects
from regkit.history.lines import numbered_lines
from regkit.verify.claims import check_report
from regkit.verify.levels import HALVES, LEVELS, check_levels_report
from regkit.verify.operations import History, Refused, read_history
from regkit.verify.rows import Row, Unreadable, Wrong, read_rows
from regkit.verify.searches import Nos, check_search_report

__all__ = ["Nos", "Unreadable", "Verified", "Wrong", "verify", "verify_refusal"]

# Refusals of one run that say nothing of the history.
OF_THE_RUN = ("input could not be read", "no memory or no thread", "output could not be written")


class Verified(NamedTuple):
    """What holds, after each claim was checked."""

    atomic: Optional[bool]  # None if the history is refused; False also if a register is unknown
    operations: int = 0
    registers: int = 0
    faulty: int = 0  # how many lines of the report are of registers that aren't atomic
    unknown: int = 0  # of how many registers the report says that it doesn't know
    nos: Nos = Nos()  # of a report of regsearch, how its nos were checked
    by_search: bool = False  # the report, or the refusal, is one of regsearch
    early: bool = False  # the report is an early answer: it has the line of the first such register at most
    refusal: str = ""
    kept: Optional[Sequence[str]] = None  # of a report of reglevel, the levels that are kept
    summary: Optional[Row] = None  # of such a report
    unchecked: bool = False  # it would take too long to check that the history is causal, as the report says


def verify(history: bytes, report: bytes, joined: bool = False) -> Verified:
    """Checks a whole report, or an early answer (`--first`). Raises Wrong for the first claim that fails.

    A report of `regkit join` is `joined`: the limits on input and events hold for each part and not for the
    whole, and the summary may lack `order`; the merged order is then built here.
    """
    with many_objects():
        rows = read_rows(report)
        if any("cas" in row for row in rows[:-1]):
            return _verify_search(history, rows, joined)
        if "session" in rows[-1]:
            return _verify_levels(history, rows, joined)
        read = _accepted(history, limits=not joined)
        early = check_report(read, rows, joined)
    faulty = sum(row["atomic"] == "no" for row in rows[:-1])
    return Verified(faulty == 0, rows[-1]["operations"], len(read.registers), faulty, early=early)


def _verify_search(history: bytes, rows: list[Row], joined: bool) -> Verified:
    """The same of a report of regsearch."""
    read = _accepted(history, limits=not joined, search=True)
    nos = check_search_report(read, rows)
    unknown = sum(row["atomic"] == "unknown" for row in rows[:-1])
    faulty = sum(row["atomic"] == "no" for row in rows[:-1])
    return Verified(faulty == unknown == 0, rows[-1]["operations"], len(read.registers), faulty, unknown, nos,
                    by_search=True)


def _verify_levels(history: bytes, rows: list[Row], joined: bool) -> Verified:
    """The same of a report of reglevel."""
    read = _accepted(history, limits=not joined)
    places = {0: 0, **{line: place for place, (line, _) in enumerate(numbered_lines(history), 1)}}
    unchecked = check_levels_report(read, rows, places, joined)
    summary = rows[-1]
    kept = [level for level in (*LEVELS, *HALVES) if summary.get(level, summary["session"]) == "yes"]
    kept += ["causal"] if summary.get("causal") == "yes" else []
    faulty = sum(row["atomic"] == "no" for row in rows[:-1])
    return Verified(faulty == 0, summary["operations"], len(read.registers), faulty, kept=kept,
                    summary=summary, unchecked=unchecked)


def _accepted(history: bytes, limits: bool, search: bool = False) -> History:
    try:
        return read_history(history, limits, search)
    except Refused as refused:
        raise Wrong(f"the history has to be refused: {refused.text}") from None


def verify_refusal(history: bytes, refusal: str, search: Optional[bool] = None) -> Verified:
    """Checks that a history has to be refused with these words. Raises Wrong.

    They have to name its first faulty line, and the lowest-numbered reason that applies there: by the rules
    of regsearch if `search` is true, by those of regcheck if it is false, and else by either.
    """
    said = refusal.strip()
    if said.startswith(OF_THE_RUN):
        raise Unreadable(f"`{said}` says nothing of the history: run regcheck again")
    due = {rules: _refusal(history, rules) for rules in (False, True) if search in (None, rules)}
    for rules, words in due.items():
        if words and words == said:
            return Verified(None, refusal=said, by_search=rules)
    words = next(iter(due.values()))
    raise Wrong(f"the history is refused with other words: {words}" if words
                else "no line of the history is faulty, so it isn't refused")


def _refusal(history: bytes, search: bool) -> str:
    """The words with which a history is refused. Empty if it is accepted."""
    try:
        read_history(history, limits=True, search=search)
    except Refused as refused:
        return refused.text
    return ""
