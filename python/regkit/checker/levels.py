"""A report of `reglevel`: which levels each register kept, and whether the whole history is causal."""
from typing import Iterable, NamedTuple

from regkit.base.statuses import ExitStatus
from regkit.checker.programs import Answer
from regkit.checker.report import Row, read_report

LEVELS = ("atomic", "regular", "session", "own_writes", "monotonic", "sequential")  # of a register, by keys
CAUSAL = "causal"  # of all registers together
REQUIRED = (*LEVELS, CAUSAL)
HALVES = ("own_writes", "monotonic")  # of `session`: a line names them if that is no
WEAKER: dict[str, tuple[str, ...]] = {  # what each level implies
    "atomic": REQUIRED[1:], "session": (*HALVES, "sequential"), CAUSAL: ("sequential",)}
DISTINCT = "reglevel takes reads and writes of distinct values: let the n-th write of a register write n"


class Levels(NamedTuple):
    """The lines of the registers, and the summary. docs/format.md says what each key is."""

    rows: list[Row]
    summary: Row


def read_levels(data: bytes) -> Levels:
    """Raises ValueError if the bytes aren't a report of reglevel."""
    report = read_report(data)
    if not all("session" in row for row in (*report.rows, report.summary)):
        raise ValueError("it says nothing of sessions, as a report of reglevel does")
    return Levels(report.rows, report.summary)


def kept(row: Row) -> list[str]:
    """The levels that a line, or the summary, says were kept. Both halves of a session that was kept were."""
    held = [level for level in LEVELS if row.get(level, row["session"]) == "yes"]
    return [*held, CAUSAL] if row.get(CAUSAL) == "yes" else held


def lacking(row: Row) -> list[str]:
    """The levels that a line, or the summary, says weren't kept. Lines of registers say nothing of causal,
    nor do summaries that were joined."""
    held = kept(row)
    return [level for level in LEVELS if level not in held] + [CAUSAL] * (row.get(CAUSAL) == "no")


def is_unknown(summary: Row, level: str) -> bool:
    """Whether reglevel gave up before it knew. It never does but for causal."""
    return level == CAUSAL and summary.get(CAUSAL) == "unknown"


def levels_in(answer: Answer, level: str) -> Levels:
    """The report of a run that required a level. Raises ValueError if it can't be true."""
    levels = read_levels(answer.report)
    due = status_of(levels.summary, level)
    if answer.status != due:
        raise ValueError(f"its exit status is {answer.status}, and by its report {int(due)}")
    return levels


def status_of(summary: Row, level: str) -> ExitStatus:
    """How reglevel ends if the level is required."""
    if is_unknown(summary, level):
        return ExitStatus.UNKNOWN
    return ExitStatus.ATOMIC if level in kept(summary) else ExitStatus.NOT_ATOMIC


def strongest(levels: Iterable[str]) -> list[str]:
    """Those of some levels that no other of them implies."""
    implied = {weaker for level in levels for weaker in WEAKER.get(level, ())}
    return [level for level in levels if level not in implied]
