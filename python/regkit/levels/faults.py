"""Why a level wasn't kept, where no single old read shows it."""
from typing import Any, Iterator

from regkit.checker.report import Row
from regkit.explain.sentences import precedence, value_of
from regkit.levels.subject import Subject
from regkit.words.levels import WORDS
from regkit.words.phrases import counted
from regkit.words.quoting import quoted

MOST_STEPS = 4  # of a cycle that is told
SHOWN_BY = {"own_writes": "own", "monotonic": "back"}  # the count of the reads that show it by themselves
KEEP = ("doesn't keep", "don't keep")
VERBS = {"sequential": ("isn't", "aren't")}
LEVELS = ("session", "own_writes", "monotonic", "sequential")


def steps(subject: Subject, row: Row, fault: dict[str, Any]) -> list[str]:
    """The steps of a cycle, from the write that was called first: each has to come before the next, and the
    last before the first."""
    writes = [subject.operation(row, line) for line in fault["writes"]]
    if len(writes) > MOST_STEPS:
        return [f"{counted(len(writes), 'write')} would each have to come before the next, and the last "
                "before the first: reglevel's report names them"]
    said = []
    for (before, after), one, other in zip(fault["steps"], writes, [*writes[1:], writes[0]]):
        reason = precedence(subject.operation(row, before), subject.operation(row, after))
        said.append(f"{reason}, so {value_of(one)} comes before {value_of(other)}")
    first = writes.index(min(writes, key=lambda write: write.line))
    return said[first:] + said[:first]


def is_unexplained(row: Row, level: str) -> bool:
    """Whether a register doesn't keep a level for a cycle that no old read shows."""
    return row.get(f"{level}_fault", {}).get("kind") == "cycle" and not row.get(SHOWN_BY.get(level, ""), 0)


def unexplained(subject: Subject) -> Iterator[tuple[str, list[Row]]]:
    """The levels that some registers don't keep for such a cycle, each with these registers. A cycle is told
    once, for the first level that it breaks."""
    told = []
    for level in LEVELS:
        rows = [row for row in subject.levels.rows if is_unexplained(row, level)]
        if rows and rows[0][f"{level}_fault"] not in told:
            told.append(rows[0][f"{level}_fault"])
            yield level, rows


def lacking(level: str, rows: list[Row]) -> str:
    """Which registers don't keep a level: the first, and how many."""
    one, many = (f"{verb} {WORDS[level]}" for verb in VERBS.get(level, KEEP))
    first = quoted(rows[0]["register"])
    if len(rows) == 1:
        return f"register {first} {one}"
    return f"{len(rows):,} registers {many}. The first, {first}"


def faults(subject: Subject) -> list[str]:
    lines = []
    for level, rows in unexplained(subject):
        first, *others = steps(subject, rows[0], rows[0][f"{level}_fault"])
        lines += [f"{lacking(level, rows)}: {first}", *(f"  {other}" for other in others)]
    return lines
