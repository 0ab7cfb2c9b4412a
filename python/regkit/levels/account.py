"""What a run kept, as lines for people."""
from typing import Sequence

from regkit.checker.levels import CAUSAL, Levels, is_unknown, kept, lacking, strongest
from regkit.checker.report import Row
from regkit.levels.ages import gap_in_words
from regkit.levels.causal import UNKNOWN, causal_fault
from regkit.levels.counts import counts, uncounted
from regkit.levels.faults import faults
from regkit.levels.guesses import guess
from regkit.levels.subject import Subject
from regkit.words.levels import WORDS, in_words
from regkit.words.phrases import counted
from regkit.words.quoting import quoted

MOST_NAMED = 6  # registers


def below_title(summary: Row) -> str:
    """The levels that weren't kept, and how much there is of the history."""
    size = f"{counted(summary['operations'], 'operation')} on {counted(summary['registers'], 'register')}"
    if summary["atomic"] == "yes":
        return f"it keeps every level: {size}"
    unknown = "; causal is unknown" if is_unknown(summary, CAUSAL) else ""
    return f"not {in_words(lacking(summary), 'or')}{unknown}: {size}"


def heading(summary: Row) -> str:
    """The same, after the levels that were kept."""
    rest = below_title(summary)
    if summary["atomic"] == "yes":
        return f"linearizable, so {rest}"
    return f"keeps {in_words(strongest(kept(summary))) or 'no level'}; {rest}"


def some(registers: Sequence[str]) -> str:
    """The first few names, and how many more there are."""
    rest = len(registers) - MOST_NAMED
    return ", ".join(map(quoted, registers[:MOST_NAMED])) + (f", and {rest:,} more" if rest > 0 else "")


def groups(levels: Levels) -> list[str]:
    """The registers by the strongest levels that each kept. Empty if all kept the same."""
    found: dict[tuple[str, ...], list[str]] = {}
    for row in levels.rows:
        found.setdefault(tuple(strongest(kept(row))), []).append(row["register"])
    if len(found) < 2:
        return []
    lines = []
    for own, names in sorted(found.items(), key=lambda group: -len(group[1])):
        verb = "is" if len(names) == 1 else "are"
        what = f"kept {in_words(own)} at most" if own else "kept no level"
        what = f"{verb} linearizable" if "atomic" in own else what
        lines.append(f"{counted(len(names), 'register')} {what}: {some(names)}")
    return lines


def required(levels: Levels, level: str) -> str:
    """Whether the level that was asked for was kept, and which registers didn't keep it."""
    if is_unknown(levels.summary, level):
        return f"  required: {WORDS[level]}, which is unknown"
    if level in kept(levels.summary):
        return f"  required: {WORDS[level]}, and that holds"
    if level == CAUSAL:
        return f"  required: {WORDS[level]}, which doesn't hold"
    broken = [row["register"] for row in levels.rows if level not in kept(row)]
    return (f"  required: {WORDS[level]}, which doesn't hold of {len(broken):,} of "
            f"{counted(len(levels.rows), 'register')}: {some(broken)}")


def account(subject: Subject) -> list[str]:
    """All lines below the heading."""
    levels = subject.levels
    if levels.summary["atomic"] == "yes":
        return []
    lines = [*groups(levels), gap_in_words(subject), *uncounted(subject), *counts(subject), *faults(subject),
             *causal_fault(subject), UNKNOWN if is_unknown(levels.summary, CAUSAL) else "",
             guess(levels.summary)]
    return [f"  {line}" for line in lines if line]
