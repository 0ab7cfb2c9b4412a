"""The old reads and the missed writes of a run: how many there are of each kind, and the first in words."""
from typing import NamedTuple

from regkit.checker.report import Row
from regkit.explain.sentences import early, named, unwritten
from regkit.history.operations import Operation
from regkit.levels.ages import ages_in_words, stale_ages
from regkit.levels.shares import shares_in_words
from regkit.levels.subject import Subject
from regkit.words.phrases import counted
from regkit.words.quoting import quoted


class Kind(NamedTuple):
    """A kind of old reads."""

    number: str  # the key of how many there are
    first: str  # and that of the first of them
    none: str
    one: str
    many: str


KINDS = [
    Kind("stale", "stale_read", "no read was stale", "was stale: a newer write had ended before it began",
         "were stale: a newer write had ended before they began"),
    Kind("own", "own_read", "no session missed a write of its own", "missed a write of its own session",
         "missed a write of their own session"),
    Kind("back", "back_read", "no session went back to an older value",
         "went back to an older value than its session had read",
         "went back to an older value than their session had read"),
    Kind("inverted", "inverted_read", "no read gave an older value than an earlier read",
         "gave an older value than a read that had ended before it began",
         "gave an older value than a read that had ended before they began"),
]
SETTLE = "let clients read once more after the run has settled, or a write that is only late counts too"


def of_register(subject: Subject, row: Row) -> str:
    """Which register is meant, where there are several."""
    return f' of register {quoted(row["register"])}' if len(subject.levels.rows) > 1 else ""


def before_that(seen: Operation) -> str:
    """What shows that the value of an old read is older. Of what each register begins with it goes without
    saying."""
    return f", and {named(seen)} had ended before that write began" if seen.line else ""


def first_in_words(subject: Subject, kind: Kind) -> str:
    """The first read of a kind, and what it shows to be old."""
    row = subject.first(kind.first)
    old = row[kind.first]
    read, newer, seen = (subject.operation(row, old[key]) for key in ("read", "newer", "seen"))
    if "earlier" in old:
        earlier = subject.operation(row, old["earlier"])
        after = f"{named(read)}, after {named(earlier)}; {named(newer)} wrote the newer value"
    else:
        after = f"{named(read)}, after {named(newer)}"
    return f"the first{of_register(subject, row)}: {after}{before_that(seen)}"


def stale_in_words(subject: Subject) -> list[str]:
    """Below their number, how old the stale reads were, and whose they are."""
    return [f"  {line}" for line in (ages_in_words(stale_ages(subject)), *shares_in_words(subject))]


def old_reads(subject: Subject) -> list[str]:
    """The kinds of which there are some, with lines below their numbers that are indented."""
    lines = []
    for kind in KINDS:
        number = subject.levels.summary[kind.number]
        if not number:
            continue
        reads, all_reads = counted(number, "read"), subject.levels.summary["reads"]
        if kind.number == "stale":
            reads = f"{number:,} of {counted(all_reads, 'read')} ({number / all_reads:.1%})"
        lines += [f"{reads} {kind.one if number == 1 else kind.many}", f"  {first_in_words(subject, kind)}"]
        lines += stale_in_words(subject) if kind.number == "stale" else []
    return lines


def lost_writes(subject: Subject) -> list[str]:
    """Those that all later reads missed. One that vanished isn't among them once a newer one is read."""
    number = subject.levels.summary["lost"]
    if not number:
        return []
    rows = [row for row in subject.levels.rows if "lost_write" in row]
    row = min(rows, key=lambda row: int(row["lost_write"]))
    missed = "was missed: after it" if number == 1 else "were missed: after each"
    return [f"{counted(number, 'acknowledged write')} {missed} had ended, all reads gave something older",
            f"  the first{of_register(subject, row)}: {named(subject.operation(row, row['lost_write']))}",
            f"  {SETTLE}"]


def counts(subject: Subject) -> list[str]:
    """All that was counted; nothing if no register's reads were. A line says what there was none of."""
    if all("stale" not in row for row in subject.levels.rows):
        return []
    summary = subject.levels.summary
    none = [kind.none for kind in KINDS if not summary[kind.number]]
    none += [] if summary["lost"] else ["no acknowledged write was missed by all later reads"]
    return [*old_reads(subject), *lost_writes(subject), *(["; ".join(none)] if none else [])]


def uncounted(subject: Subject) -> list[str]:
    """The registers whose reads can't be counted, and the first of them."""
    number = subject.levels.summary.get("unclean", 0)
    if not number:
        return []
    row = next(row for row in subject.levels.rows if "unwritten" in row or "early" in row)
    if "unwritten" in row:
        sentences = unwritten(subject.history, subject.operation(row, row["unwritten"]))
    else:
        sentences = early(*(subject.operation(row, row["early"][key]) for key in ("read", "write")))
    where = "there" if number == 1 else "in each"
    return [f"the reads of {counted(number, 'register')} aren't counted: {where} a value was read that "
            "nobody had written yet", f"  the first{of_register(subject, row)}: {sentences[0]}",
            *(f"  {each}" for each in sentences[1:])]
