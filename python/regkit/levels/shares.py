"""Whose reads were stale: by client, and by the node that answered, where the lines name them."""
from collections import Counter
from typing import Optional

from regkit.history.operations import Operation
from regkit.history.who import in_words
from regkit.levels.subject import Subject

MOST = 6  # clients, or nodes, that are named
LONGEST = 40  # characters of a name
Name = Optional[str]


def name_of(operation: Operation, what: str) -> Name:
    return operation.client if what == "client" else operation.node


def share(name: str, what: str, stale: int, reads: int) -> str:
    """`client worker-3 12 of 40`."""
    shown = in_words(name if what == "client" else None, name if what == "node" else None, LONGEST)[0]
    return f"{shown} {stale:,} of {reads:,}"


def shares_of(subject: Subject, what: str) -> str:
    """The names with most stale reads. Empty unless there are several names."""
    reads: Counter[str] = Counter()
    stale: Counter[str] = Counter()
    for row in subject.levels.rows:
        for call in subject.history.registers[row["register"]]:
            name = name_of(call, what)
            if call.kind == "read" and call.completed and name is not None:
                reads[name] += 1
        for line, _ in row.get("stale_reads", ()):
            name = name_of(subject.operation(row, line), what)
            if name is not None:
                stale[name] += 1
    if len(reads) < 2:
        return ""
    worst = sorted(reads, key=lambda name: (-stale[name], name))
    said = [share(name, what, stale[name], reads[name]) for name in worst[:MOST]]
    rest = len(worst) - MOST
    more = f", and {rest:,} more" if rest > 0 else ""
    return f"stale reads: {', '.join(said)}{more}"


def shares_in_words(subject: Subject) -> list[str]:
    return list(filter(None, (shares_of(subject, what) for what in ("client", "node"))))
