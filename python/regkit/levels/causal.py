"""Why a history isn't causal, as a story: who knew of what, and gave something else."""
from itertools import groupby
from typing import Any, NamedTuple, Optional, Sequence

from regkit.explain.sentences import lines_of, value_of
from regkit.history.operations import History, Operation
from regkit.history.who import process_of
from regkit.levels.subject import Subject
from regkit.words.phrases import counted
from regkit.words.quoting import quoted

Step = dict[str, Any]
KNOWN = ("process", "read")  # the steps by which one operation knows of another
MOST_PARTS = 4  # of a cycle that is told
MOST_SESSIONS = 6  # of a way that is told
NAMED = "reglevel's report names them"
UNKNOWN = ("causal is unknown: deciding it would take more memory or work than reglevel spends. It is "
           "decided for fewer sessions, or a shorter run")


class Part(NamedTuple):
    """Why an operation comes before another: this knew of it, or `read` knew of it and gave the other's value
    all the same, or it is what a register begins with."""

    before: Operation
    after: Operation
    way: Sequence[Operation]  # from the earlier one to what knew of it; empty if that isn't told
    read: Optional[Operation]

    @property
    def known(self) -> bool:
        return self.read is None and bool(self.way)


def ends_of(history: History, steps: Sequence[Step]) -> list[Operation]:
    """Where each step leads. Line 0 is what the register of the read begins with. Raises ValueError if the
    steps can't be of this history."""
    found = []
    for step in steps:
        register = history.by_line[step["read"]].register if step["why"] == "hidden" else ""
        if not step["to"] and not register:
            raise ValueError("a step to an initial write that no read gives")
        found.append(history.operation(register, step["to"]))
    return found


def steps_of(history: History, fault: dict[str, Any]) -> list[tuple[Operation, Operation, Step]]:
    """Each step with the operations from which and to which it leads. Raises ValueError if it can't be of
    this history."""
    steps = fault["steps"]
    ends = ends_of(history, steps)
    found = list(zip([ends[-1], *ends], ends, steps))
    for before, after, step in found:
        if step["from"] != before.line or not holds(history, before, after, step):
            raise ValueError(f"the step from line {before.line} to line {after.line}")
    return found


def holds(history: History, before: Operation, after: Operation, step: Step) -> bool:
    """Whether the history bears a step out, as far as can be seen at once."""
    why = step["why"]
    if why == "process":
        return before.process == after.process and before.line < after.line
    if why == "initial":
        return before.line == 0
    read = history.by_line[step["read"]] if why == "hidden" else after
    source = after if why == "hidden" else before
    is_source = read.kind == "read" and source.kind == "write" and read.value == source.value
    return is_source and read.register == source.register and before.register == read.register


def way_of(history: History, before: Operation, step: Step) -> list[Operation]:
    """How a read knew of an operation, if the report tells it."""
    return [before, *(history.by_line[line] for line in step["knew"][1:])] if "knew" in step else []


def parts_of(history: History, fault: dict[str, Any]) -> list[Part]:
    """The steps of a cycle, but those by which one knows of another together. It begins with a read that knew
    of what it didn't give, if there is one."""
    parts: list[Part] = []
    for before, after, step in steps_of(history, fault):
        if step["why"] not in KNOWN:
            read = history.by_line[step["read"]] if step["why"] == "hidden" else None
            parts.append(Part(before, after, way_of(history, before, step), read))
        elif parts and parts[-1].known:
            parts[-1] = parts[-1]._replace(after=after, way=[*parts[-1].way, after])
        else:
            parts.append(Part(before, after, [before, after], None))
    if len(parts) > 1 and parts[0].known and parts[-1].known:
        last = parts.pop()
        parts[0] = parts[0]._replace(before=last.before, way=[*last.way, *parts[0].way[1:]])
    first = next((place for place, part in enumerate(parts) if part.read is not None), 0)
    return parts[first:] + parts[:first]


def sessions_of(way: Sequence[Operation]) -> list[list[Operation]]:
    """The operations of a way, those of one process together."""
    return [list(own) for _, own in groupby(way, key=lambda call: call.process)]


class Teller:
    """Puts parts into words, with the registers if there are several."""

    def __init__(self, subject: Subject) -> None:
        self.with_registers = len(subject.levels.rows) > 1

    def who(self, call: Operation) -> str:
        """`process 1`, or `process 1, client ann,`."""
        said = process_of(call)
        return f"{said}," if "," in said else said

    def value(self, call: Operation) -> str:
        """`1 in "x"`."""
        return value_of(call) + (f" in {quoted(call.register)}" if self.with_registers else "")

    def did(self, call: Operation) -> str:
        """`read 1 from "x" (lines 3 to 4)`."""
        verb, into = ("read", "from") if call.kind == "read" else ("wrote", "to")
        where = f" {into} {quoted(call.register)}" if self.with_registers else ""
        return f"{verb} {value_of(call)}{where} ({lines_of(call)})"

    def session(self, own: Sequence[Operation], heard: bool = False) -> str:
        """What a process did first, and what last. What it heard is what the words before were about."""
        first, last = own[0], own[-1]
        if first.process is None:
            return f"{self.value(first)} was there from the beginning"
        said = f"read that ({lines_of(first)})" if heard else self.did(first)
        return f"{self.who(first)} {said}" + (f", and later {self.did(last)}" if last is not first else "")

    def way(self, way: Sequence[Operation]) -> str:
        """Each process, by what it knew and what it told the next."""
        sessions = sessions_of(way)
        if len(sessions) > MOST_SESSIONS:
            return f"by a way of {counted(len(way), 'operation')}: {NAMED}"
        return "; ".join(self.session(own, heard=number > 0) for number, own in enumerate(sessions))

    def hidden(self, part: Part) -> list[str]:
        """A read that knew of a write and gave another value: the session that read, and how it knew."""
        read, newer = part.read, part.before
        assert read is not None
        own = sessions_of(part.way)[-1] if part.way else []
        begin = own[0] if len(own) > 1 else None
        after = (f", so {self.value(newer)} comes before {self.value(part.after)}" if part.after.line else "")
        if begin is None:
            knew = f"though it knew of {self.value(newer)} ({lines_of(newer)})" if newer.line else ""
            said = f"{self.who(read)} {self.did(read)}" + (f", {knew}" if knew else "")
            return [said + after, *self.how(part.way[:-1])]
        told = f"{self.who(begin)} {self.did(begin)}"
        if (begin.register, begin.value) == (newer.register, newer.value):
            return [f"{told}, and later {self.did(read)}{after}"]
        knew = f"so it knew of {self.value(newer)} ({lines_of(newer)})"
        return [f"{told}, {knew}, and later {self.did(read)}{after}", *self.how(part.way[:-len(own)])]

    def how(self, way: Sequence[Operation]) -> list[str]:
        return [f"how it knew: {self.way(way)}"] if len(way) > 1 else []

    def round(self, part: Part) -> list[str]:
        """A way that leads back to where it begins."""
        way = part.way[:-1]
        first = next(place for place, call in enumerate(way) if call.process != way[place - 1].process
                     or call.kind == "read")
        turned = [*way[first:], *way[:first]]
        return [f"{self.way(turned)}, which is what was read first"]

    def part(self, part: Part) -> list[str]:
        if part.read is not None:
            return self.hidden(part)
        if not part.way:
            return [f"{self.value(part.before)} comes before all that is written there"]
        if part.before is part.after:
            return self.round(part)
        return [f"{self.way(part.way)}, so {self.value(part.before)} comes before {self.value(part.after)}"]


def told_parts(subject: Subject, fault: dict[str, Any]) -> list[str]:
    parts, teller = parts_of(subject.history, fault), Teller(subject)
    if len(parts) > MOST_PARTS:
        return [f"{counted(len(fault['steps']), 'operation')} would each have to come before the next, and "
                f"the last before the first: {NAMED}"]
    told = [part for part in parts if part.way or part.read is not None]  # that null is first needs no words
    return [line for part in told for line in teller.part(part)]


def causal_fault(subject: Subject) -> list[str]:
    """Why the history isn't causal, unless it has one register: then it isn't sequential, and that is told. A
    value that nobody wrote is told with the counts."""
    fault = subject.levels.summary.get("causal_fault", {})
    if fault.get("kind") != "cycle" or len(subject.levels.rows) < 2:
        return []
    first, *others = told_parts(subject, fault)
    return [f"the history isn't causal: {first}", *(f"  {other}" for other in others)]
