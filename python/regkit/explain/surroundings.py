"""What is around a read that can't be explained: what it contradicts, and who was there at the same time."""
from typing import NamedTuple, Optional

from regkit.explain.sentences import named, value_of
from regkit.explain.unexplained import Unexplained
from regkit.history.operations import Operation

FOREVER = float("inf")
# What a bystander may be, the likeliest culprit first. What lingers is a write from before all this.
SUSPECT, OWN, ACROSS, OVERLAPS, FAILED, LINGERS = range(6)


class Bystander(NamedTuple):
    """A call that was open at the same time as an operation of the contradiction, and isn't one of them.
    The write of a value of the contradiction may be one (OWN)."""

    call: Operation
    rank: int
    beside: Operation  # the operation of the contradiction that it overlaps


class Surroundings(NamedTuple):
    """What happened around a read that can't be explained."""

    told: Unexplained
    actors: list[Operation]  # the operations of the contradiction, by line
    bystanders: list[Bystander]  # the likeliest culprit first


def end_of(call: Operation) -> float:
    """The line at which a call ended. A pending one never did, as it may take effect at any time."""
    return FOREVER if call.pending or call.end_line is None else call.end_line


def overlap(one: Operation, other: Operation) -> bool:
    return one.line < end_of(other) and other.line < end_of(one)


def is_across(call: Operation, write: Operation) -> bool:
    """Whether the call began before the write and ended after it."""
    return call.line < write.line and end_of(write) < end_of(call)


def actors_of(told: Unexplained) -> list[Operation]:
    """The operations of the contradiction, each once."""
    found = {told.read.line: told.read}
    for pair in told.pairs:
        found.update((operation.line, operation) for operation in pair)
    if told.kind == "early" and told.write is not None:
        found[told.write.line] = told.write
    return [found[line] for line in sorted(found)]


def writes_of(told: Unexplained) -> list[Operation]:
    """The writes of its values that have a line."""
    return [write for write in (told.write, told.other) if write is not None and write.line]


def overwriting(told: Unexplained) -> Optional[Operation]:
    """The write that ended before the read's reply, and that the read ignored, if there is one."""
    other = told.other
    return other if other is not None and other.line and end_of(other) < end_of(told.read) else None


def rank_of(told: Unexplained, call: Operation, began: int) -> int:
    """What a call may be, if the contradiction began at some line."""
    if call.failed:
        return FAILED
    if any(call is write for write in writes_of(told)):
        return OWN
    if call.kind == "write" and call.pending and call.line < began:
        return LINGERS
    write = overwriting(told)
    may_be_old = call.kind == "read" and (call.pending or call.value == told.read.value)
    if write is not None and may_be_old and overlap(call, write) and end_of(write) < end_of(call):
        return SUSPECT
    return ACROSS if any(is_across(call, write) for write in writes_of(told)) else OVERLAPS


def find_surroundings(told: Unexplained, calls: list[Operation]) -> Surroundings:
    """Who else was there, among the calls of the register. What was called when all was over wasn't."""
    actors = actors_of(told)
    lines = {actor.line for actor in actors}
    began, over = min(lines - {0}), max(end_of(told.read), *lines)
    bystanders = []
    for call in calls:
        if call.line in lines or call.line > over:
            continue
        beside = next((actor for actor in reversed(actors) if overlap(call, actor)), None)
        if beside is not None:
            bystanders.append(Bystander(call, rank_of(told, call, began), beside))
    bystanders.sort(key=lambda each: (each.rank, -each.call.line if each.rank == LINGERS else each.call.line))
    return Surroundings(told, actors, bystanders)


def acrossed(told: Unexplained, call: Operation) -> Operation:
    """The write that the call was open across, the later one if there are two."""
    return max((write for write in writes_of(told) if is_across(call, write)), key=lambda write: write.line)


def role_of(around: Surroundings, bystander: Bystander) -> str:
    """What a bystander may have had to do with it, in a sentence."""
    call = bystander.call
    if bystander.rank == SUSPECT:
        write = overwriting(around.told)
        assert write is not None
        gave = "was never answered" if call.pending else f"gave {value_of(call)} too"
        return (f"{named(call)} was open when the write of {value_of(write)} ended, and {gave}: "
                f"it may have put {value_of(around.told.read)} back")
    if bystander.rank == ACROSS:
        return f"{named(call)} was open across {named(acrossed(around.told, call))}"
    return f"{named(call)} overlaps {named(bystander.beside)}"
