"""What is too large for one run of the checker: a part, or a register by itself."""
from typing import NamedTuple, Sequence

from regkit.base.limits import MAX_BYTES, MAX_EVENTS
from regkit.parts.blocks import blocks_of
from regkit.parts.folder import MAP, MAX_PARTS, LineMap
from regkit.parts.routing import Part, Router
from regkit.parts.writing import PartWriter, Plan
from regkit.words.quoting import quoted


class CannotSplit(Exception):
    """No parts within the checker's limits: what is too large, and what to do."""


class RegisterTooLarge(Exception):
    """A register is past a limit by itself."""

    def __init__(self, name: bytes, line: int, limit: str) -> None:
        super().__init__(name)
        self.name = name.decode("utf-8")
        self.line = line  # of the part, with which the register passes the limit
        self.limit = limit


class Size(NamedTuple):
    events: int
    bytes: int


class SizeWatch:
    """Looks for a register that is past a limit by itself.

    Only a part that is past it can have one. The part isn't looked at again before it has grown by as much as
    its largest register needs for that."""

    def __init__(self, router: Router, writers: Sequence[PartWriter]) -> None:
        self.router = router
        self.writers = writers
        self.next_look = [Size(MAX_EVENTS, MAX_BYTES)] * len(writers)

    def look(self) -> None:
        """Raises CannotSplit."""
        for part, writer, (events, size) in zip(self.router.parts, self.writers, self.next_look):
            if part.count > events or writer.own > size:
                self._look_at(part, writer)

    def _look_at(self, part: Part, writer: PartWriter) -> None:
        writer.flush()
        owners = [*self.router.registers.values(), *self.router.crashed.values()]
        try:
            largest = largest_register(writer, sum(owner is part for owner in owners))
        except RegisterTooLarge as register:
            line = LineMap(writer.map)(register.line) if writer.by_map else register.line
            name, before = quoted(register.name), line - 1
            raise CannotSplit(
                f"line {line}: register {name} has more than {register.limit} of its own, and no register is "
                f"split. The {before} lines before can be split and checked (head -n {before}): if they "
                "aren't linearizable, the whole history isn't; if they are, that says nothing of the rest. "
                "In the next run, record fewer operations on each register") from None
        self.next_look[part.number] = Size(part.count + MAX_EVENTS - largest.events,
                                           writer.own + MAX_BYTES - largest.bytes)


def largest_register(writer: PartWriter, most: int) -> Size:
    """The most events and the most bytes of a register of a part. Raises RegisterTooLarge.

    The part is split once more, into as many as it can have registers, so that each has one of its own."""
    router, sizes = Router(most), [0] * most
    with open(writer.history, "rb") as history:
        for block in blocks_of(history):
            weigh(block, router, sizes)
    return Size(max(part.count for part in router.parts), max(sizes))


def weigh(block: bytes, router: Router, sizes: list[int]) -> None:
    """Adds some lines, by register. Raises RegisterTooLarge."""
    first = router.lines + 1
    router.route(block)
    lines = block.split(b"\n")
    for part in router.parts:
        for events, index in enumerate(part.lines, part.events + 1):
            sizes[part.number] += len(lines[index]) + 1
            if events > MAX_EVENTS or sizes[part.number] > MAX_BYTES:
                name = next(name for name, own in router.registers.items() if own is part)
                limit = f"{MAX_EVENTS} events" if events > MAX_EVENTS else f"{MAX_BYTES} bytes"
                raise RegisterTooLarge(name, first + index, limit)


def check_parts(plan: Plan, router: Router, writers: Sequence[PartWriter]) -> None:
    """Raises CannotSplit if the checker would refuse a part for its size."""
    most_events = max(part.count for part in router.parts)
    most_bytes = max(writer.size for writer in writers)
    ratio = max(most_events / MAX_EVENTS, most_bytes / MAX_BYTES)
    if ratio <= 1:
        return
    size = f"{most_events} events" if most_events > MAX_EVENTS else f"{most_bytes} bytes"
    advice = f"try --parts {min(MAX_PARTS, int(plan.parts * ratio * 1.2) + 1)}"
    if plan.lines != MAP:
        advice += ", or --lines map, which spares the blank lines"
    limits = f"{MAX_EVENTS} events and {MAX_BYTES} bytes"
    raise CannotSplit(f"a part has {size}, and one run takes {limits}: {advice}")
