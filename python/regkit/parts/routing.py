"""Says in which part of a split history each line belongs, and which program the parts are for.

The calls of a register and all that ends them go to one part. That part has all that the checker needs to
judge them, but for what their processes do in other parts. If a process does there what makes its next line
wrong, the history is certain to be refused. That line is the last one: it goes to each part that has a reason
to refuse it, and no line after it counts. So a run over the parts finds the refusal that a run over the whole
history finds."""
import heapq
from array import array
from typing import Callable, NoReturn, Optional

from regkit.history.lines import BLANK
from regkit.parts.reading import ReadEvent, form_of, read_event


class CertainRefusal(Exception):
    """The history is refused for this line, if not for an earlier one. The line goes to these parts."""

    def __init__(self, *parts: "Part") -> None:
        super().__init__()
        self.parts = sorted(set(parts), key=lambda part: part.number)


class Part:
    """What goes to one part: of the latest lines which, and what they write."""

    __slots__ = ("number", "events", "lines", "put", "writes", "note")

    def __init__(self, number: int) -> None:
        self.number = number
        self.events = 0  # before the latest lines
        self.lines: list[int] = []  # of the latest lines, counted from 0
        self.writes = array("q")  # a hash of each register and value that is written
        self.put: Callable[[int], None] = self.lines.append
        self.note: Callable[[int], None] = self.writes.append

    @property
    def count(self) -> int:
        """Its events so far."""
        return self.events + len(self.lines)


class Router:
    """Sends each line to its part. It keeps the registers, the open calls and the crashed processes.

    Names, processes and values are kept as bytes, as they stand in most lines."""

    def __init__(self, parts: int) -> None:
        self.parts = [Part(number) for number in range(parts)]
        self.registers: dict[bytes, Part] = {}  # in the order of their first calls
        self.open: dict[bytes, Optional[Part]] = {}  # of each open call its part, None of a crashed process
        self.crashed: dict[bytes, Part] = {}
        self.lines = 0  # that were read
        self.is_searched = False  # whether only regsearch takes some line
        self._least = [(0, number) for number in range(parts)]

    def route(self, block: bytes) -> None:
        """Adds some whole lines to their parts. Raises CertainRefusal, and the line is in its parts then."""
        for part in self.parts:
            part.events += len(part.lines)
            part.lines.clear()
        first = self.lines
        try:
            self._walk(block)
        except CertainRefusal as refusal:
            for part in refusal.parts:
                part.put(self.lines - first - 1)
            raise

    def _walk(self, block: bytes) -> None:
        registers, busy = self.registers, self.open
        index = -1
        try:
            read = form_of(block, self.is_searched).findall(block)
            for index, (process, name, value, line) in enumerate(read):
                if line:
                    event = self._unusual(line)
                    if event is None:
                        continue
                    process, what, name, value, _ = event
                    if what == "crash":
                        self._crash(process).put(index)
                        continue
                if name:
                    part = registers.get(name) or self._add(name, process)
                    if value:
                        part.note(hash((name, value)))
                    if process in busy:
                        self._refuse_call(process, part)
                    busy[process] = part
                else:
                    part = busy.pop(process, None) or self._refuse_end(process)
                part.put(index)
        finally:
            self.lines += index + 1

    def _unusual(self, line: bytes) -> Optional[ReadEvent]:
        """The event of a line that hasn't the usual form, None if it is blank."""
        if not line.strip(BLANK + b"\n"):
            return None
        event = read_event(line)
        if event is None:
            raise CertainRefusal(self.parts[0])
        self.is_searched = self.is_searched or event.is_searched
        return event

    def _add(self, name: bytes, process: bytes) -> Part:
        """The part of a new register, if its first call isn't refused."""
        if process in self.open:
            self._refuse_call(process, None)
        part = self.registers[name] = self._emptiest()
        return part

    def _refuse_call(self, process: bytes, part: Optional[Part]) -> NoReturn:
        """Refuses a call of a process that has an open one, or has crashed. The part is that of its register,
        where the value may have been written before."""
        own = self.open[process]
        if own is not None:
            raise CertainRefusal(own)
        own = self.crashed[process]
        raise CertainRefusal(own, part or own)

    def _refuse_end(self, process: bytes) -> NoReturn:
        raise CertainRefusal(self.crashed.get(process, self.parts[0]))

    def _crash(self, process: bytes) -> Part:
        if process in self.crashed:
            raise CertainRefusal(self.crashed[process])
        part = self.open.get(process) or self._emptiest()
        self.crashed[process] = part
        self.open[process] = None
        return part

    def _emptiest(self) -> Part:
        """The part with the fewest events so far."""
        while True:  # counts only grow, so an old count at the top of the heap is brought up to date
            count, number = self._least[0]
            part = self.parts[number]
            if count == part.count:
                return part
            heapq.heapreplace(self._least, (part.count, number))
