"""Operations with the times of their calls and replies: the one place where times become an order of lines.

The rule: one operation precedes another in the history exactly if its end, made later by the clock error, is
before the other's start, made earlier by it. So at one time the calls come before the endings.

Even for the operations of one client, an order of lines can do no better at a tie. Let A end when B starts,
of one client, and C end when D starts, of another, all at one time. An order with A's end before B's call and
C's end before D's call has A's end before D's call too, or C's end before B's call, which the source doesn't
say.
"""
from typing import Any, NamedTuple, Optional

from regkit.convert.clock import Clock, DurationUnit, Time
from regkit.convert.model import Choices, Refused, Source, SourceOperation
from regkit.words.phrases import counted


class Times(NamedTuple):
    """When an operation started and ended, as its source has it: two of these, and what they are called."""

    start: Any
    end: Any
    duration: Any
    names: tuple[str, ...]


class TimedOperations:
    """Operations as they are read, with their times."""

    def __init__(self) -> None:
        self.clock = Clock()
        self.operations: list[SourceOperation] = []
        self.starts: list[Time] = []
        self.ends: list[Time] = []
        self.ended: list[SourceOperation] = []  # the operations of `ends`

    def add(self, operation: SourceOperation, start: Any, end: Optional[Any], names: tuple[str, str]) -> None:
        """Adds an operation. One that failed at no known time ends as it starts, since it had no effect."""
        began = self.clock.read(start, operation.line, names[0])
        is_timed = end is not None and operation.ending is not None
        self._add(operation, began, self.clock.read(end, operation.line, names[1]) if is_timed else None)

    def add_times(self, operation: SourceOperation, times: Times, choices: Choices) -> None:
        """Adds an operation that may have a duration in place of a start or an end."""
        line, (start_name, end_name, name) = operation.line, times.names
        if times.start is None and (times.end is None or times.duration is None):
            raise Refused(f"the operation has no {start_name}, so nobody knows when it began", line)
        if times.duration is None or (times.start is not None and times.end is not None):
            self.add(operation, times.start, times.end, (start_name, end_name))
            return
        known = times.start if times.end is None else times.end
        time = self.clock.read(known, line, start_name if times.end is None else end_name)
        lasted = self.clock.duration(times.duration, DurationUnit(name, choices.duration_unit,
                                                                  choices.clock_unit), line)
        if times.end is None:
            self._add(operation, time, self.clock.sum(time, lasted))
        else:
            self._add(operation, self.clock.sum(time, lasted._replace(digits=-lasted.digits)), time)

    def _add(self, operation: SourceOperation, began: Time, ended: Optional[Time]) -> None:
        self.operations.append(operation)
        self.starts.append(began)
        if operation.ending is None:
            return
        self.ends.append(began if ended is None else ended)
        self.ended.append(operation)
        operation.end_line = operation.line

    def source(self, choices: Choices) -> Source:
        """The operations in order. Raises Refused, and WrongWords if the clock error can't be told."""
        self._say_when(choices.clock_unit)
        error_time = self.clock.error(choices.clock_error, choices.clock_unit)
        error, = self.clock.scaled([error_time])
        starts, ends = self.clock.scaled(self.starts), self.clock.scaled(self.ends)
        self._refuse_backward(starts, ends)
        # A call's key is even and an ending's odd, so that at one time all calls come first.
        keys = [2 * (start - error) for start in starts] + [2 * (end + error) + 1 for end in ends]
        steps = self.operations + self.ended
        source = Source([steps[place] for place in sorted(range(len(keys)), key=keys.__getitem__)])
        ties = len(set(keys[:len(starts)]) & {key - 1 for key in keys[len(starts):]})
        if ties:
            source.notes.append(f"put calls before replies at {counted(ties, 'time stamp')} that both have: "
                                "those operations overlap")
        return source

    def _say_when(self, unit: Optional[str]) -> None:
        for operation, time in zip(self.operations, self.starts):
            operation.time = self.clock.nanoseconds(time, unit)
        for operation, time in zip(self.ended, self.ends):
            operation.end_time = self.clock.nanoseconds(time, unit)

    def _refuse_backward(self, starts: list[int], ends: list[int]) -> None:
        start_of = dict(zip(self.operations, starts))
        for operation, end in zip(self.ended, ends):
            if end < start_of[operation]:
                raise Refused("the operation ends before it starts: are the columns of start and end right, "
                              "and both times of one clock?", operation.line)
