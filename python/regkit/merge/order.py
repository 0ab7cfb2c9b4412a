"""The order of the merged history: it has no precedence that isn't certain.

Let E be the clock error, the largest difference between two of the clocks at any one moment of the run; and
let no clock go back. If one file has an event at time t, and another file one at time u, and t + E < u, then
the first happened before the second. For assume that it didn't: when the second happened, the first file's
clock said at most t, since it said t only later; so the second file's clock said at most t + E, and not u.

So it is certain that a reply came before a call

- of its own file, if its line is before the call's;
- of another file, if its time plus E is less than the call's.

The merged history is made from front to back:

1. A call is next once all replies are there that certainly came before it.
2. A reply is next once all calls are there that it didn't certainly come before.
3. If several events can be next, the one with the earliest time is.
4. If none can, the orders of two files contradict each other: no order of lines has both without a precedence
   that isn't certain. Then the call with the earliest time is next, before replies of its own file.

By 2, each precedence of the merged history is certain. By 1, it has all that are certain, but for those that
4 gives up: between a reply and a call of one file, within E of each other. (The earliest call waits for no
other file: a reply there that certainly came before it could be next, since the calls which that one waits
for would be earlier still. So it waits for a reply of its own file, at time t, and that one for a call of
another file, which is no later than t + E and no earlier than the earliest call.) With one file, or with
events far apart, nothing is given up, and each file keeps its order.

A fail and a crash aren't answers, so no precedence begins with them, and they wait for no other file.
"""
from typing import Iterator, NamedTuple, Optional, Sequence

from regkit.merge.recorded import RecordedEvent

NEVER = float("inf")


class Step(NamedTuple):
    """The next event of the merged history."""

    file: int
    event: RecordedEvent
    given_up: bool  # it is a call that comes before replies of its file that it should wait for


class Track:
    """What is still to come of one file: its calls in their order, and what ends them in theirs."""

    __slots__ = ("file", "events", "call", "call_time", "end", "end_time", "_calls", "_ends")

    def __init__(self, file: int, events: list[RecordedEvent]) -> None:
        self.file = file
        self.events = events
        self._calls = (place for place, event in enumerate(events) if event.what == "call")
        self._ends = (place for place, event in enumerate(events) if event.what != "call")
        self.call = self.end = -1  # the places of the next call and of the next ending
        self.call_time = self.end_time = NEVER
        self._pass_call()
        self._pass_end()

    def _pass_call(self) -> None:
        self.call = next(self._calls, len(self.events))
        self.call_time = self.events[self.call].time if self.call < len(self.events) else NEVER

    def _pass_end(self) -> None:
        self.end = next(self._ends, len(self.events))
        self.end_time = self.events[self.end].time if self.end < len(self.events) else NEVER

    def take_call(self) -> RecordedEvent:
        """Its next call, which is then no longer to come."""
        event = self.events[self.call]
        self._pass_call()
        return event

    def take_first(self) -> RecordedEvent:
        """Its next event, be it a call or an ending."""
        if self.call < self.end:
            return self.take_call()
        event = self.events[self.end]
        self._pass_end()
        return event

    def is_ready(self, other_call: float, other_end: float, error: int) -> bool:
        """Whether its first event can be next, if the other files' next call and ending have these times."""
        if self.call < self.end:
            return other_end + error >= self.call_time
        if self.end == len(self.events):
            return False
        return self.end_time + error < other_call or self.events[self.end].what != "reply"


def least_of_others(own: float, times: list[float]) -> float:
    """The least of some times, in order, without one file's own."""
    return times[1] if own == times[0] else times[0]


def first_ready(tracks: Sequence[Track], error: int) -> Optional[Track]:
    """The file whose event is next; None if the files contradict each other, or if nothing is left."""
    calls = sorted([NEVER, *[track.call_time for track in tracks]])
    ends = sorted([NEVER, *[track.end_time for track in tracks]])
    found, earliest = None, NEVER
    for track in tracks:
        time = track.call_time if track.call < track.end else track.end_time
        if time < earliest and track.is_ready(least_of_others(track.call_time, calls),
                                              least_of_others(track.end_time, ends), error):
            found, earliest = track, time
    return found


def in_order(files: Sequence[list[RecordedEvent]], error: int) -> Iterator[Step]:
    """The events of all files in the order of the merged history."""
    tracks = [Track(number, events) for number, events in enumerate(files)]
    while tracks:
        track = first_ready(tracks, error)
        if track is not None:
            yield Step(track.file, track.take_first(), False)
            continue
        track = min(tracks, key=lambda each: each.call_time)
        if track.call == len(track.events):
            return
        yield Step(track.file, track.take_call(), True)
