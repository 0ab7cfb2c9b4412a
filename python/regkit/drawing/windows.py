"""Which events of a register are drawn: of a long history, windows around what the picture points at."""
from bisect import bisect_left
from typing import Iterable

SHORT_GAP = 3  # events; a gap of no more isn't left, since it would take as much room
Window = tuple[int, int]  # places of events: the first, and one after the last


def windows_around(events: list[int], lines: Iterable[int], context: int) -> list[Window]:
    """The events at the given lines, each with `context` others before and after it."""
    found: list[Window] = []
    for line in sorted(set(lines)):
        place = bisect_left(events, line)
        begin, end = max(0, place - context), min(len(events), place + context + 1)
        if begin <= SHORT_GAP:
            begin = 0
        if end >= len(events) - SHORT_GAP:
            end = len(events)
        if found and begin <= found[-1][1] + SHORT_GAP:
            found[-1] = (found[-1][0], max(end, found[-1][1]))
        elif begin < end:
            found.append((begin, end))
    return found


def count_left_out(windows: list[Window], events: int) -> int:
    """How many events are in no window."""
    return events - sum(end - begin for begin, end in windows)
