"""Which lane each bar lies in: that of its process, as long as they are few; else the first that is free."""
from typing import NamedTuple, Optional

from regkit.drawing.axis import Axis
from regkit.drawing.bars import Bar

MOST_PROCESSES = 8  # with a lane each; more share lanes
MOST_LANES = 24
SPACE = 5.0  # between two bars of a lane
Span = tuple[float, float]


class Lanes(NamedTuple):
    """The lane of each bar that is drawn, by the line of its call."""

    lane_of: dict[int, int]
    size: int  # how many lanes
    labels: list[str]  # of the lanes, if they belong to processes
    details: list[str]  # below the labels: the client and the node
    crowded_out: int  # bars for which there was no lane


def lanes_of_processes(bars: list[Bar], processes: list[int], details: dict[int, str]) -> Lanes:
    """A lane for each process, by their numbers, below one for the initial write."""
    initial = any(bar.operation.process is None for bar in bars)
    lane = {process: number + initial for number, process in enumerate(sorted(processes))}
    labels = ["initially"] * initial + [f"process {process}" for process in lane]
    calls = [(bar.begin, bar.operation.process) for bar in bars]
    lane_of = {begin: 0 if process is None else lane[process] for begin, process in calls}
    below = [""] * initial + [details.get(process, "") for process in lane]
    return Lanes(lane_of, len(labels), labels, below, 0)


def urgency(bar: Bar, axis: Axis) -> tuple[int, int]:
    """What the picture points at is packed first, so that it lies at the top; then the calls with an event
    in a window; then those that were open through one, and of these last the ones that were never
    answered."""
    if bar.operation.process is None:
        return 0, bar.begin
    if bar.strong:
        return 1, bar.begin
    if axis.has(bar.begin) or axis.has(bar.operation.end_line):
        return (2 if bar.signs else 3), bar.begin
    if bar.end is not None:
        return (4 if bar.signs else 5), bar.begin
    return (6 if bar.operation.writes else 7), -bar.begin


def packed(bars: list[Bar], axis: Axis) -> Lanes:
    """Each bar in the first lane where it overlaps no other."""
    taken: list[list[Span]] = []
    lane_of: dict[int, int] = {}
    for bar in sorted(bars, key=lambda bar: urgency(bar, axis)):
        most = len(bars) if bar.strong else MOST_LANES  # an arrow may lead to one that is strong
        lane = free_lane(taken, (axis.begin_at(bar.begin), axis.end_at(bar.end)), most)
        if lane is not None:
            lane_of[bar.begin] = lane
    return Lanes(lane_of, len(taken), [], [], len(bars) - len(lane_of))


def free_lane(taken: list[list[Span]], span: Span, most: int) -> Optional[int]:
    """Takes the first lane that has room, or a new one; None if there are too many."""
    begin, end = span
    for lane, spans in enumerate(taken):
        if all(end + SPACE <= other[0] or other[1] + SPACE <= begin for other in spans):
            spans.append(span)
            return lane
    if len(taken) >= most:
        return None
    taken.append([span])
    return len(taken) - 1
