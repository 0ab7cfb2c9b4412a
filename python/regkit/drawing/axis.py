"""Where each line of the history stands on a picture. The axis has a step for each event of the register;
a step is wider where a label needs the room, so that every label fits into its bar."""
from bisect import bisect_left, bisect_right
from typing import NamedTuple, Optional

from regkit.drawing.bars import Bar

STEP = 15.0  # the least way between two events, if the picture is full
LIP = 22.0  # from the last event of a window to the gap
GAP = 54.0  # the least width of a gap
DIGIT = 6.2  # the width of a digit of the axis


class Gap(NamedTuple):
    """Where events are left out between two windows."""

    left: float
    right: float
    events: int


class Axis:
    """Places of lines. It is built from left to right."""

    def __init__(self) -> None:
        self.lines: list[int] = []
        self.places: dict[int, float] = {}
        self.gaps: dict[int, Gap] = {}  # by how many lines stand before it
        self.right = 0.0

    @property
    def left(self) -> float:
        return 0.0

    def begin_at(self, line: int) -> float:
        """Where a bar begins that began at a line. If that line is left out, the bar comes out of a gap."""
        if line in self.places:
            return self.places[line]
        index = bisect_left(self.lines, line)
        return self.gaps[index].right if index in self.gaps else self.left

    def end_at(self, line: Optional[int]) -> float:
        """Where a bar ends that ended at a line, or never."""
        if line is None:
            return self.right
        if line in self.places:
            return self.places[line]
        index = bisect_left(self.lines, line)
        return self.gaps[index].left if index in self.gaps else self.right

    def has(self, line: Optional[int]) -> bool:
        return line in self.places

    def step_behind(self, line: int) -> float:
        """The way from an event to whatever comes next."""
        index = bisect_right(self.lines, line)
        if index in self.gaps:
            return self.gaps[index].left - self.places[line]
        following = self.places[self.lines[index]] if index < len(self.lines) else self.right
        return following - self.places[line]

    def between(self, line: int) -> Optional[float]:
        """The place of a line that is no event of this register, if it isn't in a gap."""
        if line in self.places:
            return None
        index = bisect_left(self.lines, line)
        if index == 0 or index == len(self.lines) or index in self.gaps:
            return None
        return (self.places[self.lines[index - 1]] + self.places[self.lines[index]]) / 2


class Spreader:
    """Builds an axis: each event as far left as the labels before it allow."""

    def __init__(self, bar_at: dict[int, Bar], room: dict[int, float], step: float) -> None:
        self.axis = Axis()
        self.bar_at = bar_at  # by the lines of its call and of its end
        self.room = room  # line -> the least way to what follows it
        self.step = step
        self.open: list[Bar] = []  # those that began in this window
        self.next = LIP  # where the next event can stand at the earliest

    def add_window(self, lines: list[int]) -> None:
        for line in lines:
            bar, place = self.bar_at[line], self.next
            if line != bar.begin:
                place = max(place, self.axis.begin_at(bar.begin) + bar.width)
            else:
                self.open.append(bar)
            self.axis.places[line] = place
            self.axis.lines.append(line)
            self.next = place + max(self.step, self.room.get(line, 0.0))
            self.axis.right = place

    def close_window(self) -> float:
        """The place at the right of a window up to which all bars that go on have room for their labels."""
        last = self.axis.lines[-1]
        place = max(self.axis.right + LIP, self.next - self.step + LIP)
        for bar in self.open:
            if bar.end is None or bar.end > last:
                place = max(place, self.axis.begin_at(bar.begin) + bar.width)
        self.open = []
        return place

    def add_gap(self, events: int) -> None:
        left = self.close_window()
        right = left + max(GAP, DIGIT * len(f"{events:,}") + 4)
        self.axis.gaps[len(self.axis.lines)] = Gap(left, right, events)
        self.next = right + LIP


class Stretch(NamedTuple):
    """How wide the axis is where no label asks for more."""

    room: dict[int, float]  # line -> the least way to what follows it
    step: float = STEP


def spread(windows: list[list[int]], left_out: list[int], bar_at: dict[int, Bar], stretch: Stretch) -> Axis:
    """The axis of some windows of lines, with the counts of events that are left out between them."""
    spreader = Spreader(bar_at, stretch.room, stretch.step)
    for number, window in enumerate(windows):
        if number:
            spreader.add_gap(left_out[number - 1])
        spreader.add_window(window)
    spreader.axis.right = spreader.close_window()
    return spreader.axis
