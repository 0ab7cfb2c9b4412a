"""What is in one picture, and where: the windows that fit the page, their calls as bars, the axis and the
lanes."""
from bisect import bisect_left, bisect_right
from collections import Counter
from typing import Iterable, NamedTuple

from regkit.drawing.axis import DIGIT, STEP, Axis, Stretch, spread
from regkit.drawing.bars import INITIAL_CALL, Bar, bar_of
from regkit.drawing.lanes import MOST_PROCESSES, Lanes, lanes_of_processes, packed
from regkit.drawing.marks import Marks, foot_of
from regkit.drawing.windows import Window, count_left_out, windows_around
from regkit.history.operations import Operation
from regkit.history.who import shared

MOST_CONTEXT = 30  # events on either side of each that matters, if they fit
WIDEST_STEP = 36  # between two events, if the page has room
ARROW_ROOM = 46.0  # so that an arrow's number and its head fit between two events
POINT_ROOM = 9.0  # for the mark of each operation that takes effect at one line
NEAR = 12  # events


class Register:
    """The calls of one register, found by the lines of their events."""

    def __init__(self, calls: list[Operation], order: list[int], points: list[int]) -> None:
        self.calls = calls
        self.call_at: dict[int, Operation] = {call.line: call for call in calls}
        self.call_at.update({call.end_line: call for call in calls if call.end_line is not None})
        self.events = sorted(self.call_at)
        self.processes: set[int] = {call.process for call in calls if call.process is not None}
        self.details = details_of(calls)
        self.place_of = {line: place for place, line in enumerate(order, 1)}
        self.points = dict(zip(order, points))
        self.effects = Counter(points)  # line -> how many operations take effect there

    def lines(self, window: Window) -> list[int]:
        return self.events[window[0]:window[1]]

    def open_at(self, lines: Iterable[int]) -> list[Operation]:
        """The calls that were open at one of some lines, other than their own."""
        wanted = sorted(set(lines))
        found = []
        for call in self.calls:
            if call.line >= wanted[-1]:
                break
            end = call.end_line
            if end is None or end > wanted[0] or call.ending == "crash":
                following = wanted[bisect_right(wanted, call.line)]
                if call.pending or (end is not None and following < end):
                    found.append(call)
        return found


def details_of(calls: list[Operation]) -> dict[int, str]:
    """What all calls of a process have in common of their client and their node, by process."""
    found: dict[int, list[Operation]] = {}
    for call in calls:
        if call.process is not None:
            found.setdefault(call.process, []).append(call)
    return {process: shared(calls) for process, calls in found.items()}


class Scene(NamedTuple):
    """One picture."""

    register: Register
    marks: Marks
    windows: list[Window]
    bars: list[Bar]
    axis: Axis
    lanes: Lanes
    left_out: int  # events of the register


def lines_of(operations: Iterable[Operation]) -> list[int]:
    """The lines of the calls and of their ends."""
    calls = [call for call in operations if call.line]
    return [line for call in calls for line in (call.line, call.end_line) if line is not None]


def near_lines(marks: Marks, register: Register) -> list[int]:
    """The lines of the writes beside the unexplained read, if they are near its own. Farther ones are drawn
    anyway, as bars that come from beyond the window."""
    if marks.unexplained is None:
        return []
    own = [bisect_left(register.events, line) for line in lines_of([marks.unexplained])]
    least, most = max(0, min(own) - NEAR), max(own) + NEAR
    near = set(register.events[least:most + 1]) if most - least <= 4 * NEAR else set()
    return [line for line in lines_of(marks.overlapped) if line in near]


def lines_that_matter(marks: Marks, register: Register) -> list[list[int]]:
    """The lines that windows are drawn around: all that are of interest; then fewer, if the page has no
    room. Of several registers never fewer: then the picture is wider than the page."""
    if marks.across:
        return [lines_of(marks.named.values())]
    arrows = [line for arrow in marks.arrows for line in (arrow.before.end_line, arrow.after.line) if line]
    least = arrows + lines_of([marks.unexplained] if marks.unexplained else [])
    calls = least + [line for line in marks.named if line]
    named = calls + lines_of(marks.named.values())
    return [lines for lines in (named + near_lines(marks, register), named, calls, least) if lines]


def room_of(marks: Marks, register: Register, windows: list[Window]) -> dict[int, float]:
    """The least room after some lines: for the number of a line that matters, an arrow, and the points."""
    room = {line: DIGIT * len(str(line)) + 8 for line in lines_of(marks.named.values())}
    for arrow in marks.arrows:
        room.update((foot_of(*hop), ARROW_ROOM) for hop in arrow.hops)
    for window in windows:
        for line in register.lines(window):
            if line in register.effects:
                room[line] = max(room.get(line, 0.0), (register.effects[line] + 1) * POINT_ROOM)
    return room


def lane_processes(operations: list[Operation], register: Register) -> list[int]:
    """The processes that have a lane each: all of the register, so that all its pictures are alike, or
    else all that are in the picture. Empty if they are too many."""
    drawn = {call.process for call in operations if call.process is not None}
    for processes in (register.processes, drawn):
        if len(processes) <= MOST_PROCESSES:
            return sorted(processes)
    return []


def bars_of(operations: list[Operation], marks: Marks, register: Register) -> list[Bar]:
    """The bars, with their processes if there are too many for a lane each."""
    own_lanes = lane_processes(operations, register)
    bars = []
    for call in operations:
        process = "" if own_lanes else "initially" if call.process is None else f"p{call.process}"
        bars.append(bar_of(call, marks, process, str(register.place_of.get(call.line, ""))))
    return bars


def seen(register: Register, windows: list[Window], candidates: list[Operation]) -> list[Operation]:
    """The calls with an event in a window, and those of the candidates that were open through one."""
    found = {register.call_at[line].line: register.call_at[line]
             for window in windows for line in register.lines(window)}
    firsts = [register.events[begin] for begin, _ in windows]
    lasts = [register.events[end - 1] for _, end in windows]
    for call in candidates:
        place = bisect_left(firsts, call.line)
        if place < len(firsts) and (call.pending or (call.end_line or 0) > lasts[place]):
            found[call.line] = call
    return [found[line] for line in sorted(found)]


def scene_of(register: Register, marks: Marks, windows: list[Window], candidates: list[Operation],
             step: float = STEP) -> Scene:
    """The picture of some windows."""
    operations = seen(register, windows, candidates)
    initial = marks.named.get(0)
    bars = bars_of(([initial] if initial else []) + operations, marks, register)
    bar_at: dict[int, Bar] = {}
    for bar in bars:
        for line in (bar.begin, bar.operation.end_line):
            if line is not None:
                bar_at[line] = bar
    lines = [register.lines(window) for window in windows]
    left_out = [after[0] - before[1] for before, after in zip(windows, windows[1:])]
    if initial:
        lines, left_out = with_initial(lines, left_out, windows[0][0])
    axis = spread(lines, left_out, bar_at, Stretch(room_of(marks, register, windows), step))
    return Scene(register, marks, windows, bars, axis, lanes_of(bars, axis, register),
                 count_left_out(windows, len(register.events)))


def with_initial(lines: list[list[int]], left_out: list[int],
                 before: int) -> tuple[list[list[int]], list[int]]:
    """The same with the initial write in front, before a gap if events before the first window are left
    out."""
    if before == 0:
        return [[INITIAL_CALL, 0, *lines[0]], *lines[1:]], left_out
    return [[INITIAL_CALL, 0], *lines], [before, *left_out]


def lanes_of(bars: list[Bar], axis: Axis, register: Register) -> Lanes:
    processes = lane_processes([bar.operation for bar in bars], register)
    if processes:
        return lanes_of_processes(bars, processes, register.details)
    return packed(bars, axis)


def fitted(register: Register, marks: Marks, width: float) -> Scene:
    """Windows around what the marks point at, as wide as the page allows."""
    choices = lines_that_matter(marks, register)
    for lines in choices:
        candidates = register.open_at(lines)
        best = scene_of(register, marks, windows_around(register.events, lines, 1), candidates)
        if best.axis.right <= width:
            break
    for context in range(2, MOST_CONTEXT + 1):
        scene = scene_of(register, marks, windows_around(register.events, lines, context), candidates)
        if scene.axis.right > width:
            break
        best = scene
    return widened(best, candidates, width)


def widened(scene: Scene, candidates: list[Operation], width: float) -> Scene:
    """The same picture with longer steps, if the page has room for them."""
    for step in range(WIDEST_STEP, int(STEP), -3):
        wider = scene_of(scene.register, scene.marks, scene.windows, candidates, float(step))
        if wider.axis.right <= width:
            return wider
    return scene


def strips(register: Register, marks: Marks, events: int, width: float) -> list[Scene]:
    """The first events of a register as pictures below each other, each as wide as the page allows."""
    found: list[Scene] = []
    begin, last = 0, min(events, len(register.events))
    while begin < last:
        scene = longest_strip(register, marks, begin, last, width)
        found.append(scene)
        begin = scene.windows[0][1]
    return found


def longest_strip(register: Register, marks: Marks, begin: int, last: int, width: float) -> Scene:
    """The events from `begin` on that fit the width, found by halving."""
    candidates = register.open_at(register.events[begin:begin + 1])
    least, most = begin + 1, last
    scene = scene_of(register, marks, [(begin, most)], candidates)
    if scene.axis.right <= width:
        return widened(scene, candidates, width) if begin == 0 else scene
    while least < most:
        middle = (least + most + 1) // 2
        scene = scene_of(register, marks, [(begin, middle)], candidates)
        if scene.axis.right <= width:
            least = middle
        else:
            most = middle - 1
    return scene_of(register, marks, [(begin, least)], candidates)
