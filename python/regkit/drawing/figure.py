"""One picture as SVG: zones and arrows above, bars in their lanes, and the axis below."""
from typing import Sequence

from regkit.drawing import shapes, svg
from regkit.drawing.axis import Gap
from regkit.drawing.barmarks import bar_group, points_of, spots_of, thread_of
from regkit.drawing.bars import LETTER, SMALL_LETTER, Bar, label_of, shown_value
from regkit.drawing.marks import Arrow, Marks, Zone, foot_of, head_of
from regkit.drawing.ruler import AXIS_LABEL, OVERVIEW_LABEL, overview, ruler, ruler_height
from regkit.drawing.scene import Scene
from regkit.drawing.svg import tag, text
from regkit.explain.sentences import precedence, value_of
from regkit.history.operations import History, Operation
from regkit.words.phrases import capital
from regkit.words.quoting import columns

PAGE_WIDTH = 1136.0  # of what the page has room for
WIDEST_SHRUNK = 1.5 * PAGE_WIDTH  # a picture that is wider keeps its size, and the page scrolls it
LEAST_GUTTER = 84.0  # for the labels at the left
TOP, LEFT, RIGHT = 8.0, 2.0, 12.0  # margins
ZONE_ROW, ARROW_ROW, LANE_ROW = 22.0, 24.0, 32.0
BAND = 11.0  # the height of a zone
INSET = 3.0  # of an arrow's foot and head from the ends of their bars


def arrow_label(arrow: Arrow) -> str:
    """Which value an arrow puts before which; if it is one value, which operation before which."""
    if arrow.label:
        return arrow.label
    before, after = value_of(arrow.before), value_of(arrow.after)
    if before == after:
        return f"{label_of(arrow.before)} \u2192 {label_of(arrow.after)}"
    return f"{shown_value(before)} \u2192 {shown_value(after)}"


def zone_label(zone: Zone) -> str:
    return f"zone of {shown_value(zone.value)}"


def zone_title(zone: Zone) -> str:
    begin = f"line {zone.begin}" if zone.begin > 0 else "the beginning"
    if zone.forward:
        return (f"The zone of {zone.value} is forward: from its first reply at {begin} to its last call at "
                f"line {zone.end}, the register has to hold this value.")
    return (f"The zone of {zone.value} is backward: all its operations were open together from {begin} to "
            f"line {zone.end}, and one moment in it is enough for them.")


def zones_in_words(zones: Sequence[Zone]) -> str:
    """What two zones are, and why they contradict each other: a forward zone holds all of the other, or both
    are forward and overlap."""
    if not zones:
        return ""
    backward = next((zone for zone in zones if not zone.forward), None)
    why = ("Both overlap, and the register can't hold two values at once." if backward is None else
           f"The zone of {backward.value} lies within the other one, so no moment is left for it.")
    return " ".join([*map(zone_title, zones), why])


def gutter_of(marks: Marks, lane_labels: list[str], details: Sequence[str] = ()) -> float:
    """The room that the labels at the left need, and the small ones below them."""
    labels = [zone_label(zone) for zone in marks.zones] + lane_labels
    labels += [arrow_label(arrow) for arrow in marks.arrows] + [AXIS_LABEL] * marks.across
    widths = [columns(label) * LETTER for label in labels]
    widths += [columns(detail) * SMALL_LETTER for detail in details]
    return max(LEAST_GUTTER, max(widths) + 18) if labels else LEFT


class Figure:
    """Where the rows of a picture are, and what is in them."""

    def __init__(self, scene: Scene, history: History) -> None:
        self.scene = scene
        self.history = history
        labels = scene.lanes.labels + [OVERVIEW_LABEL] * bool(scene.left_out)
        self.gutter = gutter_of(scene.marks, labels, scene.lanes.details)
        self.arrows_top = TOP + ZONE_ROW * len(scene.marks.zones)
        self.lanes_top = self.arrows_top + ARROW_ROW * len(scene.marks.arrows) + 4
        self.lanes_end = self.lanes_top + LANE_ROW * scene.lanes.size
        self.height = self.lanes_end + ruler_height(scene)
        self.width = self.gutter + scene.axis.right + RIGHT
        self.scrolls = self.width > WIDEST_SHRUNK
        self.drawn = [bar for bar in scene.bars if bar.begin in scene.lanes.lane_of]

    def lane_top(self, line: int) -> float:
        """The top of the bar of a call."""
        return self.lanes_top + LANE_ROW * self.scene.lanes.lane_of[line] + (LANE_ROW - shapes.HEIGHT) / 2

    def svg(self, label: str) -> str:
        spots = spots_of(self.drawn, self.scene, self.gutter, self.lane_top)
        parts = self.rules() + thread_of(spots) + self.zones() + self.arrows()
        for bar in self.drawn:
            parts.append(bar_group(bar, self.scene, self.gutter, self.lane_top(bar.begin)))
        parts += self.crashes() + self.gaps() + self.heads() + points_of(spots)
        parts.append(self.below("ruler", ruler(self.scene, self.lanes_end)))
        if self.scene.left_out:
            parts.append(self.below("overview", overview(self.scene, self.history, self.lanes_end)))
        size = f"0 0 {svg.number(self.width)} {svg.number(self.height)}"
        more = {"data_across": "registers"} if self.scene.marks.across else {}
        if self.scrolls:
            more["class_"] = "long"
        return tag("svg", "".join(parts), width=self.width, height=self.height, viewBox=size, role="img",
                   aria_label=label, data_from=self.gutter, data_to=self.width - RIGHT, **more)

    def below(self, name: str, parts: list[str]) -> str:
        """What stands below the lanes and counts its places from the axis on."""
        return tag("g", "".join(parts), class_=name, transform=f"translate({svg.number(self.gutter)} 0)")

    def rules(self) -> list[str]:
        """A faint line for each process, with its label. Lanes that processes share have none."""
        parts = []
        for lane, (label, detail) in enumerate(zip(self.scene.lanes.labels, self.scene.lanes.details)):
            middle = self.lanes_top + LANE_ROW * (lane + 0.5)
            line = shapes.path("M", self.gutter, middle, "H", self.width - RIGHT)
            label_line = middle - 2 if detail else middle + 4
            parts += [tag("path", class_="rule", d=line), text(self.gutter - 12, label_line, label, "gutter")]
            if detail:
                parts.append(text(self.gutter - 12, middle + 11, detail, "gutter detail"))
        return parts

    def zones(self) -> list[str]:
        """The zones as bands. A forward one has its ends outside, a backward one inside."""
        parts = []
        for row, zone in enumerate(self.scene.marks.zones):
            top = TOP + ZONE_ROW * row + (ZONE_ROW - BAND) / 2
            left, right = self.place(max(zone.begin, 0)), self.place(zone.end)
            content = (tag("rect", x=left, y=top, width=max(right - left, 2), height=BAND) +
                       tag("path", d=shapes.zone_ends(left, right, top, BAND, zone.forward)) +
                       svg.title(zone_title(zone)))
            parts += [text(self.gutter - 12, top + BAND - 1.5, zone_label(zone), "gutter"),
                      tag("g", content, class_=f"zone {zone.cluster}")]
        return parts

    def place(self, line: int) -> float:
        return self.gutter + self.scene.axis.end_at(line)

    def feet(self, before: Operation, after: Operation) -> tuple[float, float]:
        """Where an arrow leaves its row: above an end of the one bar, and of the other."""
        return self.within(before, foot_of(before, after)), self.within(after, head_of(before, after))

    def within(self, operation: Operation, line: int) -> float:
        """A little inside the end of a bar that is at a line."""
        return self.place(line) + (-INSET if line == operation.end_line else INSET)

    def row(self, arrow: Arrow) -> float:
        return self.arrows_top + ARROW_ROW * (arrow.number - 0.5)

    def top_of(self, line: int) -> float:
        return self.lane_top(line if line else -1)

    def arrows(self) -> list[str]:
        """The lines of the arrows, with their labels at the left. Their upright parts pass behind the
        bars."""
        parts = []
        for arrow in self.scene.marks.arrows:
            row = self.row(arrow)
            parts.append(text(self.gutter - 12, row + 4, arrow_label(arrow), "gutter"))
            words = svg.title(capital(arrow.why or precedence(arrow.before, arrow.after)) + ".")
            for before, after in arrow.hops:
                left, right = self.feet(before, after)
                d = shapes.path("M", left, self.top_of(before.line), "V", row, "H", right, "V",
                                self.top_of(after.line) - 5)
                parts.append(tag("g", tag("path", class_=f"arrow {arrow.cluster}", d=d) + words))
        return parts

    def heads(self) -> list[str]:
        """The numbers, feet and heads of the arrows, above everything else."""
        parts = []
        for arrow, (before, after) in ((arrow, hop) for arrow in self.scene.marks.arrows
                                       for hop in arrow.hops):
            left, right = self.feet(before, after)
            foot, head = self.top_of(before.line), self.top_of(after.line)
            content = (tag("circle", cx=left, cy=foot, r=3) +
                       tag("path", d=shapes.path("M", right - 4.5, head - 7, "h 9 l -4.5 8 z"), data_x=right))
            parts += [tag("g", content, class_=f"head {arrow.cluster}"),
                      shapes.badge(left + 16, self.row(arrow), str(arrow.number), arrow.cluster)]
        return parts

    def gaps(self) -> list[str]:
        """The paper is torn where events are left out; a dotted line goes on where a bar does."""
        parts = []
        for gap in self.scene.axis.gaps.values():
            left, right = self.gutter + gap.left, self.gutter + gap.right
            d = shapes.torn_strip(left, right, TOP - 4, self.lanes_end)
            parts.append(tag("g", tag("path", d=d[0]) + tag("path", class_="tear", d=d[1]), class_="gap"))
            parts += [self.through(bar, left, right) for bar in self.drawn if self.goes_on(bar, gap)]
        return parts

    def goes_on(self, bar: Bar, gap: Gap) -> bool:
        """Whether a bar comes into a gap and out of it again."""
        axis = self.scene.axis
        return axis.begin_at(bar.begin) < gap.left and axis.end_at(bar.end) > gap.right

    def through(self, bar: Bar, left: float, right: float) -> str:
        middle = self.lane_top(bar.begin) + shapes.HEIGHT / 2
        return tag("path", class_=f"through {bar.cluster}".rstrip(),
                   d=shapes.path("M", left + 7, middle, "H", right - 3))

    def crashes(self) -> list[str]:
        """The crashes of processes with a lane that had no call open; other crashes are part of their
        bars."""
        lanes: dict[str, float] = {label: self.lanes_top + LANE_ROW * (lane + 0.5)
                                   for lane, label in enumerate(self.scene.lanes.labels)}
        parts = []
        for process, line in self.history.crashes.items():
            lane, place = lanes.get(f"process {process}"), self.scene.axis.between(line)
            if lane is not None and place is not None:
                words = svg.title(f"Process {process} crashed at line {line}.")
                parts.append(tag("g", shapes.bolt(self.gutter + place, lane) + words))
        return parts
