"""What stands in and on a bar: its label, its signs, and the point at which its operation takes effect."""
import html
from typing import Callable, NamedTuple

from regkit.drawing import shapes, svg
from regkit.drawing.axis import Axis
from regkit.drawing.bars import LETTER, PADDING, SIGN, SMALL_LETTER, Bar
from regkit.drawing.scene import Scene
from regkit.drawing.svg import tag
from regkit.explain.sentences import named
from regkit.words.phrases import capital
from regkit.words.quoting import columns

SIGNS: dict[str, Callable[[float, float], str]] = {
    "unexplained": shapes.exclamation, "contradicted": shapes.exclamation, "stale": shapes.back,
    "doubted": shapes.doubt, "fresh": shapes.tick,
    "overlapped": shapes.parallel, "beside": shapes.parallel, "loose": shapes.tilde, "failed": shapes.cross}
SIGN_WORDS = {"unexplained": "the first read that can't be explained",
              "contradicted": "no order gives its reply",
              "stale": "a stale read: it gave an older value",
              "doubted": "it knew of another value: one of the reads with this sign is stale",
              "fresh": "the fresh read: it gave the newer value",
              "overlapped": "it was open at the same time as the first read that can't be explained",
              "beside": "it overlaps the call whose reply no order gives",
              "loose": "its reply needn't count: there is no order without it either",
              "failed": "it certainly had no effect"}


def classes(bar: Bar) -> str:
    call = bar.operation
    state = "failed" if call.failed else "pending" if call.pending else ""
    colour = bar.cluster or ("stale" if {"unexplained", "stale", "doubted"} & set(bar.signs) else "")
    if "contradicted" in bar.signs:  # whatever it writes
        colour = "stale"
    kind, strong = "read" if call.kind == "read" else "write", "strong" if bar.strong else ""
    return " ".join(filter(None, ["bar", kind, colour, strong, state]))


def bar_title(bar: Bar) -> str:
    """All that is known of the operation, for a pointer that rests on its bar."""
    notes = [SIGN_WORDS[sign] for sign in bar.signs]
    if bar.place:
        notes.append(f"number {bar.place} in the order")
    return "; ".join([capital(named(bar.operation)), *notes]) + "."


def ends(bar: Bar, axis: Axis) -> tuple[bool, str]:
    """Whether the bar comes from beyond what is drawn, and how it ends."""
    if bar.end is None:
        return not axis.has(bar.begin), "torn"
    return not axis.has(bar.begin), "closed" if axis.has(bar.end) else "open"


def bar_group(bar: Bar, scene: Scene, gutter: float, top: float) -> str:
    axis = scene.axis
    left, right = gutter + axis.begin_at(bar.begin), gutter + axis.end_at(bar.end)
    open_left, end = ends(bar, axis)
    parts = [shapes.bar(left, right, top, open_left, end)]
    if bar.operation.ending == "crash" and axis.has(bar.operation.end_line):
        parts.append(shapes.bolt(gutter + axis.end_at(bar.operation.end_line), top + shapes.HEIGHT / 2))
    if right - left >= bar.label_width - PADDING:
        parts.append(label(bar, left + PADDING, top + 15.5))
    if right - left >= bar.width - PADDING:
        x = left + bar.label_width - PADDING + SIGN / 2 + 2
        for sign in bar.signs:
            parts.append(SIGNS[sign](x, top + shapes.HEIGHT / 2))
            x += SIGN
    parts.append(svg.title(bar_title(bar)))
    return tag("g", "".join(parts), class_=classes(bar), data_line=bar.operation.line)


def label(bar: Bar, x: float, y: float) -> str:
    """The operation, and in small letters its process or its place in the order."""
    parts = [html.escape(bar.label)]
    x_small = x + columns(bar.label) * LETTER + PADDING
    for words, kind in ((bar.process, "process"), (bar.place, "place")):
        if words:
            parts.append(tag("tspan", html.escape(words), class_=kind, x=x_small))
            x_small += len(words) * SMALL_LETTER + PADDING
    return tag("text", "".join(parts), class_="label", x=x, y=y)


class Spot(NamedTuple):
    """Where an operation takes effect."""

    line: int
    place: int  # in the order
    x: float
    y: float


def spots_of(bars: list[Bar], scene: Scene, gutter: float, lane_top: Callable[[int], float]) -> list[Spot]:
    """The points of the order. Operations with one point stand one behind the other."""
    register, axis = scene.register, scene.axis
    spots: list[Spot] = []
    used: dict[int, int] = {}
    for bar in sorted(bars, key=lambda bar: register.place_of.get(bar.operation.line, 0)):
        point = register.points.get(bar.operation.line)
        if point is None or not axis.has(point):
            continue
        used[point] = used.get(point, 0) + 1
        step = axis.step_behind(point) / (register.effects[point] + 1)
        x = gutter + axis.end_at(point) + step * used[point]
        line = bar.operation.line
        spots.append(Spot(line, register.place_of[line], x, lane_top(bar.begin) + shapes.HEIGHT))
    return spots


def thread_of(spots: list[Spot]) -> list[str]:
    """A thread through the points, in the order."""
    if len(spots) < 2:
        return []
    places = [value for spot in spots for value in (spot.x, spot.y)]
    return [tag("path", class_="thread", d=shapes.path("M", *places))]


def points_of(spots: list[Spot]) -> list[str]:
    parts = []
    for spot in spots:
        words = svg.title(f"Number {spot.place} in the order takes effect here.")
        parts.append(tag("g", shapes.diamond(spot.x, spot.y) + words, data_line=spot.line))
    return parts
