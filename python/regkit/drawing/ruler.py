"""The axis below a picture: the numbers of lines, what is left out, and where in the history this is."""
from regkit.drawing import shapes, svg
from regkit.drawing.axis import DIGIT
from regkit.drawing.scene import Scene, lines_of
from regkit.drawing.svg import tag, text
from regkit.history.operations import History

NUMBERS, OVERVIEW = 34.0, 26.0  # heights
OVERVIEW_LABEL = "all lines"
AXIS_LABEL = "record line"  # of pictures of several registers
SPACE = 7.0  # between two numbers
Extent = tuple[float, float]


def ruler_height(scene: Scene) -> float:
    return NUMBERS + (OVERVIEW if scene.left_out else 0.0)


def ruler(scene: Scene, top: float) -> list[str]:
    label = [text(-12, top + 17, AXIS_LABEL, "gutter")] if scene.marks.across else []
    return [tag("path", class_="axis", d=baseline(scene, top + 2)), *label, *left_out(scene, top),
            *numbers(scene, top)]


def baseline(scene: Scene, y: float) -> str:
    """The axis, broken where events are left out."""
    words: list[object] = ["M", 0.0, y]
    for gap in scene.axis.gaps.values():
        words += ["H", gap.left, "M", gap.right, y]
    return shapes.path(*words, "H", scene.axis.right)


def left_out(scene: Scene, top: float) -> list[str]:
    """How many events are left out in each gap."""
    parts = []
    for gap in scene.axis.gaps.values():
        middle = (gap.left + gap.right) / 2
        parts += [text(middle, top + 17, f"{gap.events:,}", "left-out"),
                  text(middle, top + 29, "left out", "left-out")]
    return parts


def numbers(scene: Scene, top: float) -> list[str]:
    """The numbers of the lines: first of those that matter, then as many of the others as have room."""
    axis = scene.axis
    strong = set(lines_of(scene.marks.named.values()))
    taken: list[Extent] = [(gap.left + 2, gap.right - 2) for gap in axis.gaps.values()]
    parts, ticks = [], []
    lines = [line for line in axis.lines if line > 0]
    for line in sorted(lines, key=lambda line: (line not in strong, line)):
        place, half = axis.places[line], len(str(line)) * DIGIT / 2
        extent = (place - half, place + half)
        if all(extent[1] + SPACE <= other[0] or other[1] + SPACE <= extent[0] for other in taken):
            taken.append(extent)
            parts.append(text(place, top + 17, str(line), "line strong" if line in strong else "line"))
            ticks.append(shapes.path("M", place, top + 2, "v 4"))
    return [tag("path", class_="axis", d=" ".join(ticks))] + parts


def overview(scene: Scene, history: History, top: float) -> list[str]:
    """Below the ruler, a line for the whole history, with the windows and the zones in their places."""
    width, middle = scene.axis.right, top + NUMBERS + 10
    scale = width / max(1, history.last_line)
    line = shapes.path("M", 0.0, middle, "H", width, "M", 0.0, middle - 4, "v 8 M", width, middle - 4, "v 8")
    parts = [text(-12, middle + 4, OVERVIEW_LABEL, "gutter"), tag("path", class_="axis", d=line)]
    for row, zone in enumerate(scene.marks.zones):
        length = max((zone.end - max(zone.begin, 0)) * scale, 1.5)
        parts.append(tag("rect", class_=f"extent {zone.cluster}", x=max(zone.begin, 0) * scale,
                         y=middle - 5 + 6 * row, width=length, height=4))
    content = svg.title(f"The windows above, within the {history.last_line:,} lines of the history.")
    for begin, end in scene.windows:
        first, last = scene.register.events[begin], scene.register.events[end - 1]
        length = max((last - first) * scale, 2.5)
        content += tag("rect", x=first * scale - 1, y=middle - 7, width=length, height=14)
    return parts + [tag("g", content, class_="here")]
