"""What the signs of a page mean. Only those that are on the page are listed."""
from typing import Iterable

from regkit.drawing import shapes
from regkit.drawing.bars import NOT
from regkit.drawing.scene import Scene
from regkit.drawing.svg import tag
from regkit.drawing.text import words

WIDTH = 34.0  # of a sample bar


def sample(kind: str, end: str = "closed", sign: str = "") -> str:
    content = tag("g", shapes.bar(1.5, WIDTH - 1.5, 1.5, False, end) + sign, class_=f"bar {kind}")
    return tag("svg", content, width=WIDTH, height=shapes.HEIGHT + 3, aria_hidden="true")


def sign_alone(content: str, width: float = 18.0) -> str:
    return tag("svg", content, width=width, height=shapes.HEIGHT, aria_hidden="true")


def signs_of(scene: Scene) -> set[str]:
    """The signs in one picture."""
    found: set[str] = set()
    for bar in scene.bars:
        call = bar.operation
        found.add(call.kind)
        if NOT in bar.label:
            found.add("other")
        found.update(bar.signs)
        if call.pending:
            found.add("pending")
        if call.ending == "crash":
            found.add("crash")
        if bar.cluster:
            found.add(bar.cluster)
        if bar.operation.line in scene.register.points:
            found.add("point")
    found |= {"reason" for arrow in scene.marks.arrows if arrow.why}
    return found | ({"arrow"} if scene.marks.arrows else set()) | ({"zone"} if scene.marks.zones else set())


def entries(found: set[str]) -> list[str]:
    """The entries of the legend, in a fixed order."""
    middle, center = shapes.HEIGHT / 2 + 1.5, WIDTH / 2
    arrow = (tag("path", class_="arrow first", d="M 1 11 H 32") + shapes.badge(14, 11, "1", "first") +
             tag("g", tag("path", d="M 28 7 v 8 l 7 -4 z"), class_="head first"))
    band = tag("rect", x=4, y=7, width=26, height=9) + tag("path", d=shapes.zone_ends(4, 30, 7, 9, True))
    zone = tag("g", band, class_="zone first")
    samples = [
        ("write", sample("write"), "w: write"), ("read", sample("read"), "r: read"),
        ("cas", sample("write"), "c: compare-and-swap"), ("delete", sample("write"), "d: delete"),
        ("swap", sample("write"), "s: swap"), ("other", "", f"{NOT}: each value but this one"),
        ("first", sample("first"), "one value"),
        ("second", sample("second"), "another value" if "third" in found else "the other value"),
        ("third", sample("third"), "a third value"), ("fourth", sample("fourth"), "a fourth value"),
        ("arrow", sign_alone(arrow, 36), "has to come before" if "reason" in found else "ended before"),
        ("zone", sign_alone(zone, WIDTH), "zone of a value, explained below the picture"),
        ("unexplained", sign_alone(shapes.exclamation(9, 11)), "first unexplained read"),
        ("contradicted", sign_alone(shapes.exclamation(9, 11)), "no order gives its reply"),
        ("stale", sign_alone(shapes.back(9, 11)), "stale read"),
        ("doubted", sign_alone(shapes.doubt(9, 11)), "one of these reads is stale"),
        ("fresh", sign_alone(shapes.tick(9, 11)), "fresh read"),
        ("overlapped", sign_alone(shapes.parallel(9, 11)), "write that overlaps it"),
        ("beside", sign_alone(shapes.parallel(9, 11)), "write or cas that overlaps it"),
        ("loose", sign_alone(shapes.tilde(9, 11)), "its reply needn't count"),
        ("pending", sample("write pending", "torn"), "never answered"),
        ("failed", sample("write failed", "closed", shapes.cross(center, middle)), "failed, no effect"),
        ("crash", sign_alone(shapes.bolt(9, 11)), "its process crashed"),
        ("point", sign_alone(shapes.diamond(9, 11)), "takes effect, numbered in order")]
    return [tag("li", picture + words(meaning)) for sign, picture, meaning in samples if sign in found]


def legend(scenes: Iterable[Scene], crashes: bool) -> str:
    found: set[str] = {"crash"} if crashes else set()
    for scene in scenes:
        found |= signs_of(scene)
    return tag("ul", "".join(entries(found)), class_="legend") if found else ""
