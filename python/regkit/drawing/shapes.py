"""The outlines of bars and the small signs in them."""
from regkit.drawing.svg import number, tag

HEIGHT = 22.0  # of a bar
CORNER = 4.0
TOOTH = 7.0  # how deep a torn end is


def path(*words: object) -> str:
    return " ".join(number(word) if isinstance(word, float) else str(word) for word in words)


def outline(left: float, right: float, top: float, open_left: bool, end: str) -> str:
    """A bar's path. `end` says how it ends on the right: "closed", "open" if it goes on beyond what is
    drawn, or "torn" if it has no end. An open side has no line."""
    bottom, corner = top + HEIGHT, min(CORNER, (right - left) / 2)
    tooth = HEIGHT / 6
    right_side = {"closed": ["H", right - corner, "Q", right, top, right, top + corner, "V", bottom - corner,
                             "Q", right, bottom, right - corner, bottom],
                  "open": ["H", right, "M", right, bottom],
                  "torn": ["H", right] + ["l", -TOOTH, tooth, TOOTH, tooth] * 3}[end]
    if open_left:
        return path("M", left, top, *right_side, "H", left)
    begin = [] if end == "open" else ["Z"]
    left_side = ["H", left + corner, "Q", left, bottom, left, bottom - corner, "V", top + corner,
                 "Q", left, top, left + corner, top]
    if end == "open":
        return path("M", right, bottom, *left_side, "H", right)
    return path("M", left + corner, top, *right_side, *left_side, *begin)


def bar(left: float, right: float, top: float, open_left: bool, end: str) -> str:
    """A bar: its face, and its edge where that isn't the same."""
    edge = tag("path", class_="edge", d=outline(left, right, top, open_left, end))
    if not (open_left and end == "open"):
        return edge
    return tag("rect", class_="face", x=left, y=top, width=right - left, height=HEIGHT) + edge


def cross(x: float, y: float) -> str:
    """The sign of a call that failed."""
    return tag("path", class_="cross", d=path("M", x - 4, y - 4, "l 8 8 m 0 -8 l -8 8"))


def exclamation(x: float, y: float) -> str:
    """The sign of a read that can't be explained, or of a reply: an exclamation mark in a disc."""
    return (tag("circle", class_="alarm", cx=x, cy=y, r=7) +
            tag("path", class_="alarm-mark", d=path("M", x, y - 4, "v 5 m 0 2 v 1.2")))


def back(x: float, y: float) -> str:
    """The sign of a stale read: an arrow that turns back, in a ring."""
    turned = path("M", x + 3, y + 3.6, "v -4.6 h -5.6 m 2.4 -2.6 l -2.6 2.6 l 2.6 2.6")
    return (tag("circle", class_="stale-ring", cx=x, cy=y, r=6.4) +
            tag("path", class_="stale-mark", d=turned))


def doubt(x: float, y: float) -> str:
    """The sign of a read that is stale unless another one is: a question mark in a ring."""
    hook = path("M", x - 2.4, y - 1.6, "c 0 -3 4.8 -3 4.8 0 c 0 1.6 -2.4 1.4 -2.4 3.2 m 0 1.6 v 1.2")
    return (tag("circle", class_="stale-ring", cx=x, cy=y, r=6.4) +
            tag("path", class_="stale-mark", d=hook))


def tick(x: float, y: float) -> str:
    """The sign of the fresh read: a tick in a disc."""
    return (tag("circle", class_="fine", cx=x, cy=y, r=7) +
            tag("path", class_="fine-mark", d=path("M", x - 3.5, y + 0.2, "l 2.5 2.8 l 4.5 -5.6")))


def parallel(x: float, y: float) -> str:
    """The sign of a write that was open beside that read: two lines side by side."""
    return tag("path", class_="parallel", d=path("M", x - 2.5, y - 5, "v 10 m 5 -10 v 10"))


def tilde(x: float, y: float) -> str:
    """The sign of a call whose reply needn't count: a wave."""
    return tag("path", class_="parallel", d=path("M", x - 5, y + 1.5, "q 2.5 -5 5 -1.5 t 5 -1.5"))


def bolt(x: float, y: float) -> str:
    """The sign of a crash."""
    d = path("M", x + 2, y - 9, "l -7 10 h 4.5 l -2 8 l 7.5 -11 h -4.5 z")
    return tag("path", class_="bolt", data_x=x, d=d)


def diamond(x: float, y: float) -> str:
    """The point at which an operation takes effect."""
    return tag("path", class_="point", d=path("M", x, y - 5, "l 4.5 5 l -4.5 5 l -4.5 -5 z"))


def badge(x: float, y: float, text: str, cluster: str) -> str:
    """A number in a disc."""
    content = tag("circle", cx=x, cy=y, r=8) + tag("text", text, x=x, y=y + 4)
    return tag("g", content, class_=f"badge {cluster}")


def zone_ends(left: float, right: float, top: float, height: float, forward: bool) -> str:
    """The tips at the ends of a zone. They point to the right for a forward zone, to the left for a
    backward one."""
    reach = 5.0 if forward else -5.0
    half = height / 2 + 2
    words: list[object] = []
    for x in (left, right):
        words += ["M", x - reach / 2, top - 2, "l", reach, half, -reach, half]
    return path(*words)


def torn_edge(x: float, top: float, bottom: float) -> list[str]:
    """The corners of a torn edge, from top to bottom."""
    count = max(2, round((bottom - top) / 12)) * 2
    step = (bottom - top) / count
    return [path(x + (4.0 if index % 2 else 0.0), top + step * index) for index in range(count + 1)]


def torn_strip(left: float, right: float, top: float, bottom: float) -> tuple[str, str]:
    """A strip of nothing between two torn edges: its face, and its edges."""
    one, other = torn_edge(left, top, bottom), torn_edge(right - 4, top, bottom)
    return f"M {' '.join(one + other[::-1])} Z", f"M {' '.join(one)} M {' '.join(other)}"
