"""A picture with its caption. Its label says in words what it shows, for readers who can't see it."""
from typing import NamedTuple, Optional

from regkit.drawing import svg
from regkit.drawing.svg import tag
from regkit.drawing.text import words


class Size(NamedTuple):
    width: float
    height: float


def figure(parts: list[str], size: Size, label: str, caption: str,
           time: Optional[tuple[float, float]] = None) -> str:
    """The parts are markup, the label and the caption text. `time` is where a time axis begins and ends."""
    box = f"0 0 {svg.number(size.width)} {svg.number(size.height)}"
    axis = {} if time is None else {"data_from": time[0], "data_to": time[1]}
    picture = tag("svg", "".join(parts), width=size.width, height=size.height, viewBox=box, role="img",
                  aria_label=label, **axis)
    return tag("figure", picture + (tag("figcaption", words(caption)) if caption else ""))
