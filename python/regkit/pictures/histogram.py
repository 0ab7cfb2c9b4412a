"""How old stale reads were: how many came how long after a newer write had ended."""
from bisect import bisect_right
from itertools import takewhile
from typing import NamedTuple

from regkit.drawing import svg
from regkit.drawing.axis import DIGIT
from regkit.drawing.figure import PAGE_WIDTH
from regkit.drawing.svg import tag, text
from regkit.levels.ages import Age, ages_in_words
from regkit.pictures.canvas import Size, figure
from regkit.pictures.ticks import round_numbers, round_step, shown, span_of
from regkit.words.phrases import capital, counted

MOST_BARS = 24  # of one width
UNEVEN = 12  # if half of the reads are below this part of the greatest age, later bars hold more
LEFT, RIGHT, TOP, HEIGHT, BELOW = 40.0, 40.0, 20.0, 120.0, 26.0
LEAST = 2.0  # the height of a bar of one read
SPACE = 7.0  # between two labels


class Histogram(NamedTuple):
    """How many ages there are from each edge up to the next."""

    edges: list[int]
    counts: list[int]
    is_time: bool  # whether ages are nanoseconds; otherwise they are events
    is_even: bool  # whether all bars are of one width


def edges_of(ages: list[int]) -> tuple[list[int], bool]:
    """Where the bars begin and end, and whether they are of one width. The ages ascend."""
    greatest, middle = ages[-1], ages[len(ages) // 2]
    if middle * UNEVEN >= greatest:
        step = round_step(greatest + 1, MOST_BARS)
        return [step * place for place in range(greatest // step + 2)], True
    below = list(takewhile(lambda edge: edge <= greatest, round_numbers()))
    least = next((age for age in ages if age > 0), 1)
    edges = below[max(0, bisect_right(below, least) - 1):]
    above = next(edge for edge in round_numbers() if edge > greatest)
    return [*([0] if ages[0] < edges[0] else []), *edges, above], False


def histogram_of(ages: list[Age]) -> Histogram:
    """By the clock if each age has a time. Raises ValueError if a read began before the newer write ended:
    then the report is of another history."""
    if any(age.events < 1 for age in ages):
        raise ValueError("a stale read that began before the newer write ended")
    is_time = all(age.nanoseconds is not None for age in ages)
    numbers = sorted((age.nanoseconds or 0) if is_time else age.events for age in ages)
    edges, is_even = edges_of(numbers)
    counts = [0] * (len(edges) - 1)
    for number in numbers:
        counts[bisect_right(edges, number) - 1] += 1
    return Histogram(edges, counts, is_time, is_even)


def bar(drawn: Histogram, place: int, width: float) -> list[str]:
    """A bar with its number, if the number has room."""
    count = drawn.counts[place]
    if not count:
        return []
    height = max(LEAST, HEIGHT * count / max(drawn.counts))
    left, top = LEFT + width * place, TOP + HEIGHT - height
    said = span_of(drawn.edges[place], drawn.edges[place + 1], drawn.is_time, "event")
    words = svg.title(f"{capital(counted(count, 'stale read'))}: from {said}")
    parts = [tag("g", tag("rect", x=left + 1, y=top, width=width - 2, height=height) + words, class_="old")]
    if len(f"{count:,}") * DIGIT <= width:
        parts.append(text(left + width / 2, top - 5, f"{count:,}", "line"))
    return parts


def labels(drawn: Histogram, width: float) -> list[str]:
    """The edges in figures, as many as have room."""
    parts, taken = [], 0.0
    for place, edge in enumerate(drawn.edges):
        said, x = shown(edge, drawn.is_time), LEFT + width * place
        half = len(said) * DIGIT / 2
        if x - half >= taken and x + half <= PAGE_WIDTH:
            parts += [tag("path", class_="axis", d=f"M {svg.number(x)} {svg.number(TOP + HEIGHT)} v 4"),
                      text(x, TOP + HEIGHT + 16, said, "line")]
            taken = x + half + SPACE
    return parts


def histogram(ages: list[Age]) -> str:
    """The picture of some ages, one or more."""
    drawn = histogram_of(ages)
    width = (PAGE_WIDTH - LEFT - RIGHT) / len(drawn.counts)
    line = f"M {svg.number(LEFT)} {svg.number(TOP + HEIGHT)} H {svg.number(PAGE_WIDTH - RIGHT)}"
    parts = [part for place in range(len(drawn.counts)) for part in bar(drawn, place, width)]
    parts += [tag("path", class_="axis", d=line), *labels(drawn, width)]
    what = "time" if drawn.is_time else "events"
    caption = f"{capital(what)} from the end of a newer write to the call of the stale read."
    caption += "" if drawn.is_even else " A bar further to the right stands for a longer span."
    told = ages_in_words(ages)
    label = f"Histogram of the ages of {counted(len(ages), 'stale read')}: {told}"
    return figure(parts, Size(PAGE_WIDTH, TOP + HEIGHT + BELOW), label, caption)
