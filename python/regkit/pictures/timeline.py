"""When stale reads came: a row for each node or client, and a bar for each part of the run that has some."""
from regkit.drawing import svg
from regkit.drawing.bars import LETTER
from regkit.drawing.figure import PAGE_WIDTH
from regkit.drawing.svg import tag, text
from regkit.history.who import LONGEST_BESIDE, in_words
from regkit.pictures.bursts import Bursts, Row
from regkit.pictures.canvas import Size, figure
from regkit.pictures.ticks import exact, round_step, shown
from regkit.words.phrases import capital, counted, joined
from regkit.words.quoting import columns

RIGHT, TOP, ROW, BASE, BELOW = 40.0, 6.0, 46.0, 5.0, 26.0
LEAST_GUTTER = 84.0
LEAST = 2.0  # the height of a bar of one read
MOST_TICKS = 10


def named(row: Row, what: str) -> str:
    """`node replica-1`; of the reads that have no name, that."""
    if not what:
        return "all reads"
    if row.name is None:
        return f"no {what} named"
    return in_words(row.name if what == "client" else None, row.name if what == "node" else None,
                    LONGEST_BESIDE)[0]


class Timeline:
    """Where the rows are, and what is in them."""

    def __init__(self, bursts: Bursts) -> None:
        self.bursts = bursts
        self.labels = [named(row, bursts.what) for row in bursts.rows]
        self.gutter = max(LEAST_GUTTER, max(map(columns, self.labels), default=0) * LETTER + 18)
        self.width = (PAGE_WIDTH - RIGHT - self.gutter) / bursts.extent.parts
        self.bottom = TOP + ROW * len(bursts.rows)
        self.most = max((max(row.stale.values(), default=0) for row in bursts.rows), default=0)

    def moment(self, value: int) -> str:
        """A place on the axis in words."""
        return exact(value) if self.bursts.extent.is_time else f"line {value:,}"

    def span(self, part: int) -> str:
        extent = self.bursts.extent
        begin = extent.first + part * extent.step
        end = min(begin + extent.step, extent.last) if extent.is_time else begin + extent.step - 1
        return f"from {self.moment(begin)} to {self.moment(min(end, extent.last))}"

    def bars(self, place: int, row: Row) -> list[str]:
        """Below a row a strip for each part in which there were reads, and above it a bar if some were
        stale."""
        base = TOP + ROW * (place + 1) - BASE
        strips, parts = [], []
        for part in sorted(row.reads):
            left = self.gutter + self.width * part
            strips.append(f"M {svg.number(left)} {svg.number(base)} H {svg.number(left + self.width)} v 3 H "
                          f"{svg.number(left)} z")
            if row.stale[part]:
                height = max(LEAST, (ROW - BASE - 8) * row.stale[part] / self.most)
                said = f"{row.stale[part]:,} of {counted(row.reads[part], 'read')} stale, {self.span(part)}"
                bar = tag("rect", x=left + 0.5, y=base - height, width=max(1.0, self.width - 1),
                          height=height)
                title = svg.title(f"{capital(self.labels[place])}: {said}")
                parts.append(tag("g", bar + title, class_="old"))
        rule = f"M {svg.number(self.gutter)} {svg.number(base)} H {svg.number(PAGE_WIDTH - RIGHT)}"
        return [tag("path", class_="rule", d=rule), tag("path", class_="reads", d=" ".join(strips)), *parts]

    def axis(self) -> list[str]:
        extent = self.bursts.extent
        step = round_step(extent.last - extent.first + 1, MOST_TICKS)
        parts = [tag("path", class_="axis", d=f"M {svg.number(self.gutter)} {svg.number(self.bottom)} H "
                                              f"{svg.number(PAGE_WIDTH - RIGHT)}")]
        for value in range(-(-extent.first // step) * step, extent.last + 1, step):
            x = self.gutter + self.width * (value - extent.first) / extent.step
            parts += [tag("path", class_="axis", d=f"M {svg.number(x)} {svg.number(self.bottom)} v 4"),
                      text(x, self.bottom + 16, shown(value, extent.is_time), "line")]
        return parts

    def markup(self) -> str:
        parts = []
        for place, row in enumerate(self.bursts.rows):
            parts.append(text(self.gutter - 12, TOP + ROW * (place + 1) - BASE, self.labels[place], "gutter"))
            parts += self.bars(place, row)
        size = Size(PAGE_WIDTH, self.bottom + BELOW)
        time = self.gutter, PAGE_WIDTH - RIGHT
        return figure(parts + self.axis(), size, self.label(), self.caption(), time)

    def label(self) -> str:
        said = [f"{name} {sum(row.stale.values()):,} of {counted(sum(row.reads.values()), 'read')}"
                for name, row in zip(self.labels, self.bursts.rows)]
        return f"Time line of stale reads: {joined(said)}"

    def caption(self) -> str:
        """What the axis and the bars are, and what isn't shown."""
        extent, hidden = self.bursts.extent, self.bursts.hidden
        axis = "Time since the first call" if extent.is_time else "Lines of the history"
        each = exact(extent.step) if extent.is_time else counted(extent.step, "line")
        said = (f"{axis}. A bar counts the stale reads that began within {each}; the tallest counts "
                f"{self.most:,}. A strip below it shows that there were reads.")
        rest = f" {counted(hidden, f'more {self.bursts.what}')} aren't shown." if hidden else ""
        return said + (rest.replace("aren't", "isn't") if hidden == 1 else rest)


def timeline(bursts: Bursts) -> str:
    return Timeline(bursts).markup()
