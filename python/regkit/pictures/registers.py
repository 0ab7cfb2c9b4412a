"""The registers that broke a level, in a table: which levels each kept, and what was counted."""
from regkit.checker.levels import LEVELS, kept
from regkit.checker.report import Row
from regkit.drawing.svg import tag
from regkit.drawing.text import name, words
from regkit.levels.ages import gap_of
from regkit.levels.subject import Subject
from regkit.words.levels import WORDS
from regkit.words.phrases import capital, counted, duration

MOST = 20  # rows
COUNTS = {"stale": "Stale", "own": "Missed its own write", "back": "Went back", "inverted": "Inverted",
          "lost": "Missed to the end"}
UNCOUNTED = "not counted"


def worst_first(row: Row) -> tuple[int, int]:
    """By how many levels it broke, and then by its gap."""
    return len(kept(row)), -int(row.get("gap", {}).get("events", 0))


def gap_cell(subject: Subject, row: Row) -> str:
    """`12.3 ms (5 events)`; `none` if the register has no gap."""
    if "gap" not in row:
        return "none"
    gap = gap_of(subject, row)
    events = counted(gap.events, "event")
    return f"{duration(gap.nanoseconds)} ({events})" if gap.nanoseconds else events


def cells(subject: Subject, row: Row) -> list[str]:
    """The answers and the counts of a register. Without counts, it says so."""
    held = kept(row)
    said = [tag("td", "yes" if level in held else "no", class_="yes" if level in held else "no")
            for level in LEVELS]
    if "stale" not in row:
        return [*said, tag("td", UNCOUNTED, colspan=len(COUNTS) + 1)]
    counts = [f"{row[key]:,}" for key in COUNTS]
    return said + [tag("td", each, class_="number") for each in (*counts, gap_cell(subject, row))]


def table(subject: Subject) -> str:
    """Empty with a single register, of which the ladder says it all, or if none broke a level."""
    rows = subject.levels.rows
    broken = sorted((row for row in rows if "atomic" not in kept(row)), key=worst_first)
    if len(rows) < 2 or not broken:
        return ""
    heads = ["Register", *(capital(WORDS[level]) for level in LEVELS), *COUNTS.values(), "Gap"]
    head = tag("tr", "".join(tag("th", words(each), scope="col") for each in heads))
    body = [tag("tr", tag("th", name(row["register"]), scope="row") + "".join(cells(subject, row)))
            for row in broken[:MOST]]
    rest = len(broken) - MOST
    more = f"{counted(rest, 'more register')} broke a level." if rest > 0 else ""
    shown = tag("div", tag("table", head + "".join(body), class_="moments registers"), class_="wide")
    note = tag("p", more, class_="note") if more else ""
    return tag("h2", "The registers that broke a level") + shown + note
