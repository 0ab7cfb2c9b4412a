"""What is enough for a fault that a search found: a few operations that have no order, and which values their
register can have at each moment."""
from typing import NamedTuple, Optional

from regkit.checker.programs import NoChecker
from regkit.drawing.svg import tag
from regkit.drawing.text import words
from regkit.explain.reaching import Moment, moments
from regkit.explain.search_explanation import answered, enough
from regkit.explain.searched import Contradicted
from regkit.explain.sentences import change_of, told_of, value_of
from regkit.explain.shrinking import ShrinkSettings, asker, shrink, until
from regkit.history.operations import Operation
from regkit.history.who import process_of
from regkit.words.phrases import capital

MOST_CALLS = 20_000  # of a register, so that a page takes seconds
MOST_VALUES = 8  # in one row
MOST_MOMENTS = 40  # rows


class Reduced(NamedTuple):
    """What is left of a register's calls."""

    calls: list[Operation]
    loose: set[int]  # the lines of those whose replies needn't count
    sentences: list[str]
    moments: list[Moment]  # empty if there are too many orders


def reduced(calls: list[Operation], told: Contradicted, shrinking: ShrinkSettings) -> Optional[Reduced]:
    """The same of some calls; None if they are very many, or if regsearch isn't there or takes too long.
    Raises NoFault."""
    if len(until(calls, told.line)) > MOST_CALLS:
        return None
    try:
        small = shrink(calls, told.line, asker(shrinking.bounds), shrinking.reach)
    except NoChecker:
        return None
    if small is None:
        return None
    found = moments(answered(small.kept, told), told.call, told.line) or []
    loose = {each.call.line for each in small.kept if each.call.completed and not each.replied}
    return Reduced([each.call for each in small.kept], loose, enough(small, told, "in the picture"), found)


def table(found: list[Moment]) -> str:
    """What the register can have at each moment, or at the last ones."""
    if not found:
        return ""
    head = "".join(tag("th", words(each)) for each in ("Line", "What happens", "The value, by these alone"))
    rows = [tag("tr", tag("td", str(moment.line)) + tag("td", words(capital(event(moment))))
                + tag("td", words(values(moment)), class_="" if moment.values else "no"))
            for moment in found[-MOST_MOMENTS:]]
    shown = tag("table", tag("tr", head) + "".join(rows), class_="moments")
    if len(found) <= MOST_MOMENTS:
        return shown
    return tag("p", words(f"The last {MOST_MOMENTS} of {len(found):,} moments:"), class_="note") + shown


def event(moment: Moment) -> str:
    call, who = moment.call, process_of(moment.call)
    if moment.is_call:
        return f"{who} calls a {change_of(call)}"
    if call.kind == "read" and call.found is None:
        return f"{who} has its answer: the read gave {value_of(call)}"
    told = told_of(call)
    return f"{who} has its answer: the {change_of(call)} {told.removeprefix('that ') if told else 'is done'}"


def values(moment: Moment) -> str:
    """`null, 1 or 2`."""
    said = ["null" if value is None else str(value) for value in moment.values]
    if not said:
        return "none: no order gives this answer"
    if len(said) > MOST_VALUES:
        said = [*said[:MOST_VALUES], f"{len(said) - MOST_VALUES:,} others"]
    return ", ".join(said[:-1]) + " or " + said[-1] if len(said) > 1 else said[0]
