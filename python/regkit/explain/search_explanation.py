"""Why `regsearch` says that a register isn't linearizable: the few operations that have no order, what the
value can be before the reply, and why nothing gives what the reply says."""
from typing import NamedTuple, Optional

from regkit.checker.programs import NoChecker
from regkit.checker.report import Row
from regkit.explain.causes import EMPTY
from regkit.explain.page import ACTOR_SIGN, READ_SIGN, TIMELINE, NotOfHistory, Page
from regkit.explain.reaching import Reached, reached
from regkit.explain.searched import (MOST_OPEN, Contradicted, contradicted, is_open, is_unwritten,
                                     sentences_of, without_effect)
from regkit.explain.sentences import named, value_of, wanted_of
from regkit.explain.shrinking import MOST_RUNS, Kept, NoFault, ShrinkSettings, Small, asker, shrink, until
from regkit.explain.timeline import Entry
from regkit.history.operations import History, Operation
from regkit.words.phrases import counted
from regkit.words.quoting import quoted

MOST_SHOWN = 40  # rows of the time line
LOOSE_SIGN = "~"
SIGNS = {READ_SIGN: "no order gives its reply", ACTOR_SIGN: "its reply counts",
         LOOSE_SIGN: "its reply needn't count"}


class Left(NamedTuple):
    """The operations that are left, and the write that hides what was answered before it."""

    kept: list[Kept]
    fence: Optional[Operation] = None


def made_small(page: Page, told: Contradicted, calls: list[Operation], shrinking: ShrinkSettings) -> Left:
    """What is left, and what the page says of it."""
    small: Optional[Small] = None
    try:
        small = shrink(calls, told.line, asker(shrinking.bounds), shrinking.reach)
    except NoFault as error:
        raise NotOfHistory from error
    except NoChecker as error:
        page.sentence(str(error))
    if small is None:
        kept = until(calls, told.line)
        page.sentence(f"it wasn't made smaller: {counted(len(kept), 'operation')} called before line "
                      f"{told.line} may have to do with it")
        return Left(kept)
    for sentence in enough(small, told, "in the time line"):
        page.sentence(sentence)
    return Left(small.kept, small.fence)


def enough(small: Small, told: Contradicted, where: str) -> list[str]:
    """What a no was made to, in sentences. Of many operations they say where these are."""
    rest = "" if small.ended else f"; after {MOST_RUNS} runs of regsearch no more was tried"
    count, have = len(small.kept), "have" if small.whole > 1 else "has"
    these = f"these {count:,} of the {small.whole:,} operations" if count < small.whole else (
        f"the {counted(small.whole, 'operation')}")
    them = "themselves" if small.whole > 1 else "itself"
    said = [f"{these} called before line {told.line} {have} no order by {them}: "
            f"{list_of(small.kept, where)}{rest}"]
    if small.fence is not None:
        said.append(f"what was answered before line {small.fence.line} isn't needed, since "
                    f"{named(small.fence)} hides it")
    loose = [each for each in small.kept if each.call.completed and not each.replied]
    if loose:
        them = list_of(loose, where) if len(loose) <= MOST_OPEN else f"{len(loose)} of them"
        said.append(f"that holds even if nothing had answered {them}")
    return said


def answered(kept: list[Kept], told: Contradicted) -> list[Kept]:
    """The same with all their replies, which leave fewer values. If what is left doesn't explain those
    replies, then without them."""
    whole = [Kept(each.call, each.call.completed and (each.call.end_line or 0) <= told.line) for each in kept]
    found = reached(whole, told.call, told.line)
    return kept if found is not None and not found.values else whole


def list_of(kept: list[Kept], where: str) -> str:
    """The operations in a sentence, if they are few."""
    if len(kept) > MOST_OPEN:
        return f"they are {where}"
    return "; ".join(named(each.call) for each in kept)


def by_what(calls: list[Operation], lines: list[int]) -> str:
    """`1, by the write of 1 ..; or null, the initial value`."""
    by_line = {call.line: call for call in calls}
    said = [f"{value_of(by_line[line])}, by {named(by_line[line])}" if line else "null, the initial value"
            for line in lines[:MOST_OPEN]]
    rest = len(lines) - MOST_OPEN
    return "; or ".join(said) + (f"; or one by {counted(rest, 'other call')}" if rest > 0 else "")


def why_not(told: Contradicted, calls: list[Operation], left: Left, found: Optional[Reached]) -> list[str]:
    """Why nothing gives what the reply says."""
    call = told.call
    if found is None:
        return ["there are too many orders to say which values the register can have by then"]
    lines = [f"from line {call.line} to line {told.line} the value can only be "
             f"{by_what(calls, found.values)}: in each order of these that gives the replies before "
             f"line {told.line}"]
    if found.taken and found.broken is not None:
        lines.append(f"it could have taken effect on {by_what(calls, found.taken)}; but no order then gives "
                     f"the reply of line {found.broken.end_line}, of {named(found.broken)}")
        return lines
    return lines + nothing_gives(told, calls, left)


def nothing_gives(told: Contradicted, calls: list[Operation], left: Left) -> list[str]:
    """What becomes of the writes of the value that the reply needs."""
    call = told.call
    if call.guard is not None and call.guard.is_other:
        asked = "what it asks for" if call.missed and not call.unless else wanted_of(call)
        return [f"so it could only have found {asked}"]
    wanted = None if call.guard is None else call.guard.value
    writes = [each for each in calls
              if each.writes and each.value == wanted and not each.failed and each is not call]
    later = [each for each in writes if each.line > told.line]
    lines = []
    if writes and len(later) == len(writes):
        lines.append(f"{wanted_of(call)} is written only later, first by {named(later[0])}")
    past = [each.call for each in left.kept if each.call in writes and not is_open(each.call, told.line)]
    if past:
        lines.append(f"the last write of {wanted_of(call)} that was answered is {named(past[-1])}, and its "
                     "value was overwritten by then")
    elif left.fence is not None and any(each.line < left.fence.line for each in writes):
        lines.append(f"what wrote {wanted_of(call)} before is hidden by {named(left.fence)}")
    for each in left.kept:
        if each.call in writes and is_open(each.call, told.line):
            lines.append(f"{named(each.call)} was open, but in none of these orders it takes effect from "
                         f"line {call.line} on")
    return lines


def add_timeline(page: Page, entries: list[Entry]) -> None:
    page.heading(TIMELINE)
    shown = sorted(entries, key=lambda entry: entry.call.line)[-MOST_SHOWN:]
    if len(shown) < len(entries):
        page.sentence(f"the last {len(shown)} of {counted(len(entries), 'operation')}")
    page.timeline(shown, SIGNS)


def explain_unwritten(page: Page, history: History, row: Row) -> None:
    """A value that nobody wrote: what was open then, and whoever would have written it."""
    call = history.operation(row["register"], row["fault"]["call"])
    other = without_effect(history, call)
    if other is None:
        page.heading("Ask first")
        page.sentence(EMPTY)
    end = call.end_line or 0
    beside = [each for each in history.registers[row["register"]]
              if is_open(each, end) and (each.end_line or end) >= call.line and each is not call]
    around = [*([other] if other is not None else []), *beside][:MOST_OPEN]
    add_timeline(page, [Entry(call, READ_SIGN, "bad"), *(Entry(each, "", "") for each in set(around))])


def explain_search(page: Page, history: History, row: Row, shrinking: ShrinkSettings) -> None:
    """Adds the whole explanation of a register that regsearch found not linearizable."""
    page.heading(f"Register {quoted(row['register'])} is not linearizable")
    page.sentence("values repeat, or cas is used, so regsearch looked for an order, and there is none")
    page.heading("The contradiction")
    for sentence in sentences_of(history, row):
        page.sentence(sentence)
    if is_unwritten(row):
        explain_unwritten(page, history, row)
        return
    told, calls = contradicted(history, row), history.registers[row["register"]]
    page.heading("What is enough for it")
    left = made_small(page, told, calls, shrinking)
    page.heading("Why no order gives the reply")
    for sentence in why_not(told, calls, left, reached(answered(left.kept, told), told.call, told.line)):
        page.sentence(sentence)
    add_timeline(page, [entry_of(each, told) for each in left.kept])


def entry_of(each: Kept, told: Contradicted) -> Entry:
    if each.call is told.call:
        return Entry(each.call, READ_SIGN, "bad")
    return Entry(each.call, ACTOR_SIGN if each.replied else LOOSE_SIGN,
                          "bold" if each.replied else "look")
