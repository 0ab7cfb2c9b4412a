"""Why a register isn't atomic: what contradicts what, where it began, and who else was there."""
from typing import Callable, NamedTuple, Optional, Sequence

from regkit.checker.report import Report, Row, read_report
from regkit.explain.causes import StalePair, find_lost, questions, stale_pair
from regkit.explain.page import ACTOR_SIGN, READ_SIGN, TIMELINE, NotOfHistory, Page
from regkit.explain.sentences import (contradiction, early, failed_write, fault_of, inversion, named,
                                      pairs_of, unwritten, value_of)
from regkit.explain.surroundings import (SUSPECT, Bystander, Surroundings, find_surroundings, role_of,
                                         writes_of)
from regkit.explain.timeline import Entry
from regkit.explain.unexplained import Unexplained, find_unexplained
from regkit.history.operations import History, Operation, read_history
from regkit.words.colour import Painter
from regkit.words.phrases import counted
from regkit.words.quoting import quoted

MOST_BYSTANDERS = 6
MOST_LOST = 6  # writes that are named
STALE_SIGN, FRESH_SIGN, SUSPECT_SIGN = "S", "F", "?"
SIGNS = {READ_SIGN: "can't be explained", STALE_SIGN: "stale read", FRESH_SIGN: "fresh read",
         ACTOR_SIGN: "what it contradicts", SUSPECT_SIGN: "look here first"}


def level(history: History, row: Row) -> str:
    """How much the register keeps, short of being atomic."""
    if row["safe"] == "several writers":
        return "several processes write it, so safe and regular don't apply"
    if row["safe"] == "no":
        read = history.operation(row["register"], row["safe_read"])
        return (f"it isn't even safe: {named(read)} overlaps no write, and gave another value than the "
                "latest write's")
    if row["regular"] == "no":
        read = history.operation(row["register"], row["regular_read"])
        return (f"it is safe but not regular: {named(read)} gave neither the value before the writes that it "
                "overlaps, nor a value of theirs")
    return "it is safe and regular"


def completed_reads(calls: list[Operation]) -> int:
    return sum(call.kind == "read" and call.completed for call in calls)


def told_in_words(history: History, told: Unexplained, pair: Optional[StalePair]) -> list[str]:
    """What a read that can't be explained contradicts."""
    if told.write is None:
        return unwritten(history, told.read)
    if told.other is None:
        return early(told.read, told.write)
    return (contradiction(told.pairs, (value_of(told.write), value_of(told.other)))
            + ([pair.in_words()] if pair else []))


def pair_of(history: History, row: Row) -> Optional[StalePair]:
    """The stale read that the fault of a register's line of the report names, if it names one."""
    if row["fault"]["kind"] != "zones":
        return None
    return stale_pair(pairs_of(history, row), history.registers[row["register"]])


def as_reported(told: Unexplained, history: History, row: Row) -> Optional[Unexplained]:
    """The read with the contradiction of the report's values, if that is about this read, the same writes,
    and nothing that was called later."""
    fault = row["fault"]
    if told.kind != fault["kind"]:
        return None
    if told.kind != "zones":
        return told if told.read.line == fault["read"] else None
    pairs = pairs_of(history, row)
    lines = {operation.line for pair in pairs for operation in pair}
    if told.read.line not in lines or max(lines) > (told.read.end_line or 0):
        return None
    assert told.write is not None and told.other is not None
    return told._replace(pairs=pairs) if {told.write.line, told.other.line} == set(fault["writes"]) else None


def how_many(count: int, reads: int) -> str:
    if count == 1:
        return f"it is the only one of {counted(reads, 'completed read')} that can't be explained"
    return (f"{count:,} of {counted(reads, 'completed read')} can't be explained, each left out before the "
            "next is looked at")


def add_first(page: Page, read: Operation, reasons: list[str]) -> None:
    """The first read that can't be explained, and why, unless the fault said so."""
    assert read.end_line is not None
    page.heading("The first read that can't be explained")
    page.sentence(f"{named(read)}: the answers up to line {read.end_line - 1} fit some order in which each "
                  f"read gives the latest write, and with line {read.end_line} they fit none", "bad")
    for sentence in reasons:
        page.sentence(sentence)


def add_bystanders(page: Page, around: Surroundings) -> None:
    page.heading("Open at the same time")
    for bystander in around.bystanders[:MOST_BYSTANDERS]:
        page.sentence(role_of(around, bystander), "look" if bystander.rank == SUSPECT else "")
    rest = len(around.bystanders) - MOST_BYSTANDERS
    if rest > 0:
        page.sentence(f"{counted(rest, 'other call')} of this register")
    if not around.bystanders:
        page.sentence("no other call of this register")


def entry_of(bystander: Bystander) -> Entry:
    suspect = bystander.rank == SUSPECT
    return Entry(bystander.call, SUSPECT_SIGN if suspect else "", "look" if suspect else "")


def entries(history: History, around: Surroundings, pairs: list[StalePair]) -> list[Entry]:
    """The calls of the time line: the contradiction, the writes of its values, and the first bystanders."""
    shown = {bystander.call.line: entry_of(bystander) for bystander in around.bystanders[:MOST_BYSTANDERS]}
    failed = failed_write(history, around.told.read)
    for actor in around.actors + writes_of(around.told) + ([failed] if failed is not None else []):
        shown[actor.line] = Entry(actor, ACTOR_SIGN, "bold")
    for pair in pairs:
        if pair.fresh.kind == "read":
            shown[pair.fresh.line] = Entry(pair.fresh, FRESH_SIGN, "bold")
        shown[pair.stale.line] = Entry(pair.stale, STALE_SIGN, "bad")
    shown[around.told.read.line] = Entry(around.told.read, READ_SIGN, "bad")
    return list(shown.values())


def add_causes(page: Page, history: History, told: Unexplained, calls: list[Operation]) -> None:
    """The writes that were lost, and what to ask."""
    lost = find_lost(told, calls)
    if lost is not None:
        page.heading("Lost writes")
        page.sentence(lost.in_words())
        for write in lost.writes[:MOST_LOST]:
            page.sentence(named(write))
        if len(lost.writes) > MOST_LOST:
            page.sentence(f"and {counted(len(lost.writes) - MOST_LOST, 'more write')}")
    asked = questions(history, told, lost)
    if asked:
        page.heading("Ask first")
    for question in asked:
        page.sentence(question)


def explain_register(page: Page, history: History, row: Row) -> None:
    """Adds the whole explanation of one register that isn't atomic. Raises NotOfHistory."""
    calls = history.registers[row["register"]]
    page.heading(f"Register {quoted(row['register'])} is not linearizable")
    page.sentence(level(history, row))
    page.heading("The contradiction")
    pair = pair_of(history, row)
    for sentence in fault_of(history, row) + inversion(history, row) + ([pair.in_words()] if pair else []):
        page.sentence(sentence)
    told, count = find_unexplained(calls)
    if told is None:
        raise NotOfHistory
    reported = as_reported(told, history, row)
    own = pair if reported else stale_pair(told.pairs, calls, told.read)
    reasons = [] if reported else told_in_words(history, told, own if own != pair else None)
    add_first(page, told.read, reasons)
    page.sentence(how_many(count, completed_reads(calls)))
    add_causes(page, history, told, calls)
    around = find_surroundings(reported or told, calls)
    add_bystanders(page, around)
    page.heading(TIMELINE)
    page.timeline(entries(history, around, [each for each in (pair, own) if each is not None]), SIGNS)


class ExplainSettings(NamedTuple):
    """How much to explain, and for what kind of screen."""

    most: int = 3
    register: Optional[str] = None  # this one alone
    width: int = 100
    paint: Painter = Painter(False)
    bounds: Sequence[str] = ()  # options of regsearch, where it decided
    reach: Callable[[int], None] = lambda runs: None  # is told how many runs of it there were so far


def explain(history: History, report: Report, settings: ExplainSettings) -> str:
    """The explanation of each faulty register that is asked for. Raises NotOfHistory."""
    faulty = [row for row in report.faulty if settings.register in (None, row["register"])]
    page = Page(settings.width, settings.paint)
    try:
        for row in faulty[:settings.most]:
            if "cas" not in row:
                explain_register(page, history, row)
                continue
            from regkit.explain.search_explanation import explain_search  # only a search waits for this
            from regkit.explain.shrinking import ShrinkSettings

            explain_search(page, history, row, ShrinkSettings(settings.bounds, settings.reach))
    except (KeyError, TypeError, AssertionError) as error:
        raise NotOfHistory from error
    rest = len(faulty) - settings.most
    if rest > 0:
        more = counted(rest, "more faulty register")
        page.lines += ["", f"And {more}: --most says how many are explained."]
    return page.text().lstrip("\n")


def explain_text(history: bytes, report: bytes, bounds: Sequence[str] = ()) -> str:
    """The explanation as plain text, for a test that failed. The bounds are options of regsearch."""
    return explain(read_history(history), read_report(report), ExplainSettings(bounds=bounds))
