"""The page: the verdict in words, the legend, and a section for each register that is shown."""
import pathlib
from typing import NamedTuple, Optional, Sequence

from regkit.base.statuses import ExitStatus
from regkit.checker.report import Report, Row
from regkit.drawing.legend import legend
from regkit.drawing.section import section
from regkit.drawing.style import STYLE
from regkit.drawing.svg import tag
from regkit.drawing.text import attribute, name, with_code, words
from regkit.drawing.walk import SCRIPT, known, scripts, source_of
from regkit.explain.shrinking import ShrinkSettings
from regkit.history.operations import History
from regkit.words.levels import kept_in_words
from regkit.words.phrases import capital, counted
from regkit.words.verdicts import VERDICTS

MOST_LISTED = 12  # names of registers that aren't drawn
HEAD = 1024  # bytes of a page in which its title begins
TICK, CROSS = "M7 12.5 l3.5 3.5 l6.5 -8", "M8 8 l8 8 m0 -8 l-8 8"
QUESTION = "M8.6 9.6 a3.4 3.4 0 1 1 5 3 q-1.6 .8 -1.6 2.4 m0 2.3 v1.4"
STRIPES = ('<svg class="defs" aria-hidden="true"><defs><pattern id="stripes" width="7" height="7" '
           'patternUnits="userSpaceOnUse" patternTransform="rotate(45)">'
           '<rect class="stripe-ground" width="7" height="7"/><rect class="stripe" width="3" height="7"/>'
           '</pattern></defs></svg>')


class DrawSettings(NamedTuple):
    """What to show."""

    most: int = 5  # registers
    registers: Sequence[str] = ()  # these alone, if there are any
    shrinking: ShrinkSettings = ShrinkSettings()  # by which what a search found is made small
    kept: Optional[Sequence[str]] = None  # the strongest levels that a faulty history kept, if they are known


def policy(with_script: bool) -> str:
    """Nothing is loaded. The one style sheet and the one script are named by their hashes, so that even a
    style or a script that found its way into the page would do nothing."""
    script = f" script-src {source_of(SCRIPT)};" if with_script else ""
    return (f"default-src 'none'; style-src {source_of(STYLE)};{script} base-uri 'none'; "
            "form-action 'none'")


def chosen_rows(history: History, report: Report, settings: DrawSettings) -> list[Row]:
    """The registers that are shown: those asked for, else the faulty ones, else all; the first few of
    them."""
    by_name = {row["register"]: row for row in report.rows}
    rows: list[Row] = [by_name.get(register, {"register": register}) for register in history.registers]
    if settings.registers:
        for register in settings.registers:
            history.must_have(register)
        return [row for row in rows if row["register"] in settings.registers]
    return (report.faulty or report.unknown or rows)[:settings.most]


def is_unknown(report: Report) -> bool:
    """Whether a search gave up, and no register is known not to be linearizable."""
    return bool(report.unknown) and not report.faulty


def verdict_word(report: Report) -> str:
    """The verdict in the terminal's words."""
    if is_unknown(report):
        return VERDICTS[ExitStatus.UNKNOWN]
    return VERDICTS[ExitStatus.ATOMIC if report.atomic else ExitStatus.NOT_ATOMIC]


def shows_unknown(page: pathlib.Path) -> bool:
    """Whether a page is of a history that a search gave up, by its title."""
    title = f"<title>{capital(VERDICTS[ExitStatus.UNKNOWN])}: ".encode("utf-8")
    with open(page, "rb") as stream:
        return title in stream.read(HEAD)


def verdict(report: Report, title: str) -> str:
    kind, mark = ("yes", TICK) if report.atomic else ("no", CROSS)
    if is_unknown(report):
        kind, mark = "unknown", QUESTION
    return tag("h1", f"{verdict_icon(mark)}{capital(verdict_word(report))}: {name(title)}",
               class_=f"verdict {kind}")


def verdict_icon(mark: str) -> str:
    """A mark in a disc, before the verdict."""
    return tag("svg", tag("circle", cx=12, cy=12, r=11) + tag("path", d=mark), viewBox="0 0 24 24",
               aria_hidden="true")


def summary(history: History, report: Report) -> str:
    """The size of the history, and how many of its registers are at fault or unknown."""
    operations = sum(not call.failed for call in history.calls)
    failed, crashed = len(history.calls) - operations, len(history.crashes)
    parts = [f"{counted(operations, 'operation')} on {counted(len(history.registers), 'register')}"]
    if len(report.rows) < len(history.registers):
        parts.append("an early answer, which names the first register that isn't linearizable and no other")
    elif len(history.registers) > 1 and report.faulty:
        parts.append(f"{len(report.faulty):,} of them not linearizable")
    if len(history.registers) > 1 and report.unknown:
        parts.append(f"{len(report.unknown):,} of them unknown")
    if failed:
        parts.append(f"{counted(failed, 'call')} failed")
    if crashed:
        parts.append(f"{crashed:,} process{'es' if crashed > 1 else ''} crashed")
    return tag("p", words("; ".join(parts) + "."), class_="sub")


def page(history: History, report: Report, title: str, settings: DrawSettings) -> str:
    rows = chosen_rows(history, report, settings)
    sections = [section(history, row, settings.shrinking) for row in rows]
    body = [STRIPES, verdict(report, title), summary(history, report)]
    if settings.kept is not None and report.faulty:
        said = capital(f"{kept_in_words(settings.kept)}: `regkit levels --page` draws more.")
        body.append(tag("p", with_code(said), class_="sub"))
    if not rows:
        body.append(tag("p", words("The history has no operation, so there is nothing to draw.")))
    key = legend((scene for each in sections for scene in each.scenes), bool(history.crashes))
    for number, each in enumerate(sections):
        body.append(tag("section", each.heading + (key if number == 0 else "") + each.pictures))
    body.append(left_out(history, report, rows))
    drawn = known((scene for each in sections for scene in each.scenes), (each.order for each in sections))
    return document(f"{capital(verdict_word(report))}: {title}", "\n".join(body), drawn if rows else None)


def left_out(history: History, report: Report, rows: list[Row]) -> str:
    """The registers that aren't shown, the faulty ones first, and then those that a search gave up."""
    state_of = {row["register"]: "unknown" for row in report.unknown}
    state_of.update({row["register"]: "not linearizable" for row in report.faulty})
    shown = {row["register"] for row in rows}
    hidden: dict[str, list[str]] = {"not linearizable": [], "unknown": [], "not drawn": []}
    for register in history.registers:
        if register not in shown:
            hidden[state_of.get(register, "not drawn")].append(register)
    text = ""
    for state, names in hidden.items():
        if names:
            kind = "other" if state == "not drawn" or (state == "unknown" and report.faulty) else "more"
            verb = "is" if len(names) == 1 else "are"
            sentence = f"{counted(len(names), f'{kind} register')} {verb} {state}: {listed(names)}."
            text += tag("p", sentence, class_="note")
    return text


def listed(names: list[str]) -> str:
    """The first few names."""
    more = f", and {len(names) - MOST_LISTED:,} more" if len(names) > MOST_LISTED else ""
    return ", ".join(map(name, names[:MOST_LISTED])) + more


def document(title: str, body: str, drawn: Optional[str] = None) -> str:
    """A whole page. If it has pictures, `drawn` is what the script has to know of them."""
    return ('<!doctype html>\n<html lang="en" dir="ltr"><head><meta charset="utf-8">'
            f'<meta http-equiv="Content-Security-Policy" content="{policy(drawn is not None)}">'
            '<meta name="viewport" content="width=device-width, initial-scale=1">'
            f"<title>{attribute(title)}</title><style>{STYLE}</style></head>\n<body>{body}"
            f"{'' if drawn is None else scripts(drawn)}</body></html>\n")
