"""The runs of a folder as a page: when, the verdict, and a link to the picture of each, newest first."""
import os
import pathlib
from datetime import datetime, timezone
from typing import NamedTuple, Optional
from urllib.parse import quote

from regkit.base.statuses import ExitStatus
from regkit.drawing.page import document
from regkit.drawing.svg import tag
from regkit.drawing.text import name, with_code, words
from regkit.judging.outcome import Outcome
from regkit.words.levels import in_words
from regkit.words.phrases import capital, counted
from regkit.words.quoting import plain
from regkit.words.verdicts import VERDICTS

ENDINGS = (".jsonl", ".jsonl.gz")
PICTURES = "pictures"  # the folder of the pictures, in that of the histories


class ListedRun(NamedTuple):
    """A history, when its file was written, what came out, and the page with its picture if there is one."""

    path: pathlib.Path
    changed: float  # seconds since 1970
    outcome: Outcome
    picture: Optional[pathlib.Path]


def runs_in(folder: pathlib.Path) -> list[pathlib.Path]:
    """The histories of a folder, the newest first. Raises OSError."""
    paths = [path for path in folder.iterdir() if path.name.endswith(ENDINGS) and path.is_file()]
    return sorted(paths, key=lambda path: (-path.stat().st_mtime, path.name))


def link(path: pathlib.Path, page: pathlib.Path, content: str) -> str:
    """A link from a page to a file, however the file is named."""
    return tag("a", content, href=quote(os.fsencode(os.path.relpath(path, page.parent))))


def kept_of(outcome: Outcome) -> str:
    """`session; gap 5 events`: the strongest levels that a run kept, and its gap. Empty if they aren't
    known."""
    if outcome.kept is None:
        return ""
    gap = "" if outcome.gap is None else f"; gap {counted(outcome.gap, 'event')}"
    return f"{in_words(outcome.kept) or 'no level'}{gap}"


def row(run: ListedRun, page: pathlib.Path, with_levels: bool) -> str:
    when = datetime.fromtimestamp(run.changed, timezone.utc)
    kind = "yes" if run.outcome.status == ExitStatus.ATOMIC else "no"
    shown = name(run.path.name) if run.picture is None else link(run.picture, page, name(run.path.name))
    faults = [capital("; ".join(fault.sentences[:2])) for fault in run.outcome.faults]
    said = [words(plain(each)) for each in (run.outcome.words, *faults)]
    said += [with_code(plain(run.outcome.advice))] if run.outcome.advice else []
    cells = [tag("td", f"{when:%Y-%m-%d %H:%M} UTC", class_="when"),
             tag("td", words(VERDICTS[run.outcome.status]), class_=kind), tag("td", shown),
             *([tag("td", words(kept_of(run.outcome)))] if with_levels else []), tag("td", "<br>".join(said))]
    return tag("tr", "".join(cells))


def page(runs: list[ListedRun], found: int, folder: pathlib.Path, output: pathlib.Path) -> str:
    """The whole page, which will stand at `output`. There may be more runs in the folder than are listed."""
    wrong = sum(run.outcome.status == ExitStatus.NOT_ATOMIC for run in runs)
    listed = ("" if len(runs) == found else f"The newest {len(runs):,} of ") + counted(found, "run")
    levels = any(run.outcome.kept is not None for run in runs)
    heads = ["Written", "Verdict", "Run", *(["Keeps"] if levels else []), "What came out"]
    head = "".join(tag("th", words(each)) for each in heads)
    title = folder.resolve().name
    rows = "\n".join(row(run, output, levels) for run in runs)
    body = [tag("h1", f"Runs of {name(title)}"),
            tag("p", words(f"{listed}; {wrong:,} not linearizable."), class_="sub"),
            tag("table", tag("tr", head) + rows, class_="runs")]
    return document(f"Runs of {title}", "\n".join(body))
