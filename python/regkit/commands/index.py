"""`regkit index`: a page that lists the runs of a folder, newest first, with a picture of each."""
import argparse
import pathlib

from regkit.base.statuses import ExitStatus
from regkit.commands.options import add_bounds, bounds_of, count
from regkit.drawing.page import shows_unknown
from regkit.judging.judge import judge_file
from regkit.judging.pages import Pages
from regkit.judging.runs import PICTURES, ListedRun, page, runs_in
from regkit.judging.settings import CheckSettings
from regkit.words.phrases import counted
from regkit.words.progress import Progress
from regkit.words.quoting import plain

HELP = "check and draw the histories of a folder, and list them on a page, newest first"
EPILOG = """\
examples:
  regkit index runs                           writes runs/index.html, with the pictures in runs/pictures
  regkit index --most 20 runs -o latest.html  lists the newest 20 histories of runs alone

A history is a file whose name ends with .jsonl or .jsonl.gz. Its picture is drawn anew only if the history
is newer, or if the picture is of a search that gave up. The page and the pictures load nothing and have no
script. If reglevel is there, the page names the strongest level that each run kept which isn't linearizable,
and its gap.

exit status:
  0  the page was written, whatever it says
  3  the command line is wrong
  4  the folder couldn't be read, or the page or a picture couldn't be written
"""


def add_arguments(parser: argparse.ArgumentParser) -> None:
    parser.add_argument("folder", metavar="DIR", type=pathlib.Path, help="where the histories are")
    parser.add_argument("-o", "--output", metavar="OUT.html", type=pathlib.Path,
                        help="the page (default: index.html in DIR)")
    parser.add_argument("--most", metavar="N", type=count, default=100,
                        help="list at most N histories, the newest (default %(default)s)")
    add_bounds(parser)


def is_fresh(picture: pathlib.Path, changed: float) -> bool:
    """Whether a picture is newer than its history. One of a search that gave up may get another verdict by
    other bounds."""
    return picture.exists() and picture.stat().st_mtime >= changed and not shows_unknown(picture)


def judged(paths: list[pathlib.Path], pictures: pathlib.Path, settings: CheckSettings,
           progress: Progress) -> list[ListedRun]:
    """The runs with their outcomes. A picture that isn't fresh is drawn."""
    pages = Pages(pictures)
    runs = []
    for place, path in enumerate(paths, 1):
        picture, changed = pictures / f"{path.stem}.html", path.stat().st_mtime
        drawn = settings._replace(pages=None if is_fresh(picture, changed) else pages)
        outcome = judge_file(str(path), f"{plain(path.name)} ({place} of {len(paths)})", drawn, progress)
        page = pathlib.Path(outcome.drawing) if outcome.drawing else picture
        runs.append(ListedRun(path, changed, outcome, page if outcome.evidence is not None else None))
    return runs


def run(arguments: argparse.Namespace) -> int:
    folder: pathlib.Path = arguments.folder
    output: pathlib.Path = arguments.output or folder / "index.html"
    paths = runs_in(folder)
    with Progress() as progress:
        settings = CheckSettings(bounds=bounds_of(arguments), levels=True)
        runs = judged(paths[:arguments.most], folder / PICTURES, settings, progress)
    output.write_text(page(runs, len(paths), folder, output), encoding="utf-8", errors="surrogateescape")
    wrong = sum(each.outcome.status == ExitStatus.NOT_ATOMIC for each in runs)
    print(f"{plain(str(output))}: {counted(len(runs), 'run')}, {wrong:,} not linearizable")
    return ExitStatus.DONE
