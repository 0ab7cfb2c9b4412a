"""`regkit draw`: a page that shows a history, and what is wrong with it."""
import argparse
import os
import sys
from typing import Optional, Sequence

from regkit.base.garbage import many_objects
from regkit.base.statuses import ExitStatus
from regkit.checker.programs import NoChecker, with_search_hint
from regkit.checker.report import Report, read_report
from regkit.commands.options import add_bounds, bounds_of
from regkit.commands.stopping import Stop, complain
from regkit.drawing.draw import page_of
from regkit.drawing.page import DrawSettings
from regkit.explain.looks import shell_name
from regkit.explain.shrinking import MOST_RUNS, ShrinkSettings
from regkit.history.inputs import TooLong, read_input, shown_name
from regkit.history.operations import NoRegister, read_history
from regkit.judging.other_forms import NotTaken, decide_any, hint_of
from regkit.judging.trust import Untrue, levels_kept
from regkit.words.progress import Progress
from regkit.words.quoting import plain

HELP = "draw a history on a page for a browser: the fault, or the order of a yes"
EPILOG = """\
examples:
  regkit draw h.jsonl -o h.html               runs regcheck or regsearch, and draws what it says
  regkit draw h.jsonl h.report -o h.html      draws a report that is there already
  regkit draw h.jsonl --register x -o h.html  draws one register
  regkit draw history.edn -o h.html           a file of any form that `regkit convert` takes

The page stands alone: one file, nothing loaded. Its one script lets you zoom, click on an operation, take the
order step by step, and search; without scripts the page shows the same. It begins with the fault of the first
register that isn't linearizable. If all are, it shows the point at which each operation takes effect. If the search
gave up on some, it shows those and says what to do. Of a long history it shows windows around what matters,
and says what is left out.

exit status:
  0  the page was written, whatever it says
  2  the history is refused, or the report visibly isn't of it (`regkit verify` checks every claim)
  3  the command line is wrong
  4  a file couldn't be read or written, or regcheck wasn't found
"""


def add_arguments(parser: argparse.ArgumentParser) -> None:
    parser.add_argument("history", metavar="HISTORY", help="the history; - is standard input")
    parser.add_argument("report", metavar="REPORT", nargs="?",
                        help="its report; without one, regcheck or regsearch is run")
    parser.add_argument("-o", "--output", metavar="OUT.html", required=True,
                        help="the page; - is standard output")
    parser.add_argument("--register", metavar="NAME", action="append", default=[],
                        help="draw this register; may be given again")
    parser.add_argument("--most", metavar="N", type=positive, default=5,
                        help="draw at most N registers (default 5)")
    add_bounds(parser)


def positive(word: str) -> int:
    number = int(word)
    if number < 1:
        raise ValueError(word)
    return number


def run(arguments: argparse.Namespace) -> int:
    if arguments.history == arguments.report == "-":
        return complain("draw", "only one of the files can be standard input", ExitStatus.COMMAND_LINE)
    try:
        write(arguments.output, drawn(arguments))
        return ExitStatus.DONE
    except Stop as stop:
        return complain("draw", str(stop), stop.status)
    except NoChecker as error:
        return complain("draw", str(error), ExitStatus.FAILED)
    except NoRegister as error:
        return complain("draw", f"{shown_name(arguments.history)}: {error}", ExitStatus.COMMAND_LINE)
    except (TooLong, ValueError) as error:
        return complain("draw", f"{shown_name(arguments.history)}: {error}", ExitStatus.REFUSED)


def drawn(arguments: argparse.Namespace) -> str:
    """The page. Raises Stop if there is no report, and ValueError if the report isn't of the history."""
    with Progress() as progress, many_objects():
        data = read_input(arguments.history)
        progress.step("regcheck")
        if arguments.report is None:
            data, written = new_report(arguments, data, progress)
        else:
            written = read_input(arguments.report)
        report = read_report(written)
        progress.step("reading", data.count(b"\n"))
        history = read_history(data, progress.reach)
        progress.step("drawing", MOST_RUNS if report.by_search else 0)
        title = os.path.basename(shown_name(arguments.history))
        shrinking = ShrinkSettings(bounds_of(arguments), progress.reach)
        held = kept_of(data, report)
        settings = DrawSettings(arguments.most, arguments.register, shrinking, held)
        return page_of(history, report, title, settings)


def kept_of(data: bytes, report: Report) -> Optional[Sequence[str]]:
    """The strongest levels of a history that isn't linearizable, if reglevel is there. Raises Stop if it
    contradicts the report."""
    if report.by_search or not report.faulty:
        return None
    try:
        return levels_kept(data).levels
    except Untrue as error:
        raise Stop(ExitStatus.REFUSED, f"the report isn't of this history: {error}") from error


def new_report(arguments: argparse.Namespace, data: bytes, progress: Progress) -> tuple[bytes, bytes]:
    """The history in a file of any form, and its report by a new run. Raises Stop."""
    try:
        history, answer, told = decide_any(data, bounds_of(arguments))
    except NotTaken as error:
        hint = hint_of(error, arguments.history, f"draw - -o {shell_name(arguments.output)}")
        words = plain(str(error)) + (f"\n  {hint}" if hint else "")
        raise Stop(ExitStatus.REFUSED, words) from error
    if not answer.decided:
        status = ExitStatus.REFUSED if answer.status == ExitStatus.REFUSED else ExitStatus.FAILED
        raise Stop(status, with_search_hint(answer.refusal, history, answer))
    for line in told:
        progress.say(f"regkit draw: {plain(line)}", sys.stderr)
    return history, answer.report


def write(name: str, page: str) -> None:
    data = page.encode("utf-8")
    if name == "-":
        sys.stdout.buffer.write(data)
        sys.stdout.buffer.flush()
        return
    with open(name, "wb") as stream:
        stream.write(data)
