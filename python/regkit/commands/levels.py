"""`regkit levels`: which guarantees a history kept, and how old its reads were."""
import argparse
import os
import pathlib
import sys
from functools import partial
from typing import NamedTuple, Optional

from regkit.base.garbage import many_objects
from regkit.base.statuses import ExitStatus
from regkit.checker.levels import DISTINCT, REQUIRED, Levels, levels_in
from regkit.checker.programs import Answer, NoChecker, judge_levels
from regkit.commands.stopping import Stop, complain
from regkit.explain.advice import advice
from regkit.history.inputs import STANDARD_INPUT, TooLong, read_input, shown_name
from regkit.history.operations import NotAHistory, read_history
from regkit.history.texts import Contradictory
from regkit.judging.failures import file_failure, program_failure
from regkit.judging.other_forms import NotTaken, hint_of, taken_of
from regkit.judging.outcome import gravest
from regkit.levels.account import account, heading, required
from regkit.levels.subject import Places, Subject
from regkit.pictures.page import levels_page
from regkit.words.colour import CHOICES, painter
from regkit.words.phrases import joined
from regkit.words.progress import Progress
from regkit.words.quoting import plain
from regkit.words.verdicts import STYLES

HELP = "say which weaker guarantees a history kept, and how old its reads were"
EPILOG = """\
examples:
  regkit levels history.jsonl
  regkit levels --require session runs/*.jsonl        in CI, for a store that promises no more
  regkit levels --page levels.html history.jsonl      draws it too: when stale reads came, and each fault
  regkit levels store/latest/history.edn              a file of any form that `regkit convert` takes

It asks reglevel, which takes the histories that regcheck takes. docs/levels.md explains the levels:
  atomic      linearizable: each read gives the latest write
  regular     no read is stale: none misses a write that ended before it began
  session     writes in real time; each session sees its own operations in order
  own_writes  writes in real time; no session misses a write of its own (read your writes)
  monotonic   writes in real time; no session goes back to an older value (monotonic reads)
  sequential  each session in order, and all agree on one order of the writes
  causal      of all registers together: who knows of a write, by whatever it read, doesn't miss it

A session is a process. Times are those of the lines, if they have them; otherwise ages are counted in events.

exit status, of several histories the first in the order 4, 3, 2, 1, 6, 0:
  0  the required level was kept: by each register, or if it is causal, by the whole history
  1  it wasn't
  2  refused: the input is no history that reglevel takes; standard error says what to do
  3  wrong command line
  4  input, memory, output or reglevel failed
  6  causal is required, and unknown: the history has too many sessions for its length
"""


class Found(NamedTuple):
    """A history with the answer of reglevel, and what there is to say of the file it came from."""

    history: bytes
    answer: Answer
    told: list[str]


def add_arguments(parser: argparse.ArgumentParser) -> None:
    parser.add_argument("files", metavar="FILE", nargs="*", help="histories; - or none is standard input")
    parser.add_argument("--require", choices=REQUIRED, metavar="LEVEL",
                        help=f"the level on which the exit status depends: {joined(REQUIRED, 'or')} (default "
                             "atomic)")
    parser.add_argument("--page", metavar="FILE.html", type=pathlib.Path,
                        help="also draw the levels, the stale reads and the faults of one history on a page")
    parser.add_argument("--color", choices=CHOICES, default="auto",
                        help="colour: on a terminal unless NO_COLOR is set (default), always, or never")


def answered(data: bytes, arguments: argparse.Namespace) -> Found:
    """The answer to the history in a file of any form. A page shows orders too. Raises NotTaken."""
    ask = partial(judge_levels, level=arguments.require, stale=True, orders=bool(arguments.page))
    answer = ask(data)
    taken = taken_of(data, answer)
    if taken is None:
        return Found(data, answer, [])
    return Found(taken.history, ask(taken.history), list(taken.told))


def refused(found: Found, name: str) -> Stop:
    refusal = found.answer.refusal
    hint = DISTINCT if "value already written" in refusal else advice(found.history, refusal, name)
    return Stop(ExitStatus.REFUSED, f"refused: {refusal}", hint)


def report_in(found: Found, name: str, level: Optional[str]) -> Levels:
    """The report that reglevel wrote. Raises Stop if it wrote none, or one that can't be true."""
    answer = found.answer
    if answer.status == ExitStatus.REFUSED:
        raise refused(found, name)
    if not answer.decided:
        raise Stop(ExitStatus.FAILED, program_failure(answer))
    try:
        return levels_in(answer, level or "atomic")
    except (ValueError, KeyError) as error:
        raise Stop(ExitStatus.FAILED, f"the answer of reglevel is wrong: {error}") from error


def write_page(path: pathlib.Path, page: str) -> None:
    try:
        path.write_text(page, encoding="utf-8", errors="surrogateescape")
    except OSError as error:
        raise Stop(ExitStatus.FAILED, file_failure("", error)) from error


def told_of(name: str, arguments: argparse.Namespace, progress: Progress) -> int:
    """Says what one history kept, and gives its status. Raises Stop, and whatever goes wrong with a file."""
    label, level = plain(shown_name(name)), arguments.require
    data = read_input(name)
    progress.step(f"{label}: deciding")
    found = answered(data, arguments)
    levels = report_in(found, name, level)
    progress.step(f"{label}: reading", found.history.count(b"\n"))
    history = read_history(found.history, progress.reach)
    subject = Subject(history, levels, Places(found.history, history))
    try:
        lines = account(subject)
        page = levels_page(subject, os.path.basename(shown_name(name)), found.told) if arguments.page else ""
    except (KeyError, TypeError, ValueError, IndexError) as error:
        raise Stop(ExitStatus.FAILED, "the answer of reglevel isn't of this history") from error
    if arguments.page:
        write_page(arguments.page, page)
    paint = painter(arguments.color, sys.stdout)
    said = paint(STYLES[found.answer.status], heading(levels.summary))
    asked = [required(levels, level)] if level else []
    told = [f"  {plain(line)}" for line in found.told]
    progress.say("\n".join([f"{label}: {said}", *asked, *lines, *told]), sys.stdout)
    return found.answer.status


def stopped(name: str, arguments: argparse.Namespace, progress: Progress) -> int:
    """The same. Whatever goes wrong with one history is told, and its status is given. Raises Stop alone."""
    try:
        with many_objects():
            return told_of(name, arguments, progress)
    except TooLong as error:
        hint = advice(error.beginning, str(error), name)
        raise Stop(ExitStatus.REFUSED, f"refused: {error}", hint) from error
    except NotTaken as error:
        raise Stop(ExitStatus.REFUSED, f"refused: {error}", hint_of(error, name, "levels")) from error
    except (NotAHistory, Contradictory) as error:
        raise Stop(ExitStatus.REFUSED, str(error)) from error
    except OSError as error:
        raise Stop(ExitStatus.FAILED, file_failure(name, error)) from error
    except NoChecker as error:
        raise Stop(ExitStatus.FAILED, str(error)) from error


def run(arguments: argparse.Namespace) -> int:
    files: list[str] = arguments.files or [STANDARD_INPUT]
    if files.count(STANDARD_INPUT) > 1:
        return complain("levels", "standard input can be read once: give - once", ExitStatus.COMMAND_LINE)
    if arguments.page is not None and len(files) > 1:
        return complain("levels", "--page is of one history: give one", ExitStatus.COMMAND_LINE)
    statuses = []
    with Progress() as progress:
        for name in files:
            try:
                statuses.append(stopped(name, arguments, progress))
            except Stop as stop:
                hint = f"\n  {stop.hint}" if stop.hint else ""
                words = f"regkit levels: {plain(shown_name(name))}: {plain(str(stop))}{hint}"
                progress.say(words, sys.stderr)
                statuses.append(stop.status)
    return gravest(statuses)
