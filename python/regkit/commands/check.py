"""`regkit check`: checks histories, and says in a few lines what came out."""
import argparse
import json
import pathlib
import sys
import time

from regkit.base.statuses import ExitStatus
from regkit.commands.options import add_bounds, bounds_of, count
from regkit.commands.stopping import complain
from regkit.history.inputs import STANDARD_INPUT, shown_name
from regkit.judging.judge import judge_file
from regkit.judging.outcome import Outcome, TimedOutcome, gravest, json_of, text_of
from regkit.judging.pages import Pages
from regkit.judging.settings import CheckSettings
from regkit.words.colour import CHOICES, Painter, painter
from regkit.words.progress import Progress
from regkit.words.quoting import plain
from regkit.words.verdicts import STYLES, VERDICTS

HELP = "check histories, and say in a few lines what came out"
EPILOG = """\
examples:
  regkit check history.jsonl
  regkit check --least-reads 100 --least-overlaps 20 runs/*.jsonl
  ./record_a_run | regkit check
  regkit check store/latest/history.edn log.csv               files of other tools, and tables
  regkit check --json --verify runs/*.jsonl > verdicts.jsonl
  regkit check --draw pages runs/*.jsonl
  regkit check --annotate --junit results.xml runs/*.jsonl    in CI: docs/recipes.md has the whole file

A file of any form that `regkit convert` takes without options is converted first, and the outcome says what
it was taken for. It is refused if it may have two forms, or if something has to be said about it.

A history that says nothing is no success: a yes needs at least one completed read, or what --least-reads and
--least-overlaps ask for.

regcheck decides what it takes. A history in which values repeat, or with compare-and-swap (cas), deletes or
swaps, is decided by regsearch, if that is there; a cas that was answered counts as a completed read. Where
regcheck says no, a line says which weaker guarantee was kept, if reglevel is there.

exit status, of several histories the first in the order 4, 3, 2, 1, 6, 5, 0:
  0  linearizable (atomic), with that evidence
  1  not linearizable
  2  refused: the input is no history, or too long; standard error says what to do
  3  wrong command line
  4  input, memory, output or regcheck failed, or --verify found the report wrong
  5  linearizable, with too little evidence
  6  unknown: the search gave up at --steps or --configurations, and found no fault elsewhere
"""


def add_arguments(parser: argparse.ArgumentParser) -> None:
    parser.add_argument("files", metavar="FILE", nargs="*", help="histories; - or none is standard input")
    parser.add_argument("--most", metavar="N", type=count, default=10,
                        help="show at most N faulty registers of each history (default %(default)s)")
    parser.add_argument("--least-reads", metavar="N", type=count, default=1,
                        help="a yes needs at least N completed reads (default %(default)s)")
    parser.add_argument("--least-overlaps", metavar="N", type=count, default=0,
                        help="and at least N of them that overlap a write (default %(default)s)")
    parser.add_argument("--count-all", action="store_true",
                        help="count the reads of the whole history, however long it is")
    parser.add_argument("--first", action="store_true",
                        help="stop at the first faulty register of each history")
    parser.add_argument("--verify", action="store_true",
                        help="check each claim of regcheck's answer, as `regkit verify` does")
    parser.add_argument("--draw", metavar="DIR", type=pathlib.Path,
                        help="draw each history, as `regkit draw` does, to a page in DIR")
    parser.add_argument("--junit", metavar="FILE",
                        help="write the outcomes to FILE in JUnit's XML too, a test for each history")
    parser.add_argument("--annotate", action="store_true",
                        help="print a line for each fault, which GitHub Actions shows beside the history's")
    add_bounds(parser)
    output = parser.add_mutually_exclusive_group()
    output.add_argument("--quiet", action="store_true",
                        help="print no verdicts, only what went wrong: the exit status tells the rest")
    output.add_argument("--json", action="store_true", help="print one JSON object for each history")
    parser.add_argument("--color", choices=CHOICES, default="auto",
                        help="colour: on a terminal unless NO_COLOR is set (default), always, or never")


def heading(outcome: Outcome, paint: Painter) -> str:
    verdict = paint(STYLES[outcome.status], VERDICTS[outcome.status])
    return f"{plain(shown_name(outcome.file))}: {verdict}: {outcome.words}"


def tell(outcome: Outcome, arguments: argparse.Namespace, progress: Progress) -> None:
    """Prints one outcome. Refusals and failures go to standard error, unless all is JSON."""
    if arguments.json:
        progress.say(json.dumps(json_of(outcome)).replace("\x7f", "\\u007f"), sys.stdout)
        return
    wrong = outcome.status in (ExitStatus.REFUSED, ExitStatus.FAILED)  # unknown is an answer
    if wrong or not arguments.quiet:
        stream = sys.stderr if wrong else sys.stdout
        lines = [heading(outcome, painter(arguments.color, stream)), *text_of(outcome)]
        progress.say("\n".join(lines), stream)
    if arguments.annotate and outcome.status != ExitStatus.ATOMIC:
        from regkit.judging.annotations import annotations  # only who asks for them waits for this

        progress.say("\n".join(annotations(outcome)), sys.stdout)


def wrong_words(arguments: argparse.Namespace) -> str:
    """What is wrong with the command line, if anything is."""
    if arguments.files.count(STANDARD_INPUT) > 1:
        return "standard input can be read once: give - once"
    if arguments.annotate and arguments.json:
        return "--annotate prints lines that are no JSON: leave out one of --annotate and --json"
    return ""


def settings_of(arguments: argparse.Namespace) -> CheckSettings:
    return CheckSettings(
        most=arguments.most, least_reads=arguments.least_reads, least_overlaps=arguments.least_overlaps,
        first=arguments.first, verify=arguments.verify, count_all=arguments.count_all,
        bounds=bounds_of(arguments), levels=True,
        pages=None if arguments.draw is None else Pages(arguments.draw))


def run(arguments: argparse.Namespace) -> int:
    wrong = wrong_words(arguments)
    if wrong:
        return complain("check", wrong, ExitStatus.COMMAND_LINE)
    files: list[str] = arguments.files or [STANDARD_INPUT]
    settings = settings_of(arguments)
    told: list[TimedOutcome] = []
    with Progress() as progress:
        for place, name in enumerate(files, 1):
            label = plain(shown_name(name)) + (f" ({place} of {len(files)})" if len(files) > 1 else "")
            began = time.monotonic()
            outcome = judge_file(name, label, settings, progress)
            told.append(TimedOutcome(outcome, time.monotonic() - began))
            tell(outcome, arguments, progress)
    if arguments.junit is not None:
        from regkit.judging.junit import document  # only who asks for it waits for this

        pathlib.Path(arguments.junit).write_text(document(told), encoding="utf-8")
    return gravest([timed.outcome.status for timed in told])
