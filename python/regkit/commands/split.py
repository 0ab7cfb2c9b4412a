"""`regkit split`: a history of any size as parts that can be checked apart."""
import argparse
import io
import os
import stat
import sys
from functools import partial
from typing import BinaryIO, Callable, Optional

from regkit.base.garbage import many_objects
from regkit.base.statuses import ExitStatus
from regkit.checker.programs import (CHECK, SEARCH, Answer, NoChecker, find_program, run_checker,
                                     run_search)
from regkit.checker.refusals import Refusal, read_refusal
from regkit.commands.stopping import complain
from regkit.history.inputs import opened
from regkit.parts.answers import line_map
from regkit.parts.folder import BLANK, MAP, MAX_PARTS, Manifest, file_of
from regkit.parts.sizes import CannotSplit
from regkit.parts.splitting import split
from regkit.parts.writing import Plan
from regkit.words.progress import Progress

MAP_FROM = 1 << 30  # bytes of a history; some twenty million lines
NO_SEARCH = ("--steps", "1")  # a refusal comes before any search

HELP = "split a history of any size into parts that can be checked apart"
EPILOG = """\
Each part has whole registers, and is a history again. A history is atomic exactly if each of its registers
is, so the parts answer for the whole: an engine checks each of them, then regkit join DIR. One program checks
all parts, and split.json names it: regsearch if regcheck doesn't take a line or a value again, else regcheck;
with --levels, reglevel. docs/scale.md says more. docs/ and engines/ are in the repository, and in share/doc/regcheck of a release.

examples:
  regkit split history.jsonl parts --parts 8
  cat log.3 log.2 log.1 | regkit split - parts --parts 8
  engines/with_parallel parts; regkit join parts
  regkit split history.jsonl parts --parts 8 --levels

exit status:
  0    the parts are written
  2    the history is refused; standard error says why, as regcheck or regsearch would
  3    the command line is refused
  4    input or output failed, or no program was found to say why the history is refused
  5    a part or a register is larger than one run takes: standard error says which, and what can be done
  130  it was interrupted

Unless it ends with 0 or 2, no part is left, and the same command can be given again.
"""


def part_count(word: str) -> int:
    if not word.isdecimal() or not 1 <= int(word) <= MAX_PARTS:
        raise argparse.ArgumentTypeError(f"a number from 1 to {MAX_PARTS} is needed, not {word!r}")
    return int(word)


def add_arguments(parser: argparse.ArgumentParser) -> None:
    parser.add_argument("history", metavar="HISTORY", help="a file, or - for standard input")
    parser.add_argument("directory", metavar="DIR", help="the folder for the parts: new, or empty")
    parser.add_argument("--parts", metavar="N", type=part_count, required=True,
                        help=f"how many, 1 to {MAX_PARTS}: the number of events divided by 700,000, or more")
    parser.add_argument("--levels", action="store_true",
                        help="let the parts be checked by reglevel, for which levels each register kept; "
                             "causal, which is of all registers together, gets lost")
    parser.add_argument("--lines", choices=["auto", BLANK, MAP], default="auto",
                        help="what keeps the line numbers of the whole: blank lines in each part, or a map "
                             "beside it; auto, the default, is blank lines up to 1 GiB of history, and a map "
                             "beyond that and for standard input")


def run(arguments: argparse.Namespace) -> int:
    try:
        manifest = split_named(arguments)
    except CannotSplit as error:
        return complain("split", str(error), ExitStatus.TOO_LARGE)
    except KeyboardInterrupt:
        words = f"interrupted: no part is left in {arguments.directory}, so the same command begins again"
        return complain("split", words, ExitStatus.INTERRUPTED)
    if manifest.stopped is not None:
        return refuse(arguments.directory, manifest)
    print(f"{arguments.directory}: {manifest.events} events on {len(manifest.registers)} registers "
          f"in {manifest.parts} parts, for {manifest.program}", file=sys.stderr)
    return ExitStatus.DONE


def split_named(arguments: argparse.Namespace) -> Manifest:
    with opened(arguments.history) as stream, many_objects(), Progress() as progress:
        size = size_of(stream)
        lines = line_form(arguments.lines, size)
        plan = Plan(arguments.history, arguments.directory, arguments.parts, lines, arguments.levels)
        progress.step("splitting", size or 0)
        return split(stream, plan, progress.reach)


def size_of(stream: BinaryIO) -> Optional[int]:
    """The bytes of a regular file, None of anything else."""
    try:
        found = os.fstat(stream.fileno())
    except io.UnsupportedOperation:  # what gzip packed
        return None
    return found.st_size if stat.S_ISREG(found.st_mode) else None


def line_form(asked: str, size: Optional[int]) -> str:
    if asked != "auto":
        return asked
    return BLANK if size is not None and size <= MAP_FROM else MAP


def refuse(directory: str, manifest: Manifest) -> int:
    """Says why the history is refused, for the line at which split stopped or an earlier one.

    An earlier line may be refused for a reason that only the checker looks for, so it is asked about every
    part. That is regcheck where there is no regsearch, which takes more."""
    program, why = CHECK, ""
    try:
        searcher = find_program(SEARCH) if manifest.program == SEARCH else None
        if searcher is None:
            found = first_refused(directory, manifest, run_checker)
        else:
            program = SEARCH
            search = partial(run_search, options=NO_SEARCH, program=searcher)
            found = first_refused(directory, manifest, search)
    except NoChecker as error:
        found, why = None, str(error)
    if found is None:
        why = why or f"{program} accepts it, which is a defect of regkit: please report the line"
        words = f"line {manifest.stopped} can't be accepted, and no later line was read: {why}"
        return complain("split", words, ExitStatus.FAILED)
    print(found, file=sys.stderr)
    return ExitStatus.REFUSED


def first_refused(directory: str, manifest: Manifest, check: Callable[[bytes], Answer]) -> Optional[Refusal]:
    """The first refusal of a program, with the lines of the whole. Raises NoChecker."""
    found: list[Refusal] = []
    for part in range(manifest.parts):
        answer = check(file_of(directory, part, "jsonl").read_bytes())
        if answer.status != ExitStatus.REFUSED:
            continue
        refusal = read_refusal(answer.refusal, line_map(directory, part, manifest))
        if refusal is not None:
            found.append(refusal)
    return min(found, key=lambda refusal: refusal.rank) if found else None
