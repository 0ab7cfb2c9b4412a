"""`regkit join`: the reports of the parts as the report of the whole history."""
import argparse
import sys
from typing import NamedTuple, Sequence, Union

from regkit.base.limits import MAX_EVENTS
from regkit.base.statuses import ExitStatus
from regkit.checker.levels import CAUSAL, REQUIRED, status_of
from regkit.checker.programs import CHECK, LEVEL, SEARCH
from regkit.commands.stopping import complain
from regkit.parts.answers import (STATUSES, Answered, PartOutcome, RefusedPart, Unanswered, command_again,
                                  outcomes)
from regkit.parts.folder import Manifest, NotSplit, read_manifest
from regkit.parts.joining import verdict_of, write_report
from regkit.words.phrases import joined
from regkit.words.progress import Progress

HELP = "join the reports of the parts of a split history into the report of the whole"
EPILOG = """\
DIR is a folder that regkit split made, in which every part was checked: part-NNN.report, part-NNN.err and
part-NNN.status are beside part-NNN.jsonl. The report is, byte for byte, the one that one run over the whole
history would write: of regcheck, or of regsearch or reglevel if that checked every part. Of reglevel it lacks
the gaps, which count events, and causal, which is of all registers together: a part has not all of them.
docs/scale.md says more: it is in the repository, and in share/doc/regcheck of a release.

examples:
  regkit join parts > history.report
  regkit join --order never parts > history.report

exit status:
  0  every part is atomic, or keeps the required level, so the whole history does
  1  some part doesn't
  2  the history is refused; standard error says why, as the program would
  3  the command line is refused
  4  a part has no answer, or one of another program than all need: standard error names it, with the
     command that runs it again; or output failed
  6  some part is unknown, and no part is known not to be atomic
"""

WITHOUT_CAUSAL = "the report says nothing of causal, which is of all registers together"


def add_arguments(parser: argparse.ArgumentParser) -> None:
    parser.add_argument("directory", metavar="DIR", help="the folder of the parts")
    parser.add_argument("--order", choices=["auto", "always", "never"], default="auto",
                        help="whether the summary has the merged order of all registers; auto, the default, "
                             f"is yes up to {MAX_EVENTS} events, as many as one run takes; a report of "
                             "regsearch or reglevel has none")
    parser.add_argument("--require", choices=REQUIRED, metavar="LEVEL",
                        help="of reports of reglevel: the level on which the exit status depends, "
                             f"{joined(REQUIRED, 'or')} (default atomic); causal only of a history in one part")


def run(arguments: argparse.Namespace) -> int:
    try:
        manifest = read_manifest(arguments.directory)
    except NotSplit as error:
        return complain("join", str(error), ExitStatus.FAILED)
    with Progress() as progress:
        progress.step("reading the answers")
        found = list(outcomes(arguments.directory, manifest))
    program = program_to_run(found, manifest)
    again = to_run_again(found, program)
    if again:
        return ask_to_run_again(arguments.directory, again, program)
    refused = min((each for each in found if isinstance(each, RefusedPart)),
                  key=lambda each: each.refusal.rank, default=None)
    if refused is not None:
        print(refused.refusal, file=sys.stderr)
        return ExitStatus.REFUSED
    if manifest.stopped is not None:
        words = (f"the checker accepts line {manifest.stopped}, and regkit split could not read it, so no "
                 "later line was checked. This is a defect of regkit: please report the line")
        return complain("join", words, ExitStatus.FAILED)
    return write([each for each in found if isinstance(each, Answered)], manifest, arguments)


class Again(NamedTuple):
    """A part that has to run again."""

    part: int
    why: str  # as a person would go on after its name


def to_run_again(found: Sequence[PartOutcome], program: str) -> list[Again]:
    """The parts without an answer; if there are none, those of another program than all need."""
    unanswered = [Again(each.part, f"has no answer: {each.why}")
                  for each in found if isinstance(each, Unanswered)]
    if unanswered:
        return unanswered
    return [Again(each.part, f"was checked by {each.program}, and all parts need {program}") for each in found
            if not isinstance(each, Unanswered) and not is_of(each, program)]


def is_of(part: Union[Answered, RefusedPart], program: str) -> bool:
    """Whether a program may have answered so. The refusals of reglevel are those of regcheck."""
    is_refusal_of_both = isinstance(part, RefusedPart) and program == LEVEL and part.program == CHECK
    return part.program in (program, None) or is_refusal_of_both


def program_to_run(found: Sequence[PartOutcome], manifest: Manifest) -> str:
    """Which program is to check all parts: that of the manifest, or regsearch if any part has one of it and
    levels weren't asked for."""
    programs = [each.program for each in found if not isinstance(each, Unanswered)]
    return SEARCH if SEARCH in programs and manifest.program == CHECK else manifest.program


def write(parts: list[Answered], manifest: Manifest, arguments: argparse.Namespace) -> int:
    program, order, level = parts[0].program, arguments.order, arguments.require
    if program != CHECK and order == "always":
        return complain("join", f"a report of {program} has no merged order: leave out --order",
                        ExitStatus.COMMAND_LINE)
    if program != LEVEL and level:
        return complain("join", f"a report of {program} has no levels: leave out --require, or split with "
                        "--levels", ExitStatus.COMMAND_LINE)
    if program == LEVEL and level == CAUSAL and len(parts) > 1:
        return complain("join", "causal is of all registers together, and doesn't come together from parts: "
                        "give reglevel the whole history", ExitStatus.COMMAND_LINE)
    with_order = order == "always" or (order == "auto" and manifest.events <= MAX_EVENTS)
    with Progress() as progress:
        progress.step("joining", len(manifest.registers))
        write_report(parts, manifest, with_order and program == CHECK, sys.stdout.buffer, progress.reach)
    if program != LEVEL:
        return STATUSES[verdict_of(parts)]
    if len(parts) > 1:
        print(f"regkit join: {WITHOUT_CAUSAL}", file=sys.stderr)
    return max(status_of(part.summary, level or "atomic") for part in parts)


def ask_to_run_again(directory: str, parts: Sequence[Again], program: str) -> int:
    for each in parts:
        print(f"part-{each.part:03} {each.why}; run it again:", file=sys.stderr)
        print(f"  {command_again(directory, each.part, program)}", file=sys.stderr)
    return ExitStatus.FAILED
