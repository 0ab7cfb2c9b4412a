"""`regkit explain`: why a history isn't linearizable, in sentences."""
import argparse
import shutil
import sys

from regkit.base.garbage import many_objects
from regkit.base.limits import MAX_BYTES
from regkit.base.statuses import ExitStatus
from regkit.checker.programs import NoChecker
from regkit.checker.report import Report, Row, read_report
from regkit.commands.options import add_bounds, bounds_of, count
from regkit.commands.stopping import Stop, complain
from regkit.explain.advice import advice
from regkit.explain.explanation import ExplainSettings, explain
from regkit.explain.page import NotOfHistory
from regkit.explain.searched import what_to_do
from regkit.explain.shrinking import MOST_RUNS
from regkit.history.inputs import STANDARD_INPUT, TooLong, read_input, shown_name
from regkit.history.operations import History, NoRegister, NotAHistory, read_history
from regkit.history.texts import Contradictory
from regkit.judging.failures import file_failure, program_failure, refusal_advice
from regkit.judging.other_forms import NotTaken, decide_any, hint_of
from regkit.words.colour import CHOICES, painter
from regkit.words.phrases import counted
from regkit.words.progress import Progress
from regkit.words.quoting import plain, quoted

HELP = "say in sentences why a history isn't linearizable"
EPILOG = """\
examples:
  regkit explain history.jsonl
  regkit explain history.jsonl history.report
  regkit explain store/latest/history.edn                 a file of any form that `regkit convert` takes
  regkit explain --register user:1 history.jsonl | less

For each register that isn't linearizable:
  - the contradiction, with the values, the processes and the lines of each operation; of a stale read, the
    fresh one too;
  - the first read that can't be explained, and how many there are;
  - the writes that were answered and then lost, and what to ask before the store is blamed;
  - the calls that were open at the same time, the likely culprit first;
  - a time line.

A read can't be explained if its reply makes the lines so far not linearizable. Failed calls, and the reads
before it that can't be explained, are left out of these lines.

Of a history that regsearch decided, the fault is made small first, in at most 200 runs of regsearch: as few
operations and replies as it takes. Then follow what the value can be before the reply, and why no order gives it.

exit status:
  0  linearizable: there is nothing to explain
  1  not linearizable, and explained
  2  the history is refused, or the report visibly isn't of it (`regkit verify` checks every claim)
  3  wrong command line
  4  input, memory, output or regcheck failed
  6  unknown: the search gave up at --steps or --configurations
"""
NARROWEST, WIDEST = 40, 120  # characters a line


def add_arguments(parser: argparse.ArgumentParser) -> None:
    parser.add_argument("history", metavar="HISTORY", help="the history; - is standard input")
    parser.add_argument("report", metavar="REPORT", nargs="?", help="its report (default: regcheck is run)")
    parser.add_argument("--register", metavar="NAME", help="explain this register alone")
    parser.add_argument("--most", metavar="N", type=count, default=3,
                        help="explain at most N faulty registers (default %(default)s)")
    add_bounds(parser)
    parser.add_argument("--color", choices=CHOICES, default="auto",
                        help="colour: on a terminal unless NO_COLOR is set (default), always, or never")


def new_report(arguments: argparse.Namespace, data: bytes, progress: Progress) -> tuple[bytes, bytes]:
    """The history in a file of any form, and its report by a new run. Raises Stop."""
    try:
        data, answer, told = decide_any(data, bounds_of(arguments))
    except NotTaken as error:
        raise Stop(ExitStatus.REFUSED, f"refused: {error}", hint_of(error, arguments.history, "explain "
                                                                                              "-")) from error
    if answer.status == ExitStatus.REFUSED:
        hint = refusal_advice(data, answer, arguments.history)
        raise Stop(ExitStatus.REFUSED, f"refused: {answer.refusal}", hint)
    if not answer.decided:
        raise Stop(ExitStatus.FAILED, program_failure(answer))
    for line in told:
        progress.say(f"regkit explain: {plain(line)}", sys.stderr)
    return data, answer.report


def parsed_report(written: bytes) -> Report:
    try:
        return read_report(written)
    except (ValueError, KeyError, TypeError) as error:
        raise Stop(ExitStatus.REFUSED, f"the report is none: {error}") from error


def history_in(arguments: argparse.Namespace, data: bytes, progress: Progress) -> History:
    """The history. It has the register that is asked for."""
    progress.step(f"{plain(shown_name(arguments.history))}: reading", data.count(b"\n"))
    history = read_history(data, progress.reach)
    if arguments.register is not None:
        history.must_have(arguments.register)
    return history


def settings_of(arguments: argparse.Namespace, progress: Progress) -> ExplainSettings:
    width = max(NARROWEST, min(WIDEST, shutil.get_terminal_size((100, 24)).columns))
    return ExplainSettings(arguments.most, arguments.register, width, painter(arguments.color, sys.stdout),
                           bounds_of(arguments), progress.reach)


def explained(arguments: argparse.Namespace, progress: Progress) -> tuple[int, str]:
    """The exit status and the explanation. Raises Stop if there is none."""
    name, register = plain(shown_name(arguments.history)), arguments.register
    # A report of `regkit join` may be of a history that is longer than the checker takes.
    data = read_input(arguments.history, MAX_BYTES if arguments.report is None else None)
    progress.step(f"{name}: checking")
    if arguments.report is None:
        data, written = new_report(arguments, data, progress)
    else:
        written = read_input(arguments.report, None)
    report = parsed_report(written)
    faulty = [row for row in report.faulty if register in (None, row["register"])]
    unknown = [row for row in report.unknown if register in (None, row["register"])]
    if not faulty and unknown:
        return ExitStatus.UNKNOWN, f"{name}: {unknown_in_words(unknown, arguments.most)}"
    if not faulty and register is None:
        operations = counted(report.summary["operations"], "operation")
        return ExitStatus.ATOMIC, f"{name}: linearizable: {operations}, nothing to explain"
    history = history_in(arguments, data, progress)
    if not faulty:
        must_be_judged(report, register)
        words = f"register {quoted(register)} is linearizable, nothing to explain"
        return ExitStatus.ATOMIC, f"{name}: {words}"
    if report.by_search:
        progress.step(f"{name}: making the fault small", MOST_RUNS)
    else:
        progress.step(f"{name}: explaining")
    why = explain(history, report, settings_of(arguments, progress))
    return ExitStatus.NOT_ATOMIC, f"{name}: not linearizable: {how_many(report)}\n\n{why}"


def must_be_judged(report: Report, register: str) -> None:
    """Raises Stop if an early answer ended before the register."""
    if all(row["register"] != register for row in report.rows):
        raise Stop(ExitStatus.REFUSED,
                   f"the report, an early answer, says nothing of register {quoted(register)}")


def unknown_in_words(rows: list[Row], most: int) -> str:
    """The registers that a search gave up, the first few by name, and what to do about them."""
    names = ", ".join(quoted(row["register"]) for row in rows[:max(1, most)])
    more = f" and {len(rows) - most:,} more" if len(rows) > most > 0 else ""
    gave_up = f"unknown: the search gave up on {counted(len(rows), 'register')}, {names}{more}"
    return f"{gave_up}\n  {what_to_do(rows)}"


def how_many(report: Report) -> str:
    """How many registers are faulty. An early answer names one, and there may be more."""
    registers = report.summary["registers"]
    early = "at least " if len(report.rows) < registers else ""
    return f"{early}{len(report.faulty):,} of {counted(registers, 'register')}"


def answer_to(arguments: argparse.Namespace) -> tuple[int, str]:
    """The exit status and what is to be printed on standard output. Raises Stop, whatever goes wrong."""
    try:
        with Progress() as progress, many_objects():
            return explained(arguments, progress)
    except TooLong as error:
        raise Stop(ExitStatus.REFUSED, f"refused: {error}", advice(error.beginning, str(error))) from error
    except NoRegister as error:
        raise Stop(ExitStatus.COMMAND_LINE, str(error)) from error
    except (NotAHistory, Contradictory, NotOfHistory) as error:
        raise Stop(ExitStatus.REFUSED, str(error)) from error
    except OSError as error:
        raise Stop(ExitStatus.FAILED, file_failure(arguments.history, error)) from error
    except NoChecker as error:
        raise Stop(ExitStatus.FAILED, str(error)) from error


def run(arguments: argparse.Namespace) -> int:
    try:
        if arguments.history == arguments.report == STANDARD_INPUT:
            raise Stop(ExitStatus.COMMAND_LINE, "only one of the files can be standard input")
        status, words = answer_to(arguments)
    except Stop as stop:
        name, hint = plain(shown_name(arguments.history)), f"\n  {stop.hint}" if stop.hint else ""
        return complain("explain", f"{name}: {plain(str(stop))}{hint}", stop.status)
    print(words)
    return status
