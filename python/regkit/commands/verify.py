"""`regkit verify`: checks each claim of a report by the definitions alone."""
import argparse
import pathlib
import sys
from typing import Optional

from regkit import verify
from regkit.base.statuses import ExitStatus
from regkit.history.inputs import opened
from regkit.levels.account import heading
from regkit.words.phrases import counted

HELP = "check each claim of a report against its history, by the definitions alone"
EPILOG = """\
examples:
  regcheck h.jsonl > h.report; regkit verify h.jsonl h.report
  regcheck h.jsonl | regkit verify h.jsonl -
  regsearch h.jsonl | regkit verify h.jsonl -
  reglevel --stale --orders h.jsonl | regkit verify h.jsonl -
  regkit verify h.jsonl --refusal h.err       what regcheck wrote to standard error
  regkit verify whole.jsonl joined.report --joined

It trusts neither the program nor its proof. A yes is replayed along its order; a no follows from the few
operations that it names. Safe and regular are decided again for each read, and a refusal by the rules of the
format.

Of a report of regsearch a no is searched again, in a plain way that shares nothing with regsearch. If that would
take too long, the line says so, and the status is 6. Which calls were open at the reply is looked up (`asks`).

Of a report of reglevel each cycle of a no is checked, each count, each first read, and the gap from both sides.
A yes is replayed along its order, or along one that is built here if the report gives none. So is that of causal,
by who knew of what; with very many sessions that would take too long, and the status is 6.

The report may be an early answer (regcheck --first). It gives no order of the registers before the one that
it names, so orders are built here, and replayed.

It doesn't check the choice (which of several true faults, or of several right orders, is named), nor the
layout of the report.

exit status:
  0  each claim holds
  1  one doesn't, and it is named
  2  the report is none of regcheck, regsearch or reglevel, or says nothing of the history
  3  the command line is wrong
  4  a file couldn't be read
  6  each claim that was checked holds, but a no of regsearch would take too long to search again, or that the
     history is causal
"""

REFUSALS = (".err", ".refusal")  # what a file with a refusal is called


def add_arguments(parser: argparse.ArgumentParser) -> None:
    parser.add_argument("history", metavar="HISTORY",
                        help="the history, packed by gzip or not; - is standard input")
    parser.add_argument("report", metavar="REPORT", nargs="?",
                        help="its report; - is standard input; a file .err or .refusal is a refusal's text")
    parser.add_argument("--refusal", metavar="FILE", help="the text of its refusal, in place of REPORT")
    parser.add_argument("--joined", action="store_true",
                        help="a report of `regkit join`: the whole may exceed the limits, and lack its order")


def run(arguments: argparse.Namespace) -> int:
    if (arguments.report is None) == (arguments.refusal is None):
        print("regkit verify: name either a REPORT or a --refusal FILE", file=sys.stderr)
        return ExitStatus.COMMAND_LINE
    if [arguments.history, arguments.report, arguments.refusal].count("-") > 1:
        print("regkit verify: only one of the files can be standard input", file=sys.stderr)
        return ExitStatus.COMMAND_LINE
    try:
        found = verified(arguments)
        open_end = bool(found.nos.unsearched or found.unchecked)
        print(f"{'not all checked' if open_end else 'holds'}: {in_words(found)}")
    except verify.Unreadable as wrong:
        print(f"regkit verify: {wrong}", file=sys.stderr)
        return ExitStatus.REFUSED
    except verify.Wrong as wrong:
        print(f"doesn't hold: {wrong}")
        return ExitStatus.WRONG
    return ExitStatus.UNKNOWN if open_end else ExitStatus.DONE


def verified(arguments: argparse.Namespace) -> verify.Verified:
    refusal = refusal_file(arguments)
    if refusal is not None:  # of the bytes as they are, since regcheck unpacks nothing
        return verify.verify_refusal(content(arguments.history), content(refusal).decode("utf-8", "replace"))
    with opened(arguments.history) as history:
        return verify.verify(history.read(), content(arguments.report), arguments.joined)


def refusal_file(arguments: argparse.Namespace) -> Optional[str]:
    """The file with a refusal's text: the one named as such, or NAME.err beside an empty report."""
    named: Optional[str] = arguments.refusal
    if named is not None or arguments.report == "-":
        return named
    report = pathlib.Path(arguments.report)
    if report.suffix in REFUSALS:
        return str(report)
    beside = report.with_suffix(".err")
    return str(beside) if report.stat().st_size == 0 and beside.is_file() else None


def content(name: str) -> bytes:
    return sys.stdin.buffer.read() if name == "-" else pathlib.Path(name).read_bytes()


def in_words(found: verify.Verified) -> str:
    if found.atomic is None:
        return f"the history is refused{' by regsearch' if found.by_search else ''}: {found.refusal}"
    if not found.registers:
        return "linearizable, since the history has no operation"
    if found.summary is not None:
        unchecked = "; that it is causal would take too long to check" if found.unchecked else ""
        return heading(found.summary) + unchecked
    size = f"{counted(found.operations, 'operation')} on {counted(found.registers, 'register')}"
    if found.early:
        return f"{'linearizable' if found.atomic else 'not linearizable'}, by an early answer: {size}"
    if found.atomic:
        return f"linearizable: {size}"
    open_end = f", {found.unknown:,} of which the search gave up" if found.unknown else ""
    if not found.faulty:
        return f"unknown: {size}{open_end}"
    verb = "is" if found.faulty == 1 else "are"
    faulty = f"{found.faulty:,} of which {verb} not linearizable"
    return f"not linearizable: {size}, {faulty}{open_end}{nos_in_words(found.nos)}"


def nos_in_words(nos: verify.Nos) -> str:
    """How the nos of a report of regsearch were checked. Empty for one of regcheck."""
    said = []
    if nos.by_definition:
        said.append(f"{counted(nos.by_definition, 'no')} by a value that nobody wrote")
    if nos.searched:
        said.append(f"{counted(nos.searched, 'no')} searched again, in all orders")
    if nos.unsearched:
        said.append(f"{counted(nos.unsearched, 'no')} not searched again, which would take too long")
    if nos.listed:
        said.append(f"the open calls of {counted(nos.listed, 'no')} are those listed")
    return "".join(f"; {each}" for each in said)
