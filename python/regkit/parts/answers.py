"""What the runs of the parts left: of each part its report, its refusal, or why it has no answer.

One program checked all parts, `regcheck`, `regsearch` or `reglevel`."""
import json
import pathlib
import resource
import shlex
from contextlib import suppress
from typing import Callable, Iterator, NamedTuple, Optional, Union

from regkit.base.statuses import ExitStatus
from regkit.checker.levels import CAUSAL, LEVELS, kept
from regkit.checker.programs import CHECK, LEVEL, SEARCH, find_program
from regkit.checker.refusals import (BAD_OP, REPEATED, SEARCH_TEXTS, TEXTS, Refusal, read_refusal,
                                     same_line)
from regkit.checker.report import Row
from regkit.parts.folder import MAP, LineMap, Manifest, file_of

STATUSES = {"yes": ExitStatus.ATOMIC, "no": ExitStatus.NOT_ATOMIC, "unknown": ExitStatus.UNKNOWN}
LineOf = Callable[[int], int]


class Answered(NamedTuple):
    """A part with a report: what its summary says, and where its lines are in the whole."""

    part: int
    program: str  # which wrote the report
    report: pathlib.Path
    line_of: LineOf
    summary: Row

    @property
    def atomic(self) -> str:
        """Yes, no or unknown."""
        return str(self.summary["atomic"])


class RefusedPart(NamedTuple):
    """A part that was refused."""

    part: int
    program: Optional[str]  # which refused it, if the other one would have said something else
    refusal: Refusal
    words: str  # the program's own, with the lines of the part


class Unanswered(NamedTuple):
    """A part without an answer, and why."""

    part: int
    why: str


PartOutcome = Union[Answered, RefusedPart, Unanswered]


def outcomes(directory: str, manifest: Manifest) -> Iterator[PartOutcome]:
    """What came of each part, in the order of the parts."""
    allow_open_files(2 * manifest.parts)
    registers = [0] * manifest.parts
    for part in manifest.registers:
        registers[part] += 1
    for part in range(manifest.parts):
        try:
            yield outcome(directory, part, registers[part], line_map(directory, part, manifest))
        except FileNotFoundError as missing:
            yield Unanswered(part, f"{missing.filename} is missing")
        except ValueError as error:
            yield Unanswered(part, str(error))


def line_map(directory: str, part: int, manifest: Manifest) -> LineOf:
    if manifest.lines == MAP:
        return LineMap(file_of(directory, part, "lines"))
    return same_line


def allow_open_files(count: int) -> None:
    """Up to two files of each part are open at once, and many systems allow 1,024 unless they are asked."""
    least = count + 64
    soft, hard = resource.getrlimit(resource.RLIMIT_NOFILE)
    if soft < least:
        with suppress(ValueError, OSError):
            resource.setrlimit(resource.RLIMIT_NOFILE, (least, hard))


def outcome(directory: str, part: int, registers: int, line_of: LineOf) -> PartOutcome:
    """What one run left. Raises FileNotFoundError and ValueError if that isn't whole."""
    status = file_of(directory, part, "status").read_text(encoding="utf-8", errors="replace").strip()
    words = file_of(directory, part, "err").read_text(encoding="utf-8", errors="replace").strip()
    if status == str(int(ExitStatus.REFUSED)):
        refusal = read_refusal(words, line_of)
        if refusal is None:
            return Unanswered(part, f"unexpected refusal: {words}")
        return RefusedPart(part, program_of_refusal(refusal), refusal, words)
    verdicts = {str(int(number)): said for said, number in STATUSES.items()}
    if status not in verdicts:
        return Unanswered(part, f"status {status or 'unknown'}" + (f": {words}" if words else ""))
    report = file_of(directory, part, "report")
    first, summary = ends_of(report, registers)
    program = program_of_report(first if registers else summary, bool(registers))
    if verdicts[status] not in verdicts_of(summary, program):
        raise ValueError(f"{report} does not fit its status {status}")
    return Answered(part, program, report, line_of, summary)


def program_of_report(row: Row, is_register: bool) -> str:
    """Which program wrote the line of a register; or a summary, if there are no registers."""
    if "session" in row:
        return LEVEL
    return SEARCH if ("cas" in row if is_register else "order" not in row) else CHECK


def verdicts_of(summary: Row, program: str) -> set[str]:
    """What a program's exit status may say with this summary. That of reglevel is of any level."""
    if program == LEVEL:
        causal = [summary[CAUSAL]] if CAUSAL in summary else []
        return {*("yes" if level in kept(summary) else "no" for level in LEVELS), *causal}
    return {summary["atomic"]}


def program_of_refusal(refusal: Refusal) -> Optional[str]:
    """Which program refuses so, if the other one doesn't."""
    if refusal.text in SEARCH_TEXTS.values():
        return SEARCH
    return CHECK if refusal.number == REPEATED or refusal.text == TEXTS[BAD_OP] else None


def ends_of(report: pathlib.Path, registers: int) -> tuple[Row, Row]:
    """The first and the last line of a report. Raises ValueError unless there is a line for each register
    before the summary."""
    lines, first, last = 0, b"", b""
    with open(report, "rb") as stream:
        for lines, last in enumerate(stream, 1):
            first = first or last
    if lines != registers + 1:
        raise ValueError(f"{report} has {lines} lines; {registers} registers and the summary need one each")
    try:
        row, summary = dict(json.loads(first)), dict(json.loads(last))
        whole = summary["registers"] == registers and {"atomic", "operations"} <= set(summary)
    except (ValueError, KeyError, TypeError):
        whole = False
    if not whole or not last.endswith(b"\n"):
        raise ValueError(f"{report} does not end with the summary of {registers} registers")
    return row, summary


def command_again(directory: str, part: int, program: str) -> str:
    """The command for a shell that runs a part once more."""
    path = find_program(program) or program
    history, report, words, status = (shlex.quote(str(file_of(directory, part, ending)))
                                      for ending in ("jsonl", "report", "err", "status"))
    return f"{shlex.quote(path)} {history} > {report} 2> {words}; echo $? > {status}"
