"""Outcomes as annotations: lines that GitHub Actions shows beside the history's own."""
from typing import Optional

from regkit.base.statuses import ExitStatus
from regkit.checker.refusals import read_refusal
from regkit.history.inputs import STANDARD_INPUT
from regkit.judging.outcome import Fault, Outcome, unknown_in_words
from regkit.words.quoting import plain, quoted
from regkit.words.verdicts import VERDICTS


def data(lines: list[str]) -> str:
    """The text of an annotation."""
    return "%0A".join(plain(line).replace("%", "%25") for line in lines)


def member(text: str) -> str:
    """The value of a member of an annotation."""
    return data([text]).replace(":", "%3A").replace(",", "%2C")


def annotation(level: str, outcome: Outcome, line: Optional[int], lines: list[str]) -> str:
    where = [] if outcome.file == STANDARD_INPUT else [f"file={member(outcome.file)}"]
    if where and line and not outcome.form:  # it is no line of the file
        where.append(f"line={line}")
    title = f"title={member('regkit: ' + VERDICTS[outcome.status])}"
    return f"::{level} {','.join([*where, title])}::{data(lines)}"


def line_of(fault: Fault) -> int:
    """The line of the call that a fault blames: that of a read if it can be; of a search the reply's."""
    told = fault.row["fault"]
    return int(told["second"][1] if told["kind"] == "zones"
               else next(told[key] for key in ("read", "call", "reply") if key in told))


def annotations(outcome: Outcome) -> list[str]:
    """An annotation for each fault that is shown; one for any other verdict than linearizable."""
    if outcome.status == ExitStatus.ATOMIC:
        return []
    if outcome.status == ExitStatus.NOT_ATOMIC and outcome.faults:
        return [annotation("error", outcome, line_of(fault),
                           [f"register {quoted(fault.register)}:", *fault.sentences])
                for fault in outcome.faults]
    refusal = read_refusal(outcome.words)
    level = "warning" if outcome.status == ExitStatus.TOO_LITTLE else "error"
    lines = [outcome.words, *([unknown_in_words(outcome.unknown)] if outcome.unknown else []),
             *([outcome.advice] if outcome.advice else [])]
    return [annotation(level, outcome, refusal.line if refusal else None, lines)]
