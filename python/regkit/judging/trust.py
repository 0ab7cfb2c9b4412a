"""What is taken from a checker's answer. Whatever can't be so raises Untrue."""
from typing import NamedTuple, Optional, Sequence

from regkit.base.statuses import ExitStatus
from regkit.checker.levels import kept, read_levels, strongest
from regkit.checker.programs import Answer, NoChecker, judge_levels
from regkit.checker.report import Report, Row, read_verdict
from regkit.history.lines import NotJson
from regkit.history.operations import read_history
from regkit.judging.outcome import Fault, faults_of, faults_of_search

SHORT = 4_194_304  # bytes of a history that is read in whole, so that a fault names its nearest operations


class Untrue(Exception):
    """The checker's answer doesn't hold."""


def verdict_in(answer: Answer) -> Report:
    """The verdict as the program wrote it. Raises Untrue if it wrote none."""
    try:
        return read_verdict(answer.report)
    except (ValueError, KeyError) as error:
        raise Untrue(str(error)) from error


def check_status(answer: Answer, report: Report) -> None:
    """Raises Untrue if regsearch didn't end as its report says."""
    due = (ExitStatus.NOT_ATOMIC if report.faulty else
           ExitStatus.UNKNOWN if report.unknown else ExitStatus.ATOMIC)
    if answer.by_search and answer.status != due:
        raise Untrue(f"its exit status is {answer.status}, and by its report {int(due)}")


def faults_in(data: bytes, answer: Answer, rows: Sequence[Row]) -> list[Fault]:
    """The faults of some registers in sentences. Raises Untrue if they can't be of this history."""
    from regkit.explain.excerpt import excerpt  # only a fault waits for this

    try:
        if answer.by_search:  # it may need each call of the register
            return faults_of_search(read_history(data), rows)
        return faults_of(read_history(data) if len(data) <= SHORT else excerpt(data, rows), rows)
    except (KeyError, TypeError, ValueError, NotJson) as error:
        raise Untrue("its faults aren't those of the history") from error


class Kept(NamedTuple):
    """What a history kept that isn't atomic, as far as it is known."""

    levels: Optional[list[str]] = None  # the strongest ones
    gap: Optional[int] = None  # in events


def levels_kept(data: bytes) -> Kept:
    """What a history kept that isn't atomic. Nothing is known if reglevel isn't there, or gives no report.
    Raises Untrue if it calls the history atomic."""
    try:
        summary = read_levels(judge_levels(data).report).summary
    except (NoChecker, ValueError):
        return Kept()
    found = kept(summary)
    if "atomic" in found:
        raise Untrue("reglevel calls the history atomic")
    return Kept(strongest(found), summary.get("gap"))


def unknown_advice(report: Report) -> str:
    """What to do about the registers that a search gave up; empty if there are none. Raises Untrue if they
    name no bound."""
    if not report.unknown:
        return ""
    from regkit.explain.searched import what_to_do  # only who needs it waits for this

    try:
        return what_to_do(report.unknown)
    except (KeyError, TypeError) as error:
        raise Untrue("it names no bound where it is unknown") from error


def verify_report(data: bytes, answer: Answer) -> int:
    """Checks each claim of a report. Returns how many nos of a search would take too long to check. Raises
    Untrue if a claim doesn't hold."""
    from regkit import verify  # only who asks for it waits for this

    try:
        return verify.verify(data, answer.report).nos.unsearched
    except verify.Wrong as error:
        raise Untrue(str(error)) from error


def verify_refusal(data: bytes, answer: Answer) -> None:
    """Raises Untrue if the history needn't be refused, or for another reason."""
    from regkit import verify

    try:
        verify.verify_refusal(data, answer.refusal, answer.by_search)
    except verify.Wrong as error:
        raise Untrue(str(error)) from error
