"""Counts the completed reads of a history, no more of them than the settings ask for."""
from typing import Optional

from regkit.checker.programs import Answer
from regkit.checker.report import least_completed_reads
from regkit.evidence.evidence import Evidence, count_evidence, evidence_of_beginning
from regkit.history.operations import NotAHistory, read_history
from regkit.judging.settings import CheckSettings
from regkit.words.progress import Progress


def first_evidence(data: bytes, settings: CheckSettings) -> Optional[Evidence]:
    """The evidence in the beginning of a history that may not be accepted; None if that can't be counted."""
    try:
        return None if settings.count_all else evidence_of_beginning(data)
    except NotAHistory:
        return None


def enough_evidence(answer: Answer, found: Optional[Evidence], settings: CheckSettings) -> Optional[Evidence]:
    """The evidence of an accepted history by that of its beginning, with the completed reads that the report
    tells of if these are needed. None if all has to be counted."""
    if found is None or not found.at_least or settings.is_enough(found):
        return found
    by_report = found._replace(completed_reads=least_completed_reads(answer.report))
    return by_report if settings.is_enough(by_report) else None


def whole_evidence(data: bytes, progress: Progress, label: str) -> Evidence:
    """The evidence of all of an accepted history."""
    progress.step(f"{label}: reading", data.count(b"\n"))
    return count_evidence(read_history(data, progress.reach))
